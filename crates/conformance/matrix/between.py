"""Registers in the middle of another's sequence: each access of a driver has one of another register, window or slot before it."""
from .actions import reads_by_selectors, reads_registers, serves_each, stops_and_starts
from .by_hand import up, written_out
from .first_rows import of_between
from .drivers import (DEVICE_SEL, DRIVER_FEATURES, DRIVER_SEL, INTERRUPT_ACK, NOTIFY, QUEUE_NUM, QUEUE_READY, QUEUE_SEL,
                      STATUS, WRITE,
                      Buffer)
from .follows import TEXT, Guest, Life, Setup
from .histories import LEGS, outside
from .story import Slot, plain_image

TITLE = "Registers between a driver's accesses"
HOW = ("A driver brings its window up, reads what selectors select, serves chains, stops its queues and is reset. Before each "
       "of its accesses comes another one: of its own window, of the slot's other window, of another slot, or an event of "
       "another kind. It is told what it is told without.")
COLUMNS = ("What comes between", "Where")
FOLDERS = {"between_writes": "Writes of another window's or slot's registers between a driver's accesses.",
           "between_others": "Reads, writes that aren't answered, and other events between a driver's accesses."}

DEVICES = {"b": "disk", "c": "console"}
# What is written to a register of another window; its name.
ADDRESSES = {offset: (0x1000, 0, 0xffffffff) for offset in (0x080, 0x084, 0x090, 0x094, 0x0a0, 0x0a4)}
VALUES = {DEVICE_SEL: (1, 0, 7), DRIVER_FEATURES: (0xffffffff, 0, 1), DRIVER_SEL: (1, 0, 7), QUEUE_SEL: (1, 0, 7),
          QUEUE_NUM: (2, 0, 256), QUEUE_READY: (1, 0, 2), NOTIFY: (0, 1, 7), INTERRUPT_ACK: (3, 1, 2), STATUS: (0xf, 0, 0x80),
          **ADDRESSES, 0x0ac: (1, 0, 7)}
REGISTERS = {DEVICE_SEL: "device_features_sel", DRIVER_FEATURES: "driver_features", DRIVER_SEL: "driver_features_sel",
             QUEUE_SEL: "queue_sel", QUEUE_NUM: "queue_num", QUEUE_READY: "queue_ready", NOTIFY: "queue_notify",
             INTERRUPT_ACK: "interrupt_ack", STATUS: "status", 0x080: "queue_desc_low", 0x084: "queue_desc_high",
             0x090: "queue_driver_low", 0x094: "queue_driver_high", 0x0a0: "queue_device_low", 0x0a4: "queue_device_high",
             0x0ac: "shm_sel"}
READ = [0x000, 0x004, 0x008, 0x00c, 0x010, 0x034, 0x044, 0x060, 0x070, 0x0b0, 0x0fc, 0x100, 0x104, 0x114, 0x020, 0x030,
        0x038]
EVENTS = ["mr 0 480000000 4", "mw 0 48000f000 41", "in 0 -", "sz 0 50 19", "mr 0 0 1", "mw 0 0 41", "r 5 b 070 4",
          "w 5 b 070 4 00000000", "w 1 c 108 1 21", "in 1 41", "sz 1 1 1", "w 0 c 108 4 00000022"]


class Interrupted(Guest):
    """A driver before each of whose accesses come these lines."""

    def __init__(self, life, between):
        super().__init__(life)
        self.between = between

    def do(self, word, fields):
        if word in "rw":
            for line in self.between:
                self.life.do(line)
        return super().do(word, fields)


def lives(guest, window, setup):
    """A life in which each selector selects and each register is used."""
    guest.reset(window)
    reads_by_selectors(guest, window, setup)
    guest.begin(window, setup)
    serves_each(guest, window)
    reads_registers(guest, window, setup)
    stops_and_starts(guest, window, setup)
    guest.reset(window)


def a_notify_in_the_setup():
    """Queue 0 is live and has nothing on offer; it is notified while queue 1 is made ready."""
    return written_out("between_others/a_notify_in_the_setup_of_the_other_queue",
                       "A notify of a console's first queue comes between the accesses that make the second one ready.", f"""
        mw 0 80005000 74 > 0 done - 0 0
        mw 0 80006000 00500080000000000100000000000000 > 0 done - 0 0
        mw 0 80007000 000001000000 > 0 done - 0 0
        {up()}
        w 0 c 030 4 00000001 > 0 done - 0 0
        w 0 c 050 4 00000000 > 0 done - 0 0
        w 0 c 038 4 00000004 > 0 done - 0 0
        w 0 c 050 4 00000000 > 0 done - 0 0
        w 0 c 080 4 80006000 > 0 done - 0 0
        w 0 c 090 4 80007000 > 0 done - 0 0
        w 0 c 050 4 00000000 > 0 done - 0 0
        w 0 c 0a0 4 80008000 > 0 done - 0 0
        w 0 c 044 4 00000001 > 0 done - 0 0
        w 0 c 050 4 00000001 > 0 done 74 0 1
        mr 0 80008000 c > 0 b:000001000000000000000000 - 0 1
        w 0 c 030 4 00000000 > 0 done - 0 1
        r 0 c 044 4 > 0 v:00000001 - 0 1
        """, shows=[("notifies of a queue", "the other queue's setup")])


def stories():
    yield of_between()
    yield a_notify_in_the_setup()
    for turn, (offset, values) in enumerate(VALUES.items()):
        for window in "bc":
            yield of_other_window(turn, window, offset, values)
            yield of_other_slot(turn, window, offset, values)
    for window in "bc":
        for words, between in others(window):
            yield story_of(f"between_others/{words}_between_a_{DEVICES[window]}_s_accesses", window, [between] * (2 if len(between) < 8 else 1),
                           words.replace("_", " "), "its own window, the other one, another slot")


def of_other_window(turn, window, offset, values):
    other, name = LEGS[window][0], REGISTERS[offset]
    lines = [f"w 0 {other} {offset:03x} 4 {value:08x}" for value in values]
    return story_of(f"between_writes/{name}_of_the_{DEVICES[other]}_between_a_{DEVICES[window]}_s_accesses", window,
                    [[line] for line in lines], name, "the slot's other window", turn)


def of_other_slot(turn, window, offset, values):
    name = REGISTERS[offset]
    lines = [f"w 1 {window} {offset:03x} 4 {value:08x}" for value in values]
    return story_of(f"between_writes/{name}_of_another_slot_between_a_{DEVICES[window]}_s_accesses", window,
                    [[line] for line in lines], name, "another slot", turn + 1)


def others(window):
    """Accesses that change nothing of the driver's window, by what they are."""
    other = LEGS[window][0]
    yield "reads_of_its_registers", [f"r 0 {window} {offset:03x} 4" for offset in READ]
    yield "reads_of_the_other_window", [f"r 0 {other} {offset:03x} 4" for offset in READ]
    yield "reads_of_another_slot", [f"r 1 {window} {offset:03x} 4" for offset in READ]
    for offset, name in REGISTERS.items():
        narrow = [f"w 0 {window} {offset:03x} {width} {'01' * width}" for width in (1, 2)]
        beside = [f"w 0 {window} {offset + more:03x} 4 00000001" for more in (1, 2, 3)]
        yield f"writes_beside_{name}", narrow + beside
    nothing = [offset for offset in range(0, 0x108, 4) if offset not in REGISTERS]
    yield "writes_that_are_ignored", [f"w 0 {window} {offset:03x} 4 ffffffff" for offset in nothing[:20] + nothing[-4:]]
    yield "other_events", EVENTS


def neighbours_live(life, window, have_faults):
    """The slot's other window and the other slot's same one come up, and have a chain on offer, or one with a fault behind them."""
    for slot, (other, index) in (0, LEGS[window]), (1, LEGS[LEGS[window][0]]):
        guest = Guest(life, slot)
        guest.bring_up(other, Setup(size=2))
        serves_each(guest, other)
        if have_faults:
            outside(guest, other, index)
            guest.notify(other, index)
        else:
            guest.offer(other, index, [Buffer(guest.room + TEXT, 1, WRITE if other == "b" else 0)])


def story_of(name, window, betweens, what, where, turn=0):
    def script(life):
        for number, between in enumerate(betweens):
            guest = Interrupted(life, between)
            if number or len(betweens) == 1:
                neighbours_live(life, window, number == 2)
            lives(guest, window, Setup((turn + number) % 2 == 0, (turn // 2 + number) % 2 == 0, 4, number % 2))
        for slot, other in (0, LEGS[window][0]), (1, window):
            reads_registers(Guest(life, slot), other, None)

    slots = [Slot(base=0x480000000, count=4), Slot(start=4, count=4)]
    return Life(name, f"{what.replace('_', ' ').capitalize()} of {where} come before each access of a driver.", script,
                slots, image=plain_image(),
                shows=[(what.replace("_", " "), "each access of a driver")])
