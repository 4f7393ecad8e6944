"""Boards of 17 and of 64 slots, each slot in another state: what one does is seen in no other, however far away."""
import random

from .actions import ACTIONS, LEFT_OUT, serves_each
from .by_hand import written_out
from .drivers import (ACKNOWLEDGE, DEVICE_SEL, DRIVER, DRIVER_FEATURES, DRIVER_SEL, FEATURES_OK, INTERRUPT_ACK, NOTIFY,
                      QUEUE_READY, QUEUE_SEL, STATUS, WRITE, Buffer, number)
from .follows import DATA, DONE, HEADER, INDICES, ROOM, TEXT, Guest, Life, Setup, Wide
from .guests import identity
from .histories import LIVES
from .in_flight import Asking
from .requests import GET_ID, IN, header
from .saved import restore, saved
from .story import BASE, SECTOR, Slot

TITLE = "Each action among many slots"
HOW = ("Slots stand in other states, with other features, rings, sizes, identities and bases. They take actions and histories by turns, and before each "
       "its own registers are read and its queues used, so that it shows whatever any other slot has done since. Or all are brought up, used and "
       "acknowledged step by step, in rising and in falling order and from both ends. Memories are at one address, at others, or adjoin.")
COLUMNS = ("What each slot does", "Among")
FOLDERS = {"apart": "Each action of each of 17 or 64 slots, which no other sees."}

LENGTH = 0x4000
# What is read of a window before each action of its slot.
SEEN = (0x010, 0x034, 0x044, 0x060, 0x070, 0x0fc, 0x100, 0x104)


def stories():
    yield by_hand()
    for name, board in BOARDS.items():
        for turn, order in enumerate(ORDERS):
            yield in_steps(name, board(), turn, order)
        yield by_turns(name, board(), 11)


def by_hand():
    """Selectors, bits that stand and typed bytes of slot 5 of 64, and what slots 1, 2, 4, 5, 7, 16, 32 and 33 further see."""
    others = "".join(f"""
        r {5 + away:x} b 034 4 > {5 + away:x} v:00000100 - 0 2
        r {5 + away:x} b 010 4 > {5 + away:x} v:30004244 - 0 2
        r {5 + away:x} c 060 4 > {5 + away:x} v:00000002 - 0 2
        r {5 + away:x} c 0fc 4 > {5 + away:x} v:00000001 - 0 2""" for away in (1, 2, 4, 5, 7, 16, 32, 33))
    before = "".join(f"""
        w {5 + away:x} c 070 4 00000004 > {5 + away:x} done - 0 0
        sz {5 + away:x} {away:x} 1 > {5 + away:x} done - 0 2""" for away in (0, 1, 2, 4, 5, 7, 16, 32, 33))
    return written_out("apart/what_slot_5_does_by_hand", "Slot 5 of 64 selects, acknowledges and is reset; the others have what they had.", f"""{before}
        w 5 b 030 4 00000001 > 5 done - 0 2
        w 5 b 014 4 00000001 > 5 done - 0 2
        r 5 b 034 4 > 5 v:00000000 - 0 2
        r 5 b 010 4 > 5 v:00000045 - 0 2
        w 5 c 064 4 00000002 > 5 done - 0 0
        sz 5 9 9 > 5 done - 0 2
        w 5 c 070 4 00000000 > 5 done - 0 0{others}
        r 5 c 0fc 4 > 5 v:00000002 - 0 0
        """, slots=[Slot(length=0x1000, count=0, identity=bytes(20))] * 64)


# --- boards

def pattern(slot):
    """Four bits that are a slot's own, and no period of the slots'."""
    return (slot * 0x9e3779b1 >> 13) % 16


def setup_of(slot, life=0):
    """How a slot's windows come up in one of its lives."""
    bits = pattern(slot + 67 * life)
    is_packed = bool(bits & 2)
    return Setup(bool(bits & 1), is_packed, ((4, 5, 7, 8) if is_packed else (4, 8, 16, 4))[bits >> 2], bits >> 3)


def base_of(slot):
    """Each byte but the lowest is another in each slot."""
    return sum((37 * slot + 11 * at + 5) % 256 << 8 * at for at in range(2, 8)) | slot % 4 << 14


def slots_of(count, base, name=identity, **more):
    """Each has two sectors or three, and a size whose four bytes are its own. Where the host has some disks, the trace is an extended one."""
    sectors = [2 + slot % 2 for slot in range(count)]
    sizes = [number(0x01030509 * (slot + 1) % 2**32, 4) for slot in range(count)]
    return [(Wide if more else Slot)(base(slot), LENGTH, sum(sectors[:slot]), sectors[slot], "ro" if pattern(slot) == 9 else "rw",
                                     int.from_bytes(sizes[slot][:2], "little"), int.from_bytes(sizes[slot][2:], "little"), name(slot),
                                     **{word: value(slot) for word, value in more.items()}) for slot in range(count)]


def late_identity(slot):
    """All slots have the first 18 bytes."""
    return b"the same first part"[:18] + number(slot * 257 + 1, 2)


def one_byte(slot):
    """Each slot's differs from the next in one byte."""
    found = bytearray(20)
    found[slot % 20] = slot + 1
    return bytes(found)


# By how memories lie: at one address, at others, one behind another; and by who has the disks.
BOARDS = {"64_slots_at_one_address": lambda: slots_of(64, lambda _: BASE),
          "64_slots_at_others": lambda: slots_of(64, base_of, one_byte),
          "17_slots_that_adjoin": lambda: slots_of(17, lambda slot: BASE + LENGTH * slot, late_identity),
          "33_slots_of_both_kinds": lambda: slots_of(33, lambda slot: BASE - LENGTH * slot, late_identity, disk=lambda slot: "host:1" if pattern(slot) & 1 else "image")}
ORDERS = {"rising": lambda count: range(count), "falling": lambda count: range(count - 1, -1, -1),
          "from_both_ends": lambda count: [at // 2 if at % 2 else count - 1 - at // 2 for at in range(count)]}


def image_of(slots):
    """Sectors whose first and last bytes are their number."""
    return b"".join(number(at + 1, 2) + bytes([at % 251]) * (SECTOR - 4) + number(at + 1, 2) for at in range(sum(slot.count for slot in slots)))


def life_of(name, about, what, board, script, slots):
    return Life(f"apart/{board}_{name}", about, script, slots, image=image_of(slots), shows=[(what, board.replace("_", " "))])


# --- step by step

def bring_up(guest, window, setup):
    """The accesses of a bring-up, with what shows each before the next; every second slot selects in the other order."""
    guest.setup = setup
    order = -1 if pattern(guest.slot) & 4 else 1
    steps = [("w", STATUS, 0), ("w", STATUS, ACKNOWLEDGE | DRIVER)]
    for selector in (1, 0)[::order]:
        steps += [("w", DEVICE_SEL, selector), ("r", 0x010)]
    for selector, value in ((0, guest.low(window, setup)), (1, setup.high()))[::order]:
        steps += [("w", DRIVER_SEL, selector), ("w", DRIVER_FEATURES, value)]
    steps += [("w", STATUS, ACKNOWLEDGE | DRIVER | FEATURES_OK), ("r", STATUS)]
    for index in INDICES[window][::order]:
        steps.append(("w", QUEUE_SEL, index))
        steps += [("w", offset, value) for offset, value in guest.values(window, index, setup).items()]
        steps.append(("r", QUEUE_READY))
    return [*steps, ("w", STATUS, 0xf), ("r", STATUS)]


def step(guest, window, word, offset, *value):
    guest.read(window, offset) if word == "r" else guest.write(window, offset, *value)


def offers(guest, window, index):
    """A chain of a queue is on offer, and nobody is told."""
    guest.acknowledges = False
    if (window, index) == ("b", 0):
        guest.put(guest.room + HEADER, header(GET_ID if guest.turn % 2 else IN))
        guest.put(guest.done, b"\xee")
        guest.offer("b", 0, [Buffer(guest.room + HEADER, 16), Buffer(guest.room + DATA, SECTOR, WRITE), Buffer(guest.done, 1, WRITE)])
    elif index == 0:
        guest.put(guest.room + ROOM, b"\xee" * 8)
        guest.offer("c", 0, [Buffer(guest.room + ROOM, 5, WRITE)])
    else:
        guest.put(guest.room + TEXT, bytes([guest.slot, guest.turn % 256, 0x80 + guest.slot]))
        guest.offer("c", 1, [Buffer(guest.room + TEXT, 3)])


def looks(guest, window, index):
    """What a service leaves."""
    guest.ring(window, index).look()
    guest.look(guest.room + (DATA if window == "b" else ROOM), 8)
    guest.look(guest.done, 1)


def in_steps(board, slots, turn, order):
    """All slots take each step before any takes the next."""
    def script(life):
        guests = [Asking(life, slot=slot) for slot in range(len(slots))]
        order_of = list(ORDERS[order](len(slots)))

        def each(deed):
            for slot in order_of:
                deed(guests[slot])

        for window in "bc" if turn % 2 else "cb":
            setups = [setup_of(slot, turn) for slot in range(len(slots))]
            each(lambda guest: guest.clear(window, setups[guest.slot]))
            steps = [bring_up(guest, window, setups[guest.slot]) for guest in guests]
            for at in range(len(steps[0])):
                each(lambda guest: step(guest, window, *steps[guest.slot][at]))
        each(lambda guest: guest.type(bytes([guest.slot + 1, 0x40 + guest.slot, 0xff - guest.slot])))
        each(lambda guest: pattern(guest.slot) % 4 == 0 and guest.type(bytes([0x80 + guest.slot]) * 4100))
        for window, index in (("b", 0), ("c", 1), ("c", 0)) * 2:
            each(lambda guest: offers(guest, window, index))
            each(lambda guest: guest.notify(window, index))
            each(lambda guest: looks(guest, window, index))
        each(lambda guest: guest.resize(0x0101 * (guest.slot + 1), 0xffff - 0x0101 * guest.slot))
        for deed in ends():
            each(deed)
            for window, offset in (("b", 0x060), ("c", 0x060), ("b", STATUS), ("c", STATUS)):
                each(lambda guest: guest.read(window, offset))
        each(lambda guest: serves_each(guest, "c"))

    return life_of(f"{order}_step_by_step", "All slots are brought up, used, acknowledged and reset step by step.", "brought up, used, acknowledged and reset", board,
                   script, slots)


def ends():
    """Every second slot acknowledges a bit, and then the others; then every third is reset, fails, or stops a queue."""
    for window in "cb":
        for odd in (0, 1):
            yield lambda guest, window=window, odd=odd: pattern(guest.slot) % 2 == odd and guest.write(window, INTERRUPT_ACK, 1 + pattern(guest.slot) // 2 % 3)
    yield lambda guest: guest.slot % 3 == 0 and guest.reset("b" if guest.slot % 2 else "c")
    yield lambda guest: guest.slot % 3 == 1 and guest.write("b" if guest.slot % 2 else "c", STATUS, 0x80)
    yield lambda guest: guest.slot % 3 == 2 and guest.write("b" if guest.slot % 2 else "c", QUEUE_READY, 0)


# --- by turns

def of_register(window, offset, value):
    return lambda guest: guest.write(window, offset, value + guest.slot if value > 0xff else value)


def of_action(window, action):
    return lambda guest: action(guest, window, guest.setup)


def of_history(window, history):
    def deed(guest):
        guest.acknowledges = bool(guest.turn % 3)
        history(guest, window, setup_of(guest.slot, guest.turn))
    return deed


def is_restored(guest):
    """A snapshot from before a reset of both windows comes back."""
    snapshot = saved(guest)
    for window in "bc":
        guest.reset(window)
    restore(guest, snapshot)


def is_told(guest):
    """All that a host may say of its disk."""
    for word in ("hold", "drop", "release", "io"):
        guest.do(word, "0 done" if word == "io" else "")


REGISTERS = [(STATUS, 0), (STATUS, 0x80), (INTERRUPT_ACK, 1), (INTERRUPT_ACK, 2), (QUEUE_SEL, 1), (DEVICE_SEL, 1), (DRIVER_SEL, 1),
             (DRIVER_FEATURES, 0x1000), (0x038, 3), (QUEUE_READY, 0), (NOTIFY, 1), (0x080, 0x10000), (0x094, 0x1000), (0x0a4, 0x1000), (0x0ac, 0x1000)]
DEEDS = [of_action(window, action) for window in "bc" for name, action in ACTIONS[window].items() if name.removeprefix("comes_up_without_") not in LEFT_OUT[::2]] \
    + [of_history(window, history) for window in "bc" for history in LIVES.values()] \
    + [of_register(window, offset, value) for window in "bc" for offset, value in REGISTERS]
# What a plain trace has no word for.
OF_EXTENDED = (is_restored, is_told)
random.Random(121).shuffle(DEEDS)


def by_turns(board, slots, rounds):
    """Each slot in turn shows what it has, and takes its next action."""
    def script(life):
        guests = [Asking(life, slot=slot) for slot in range(len(slots))]
        deeds = [OF_EXTENDED[at % 2] if life.extended and at % 18 == 0 else deed for at, deed in enumerate(DEEDS)]
        for guest in guests:
            for window in "bc":
                guest.bring_up(window, setup_of(guest.slot))
        for turn in range(rounds):
            for guest in guests[::1 if turn % 2 else -1]:
                shows(guest)
                deeds[(guest.slot * 7 + turn * 13) % len(deeds)](guest)
        for guest in guests:
            shows(guest)

    return life_of("by_turns", "Each slot shows what it has, and takes another action than the others.", "each action and each history", board, script, slots)


def shows(guest):
    """The registers of both windows, and a chain of each queue."""
    for window in "bc":
        for offset in SEEN:
            guest.read(window, offset)
    guest.look(guest.room + DATA, 24)
    for window in "bc":
        serves_each(guest, window)
