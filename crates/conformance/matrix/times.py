"""Each thing that a guest does, 258 times: what is counted in 8 bits begins again there."""
from .actions import (asks_in_a_table, asks_what_is_unknown, event_at, flushes, goes_on, puts_a_table_out, puts_a_text_out,
                      reads_a_sector, reads_past_the_end, reads_registers, reads_the_identity, serves,
                      types_before_a_chain, types_for_a_chain, types_for_a_table, types_nothing, writes_a_sector,
                      zeroes_a_sector)
from .by_hand import written_out
from .drivers import (DRIVER_FEATURES, DRIVER_SEL, INTERRUPT_ACK, NEXT, NOTIFY, QUEUE_NUM, QUEUE_READY, QUEUE_SEL, STATUS, WRITE, Buffer,
                      number)
from .follows import DONE, HEADER, INDICES, Guest, Life, Setup, Wide
from .in_flight import REQUESTS, Asking
from .requests import FLUSH, IN, OUT, WRITE_ZEROES, header, segment
from .saved import restore, saved
from .story import SECTOR, Slot

TITLE = "Each thing 258 times"
HOW = ("Each thing that a guest or a host does is done 258 times, and what comes of it is looked at each time: the 256th and the 257th are as "
       "the first. Then each queue is used, and all registers are read.")
COLUMNS = ("What", "Where")
FOLDERS = {"times": "Each thing that a guest or a host does, 258 times, and completions 65,537 times."}
TIMES = 258


# --- what a window is asked

def without_status(guest, window, setup):
    """A request without a writable byte."""
    guest.put(guest.room + HEADER, header(FLUSH))
    guest.offer("b", 0, [Buffer(guest.room + HEADER, 16)])
    guest.notify("b", 0)
    guest.ends("b", 0)


def refuses_features(guest, window, setup):
    """Features that aren't offered, written before FEATURES_OK, which is refused."""
    guest.write(window, STATUS, 0)
    guest.write(window, DRIVER_FEATURES, 8)
    guest.write(window, DRIVER_SEL, 1)
    guest.write(window, DRIVER_FEATURES, 1)
    guest.write(window, STATUS, 0xb)
    guest.read(window, STATUS)


def refuses_ready(guest, window, setup):
    """A queue that isn't ready is refused for its size."""
    index = INDICES[window][-1]
    guest.write(window, QUEUE_SEL, index)
    guest.write(window, QUEUE_READY, 0)
    guest.write(window, QUEUE_NUM, 257)
    guest.write(window, QUEUE_READY, 1)
    guest.read(window, QUEUE_READY)


def moves_selectors(guest, window, setup):
    """Each selector is written, and what it selects is read."""
    for selector in (1, 0):
        for offset, register in ((0x014, 0x010), (0x030, 0x034), (0x0ac, 0x0b0)):
            guest.write(window, offset, selector + guest.turn % 2)
            guest.read(window, register)
    guest.turn += 1


def notifies_other_queues(guest, window, setup):
    for value in (2, 0xffff, 0x100, 0x80000000):
        guest.write(window, NOTIFY, value)


def reads_configuration(guest, window, setup):
    for width in (1, 2, 4):
        guest.read(window, 0x100, width)


def wants_none(guest, window, setup):
    """A chain of each queue, of which the driver wants no notification."""
    for index in INDICES[window]:
        ring = guest.ring(window, index)
        guest.put(ring.areas[1] + (2 if ring.is_packed else 0), number(1, 2))
        serves(guest, window, index)


def wants_another(guest, window, setup):
    """A chain of the last queue, and the event is at the place behind it."""
    index = INDICES[window][-1]
    event_at(guest, window, index, 1)
    serves(guest, window, index)


def is_restored(guest, window, setup):
    """A slot is saved, a chain is served, and it is restored; then the same chain is served again."""
    snapshot = saved(guest)
    restore(guest, snapshot)
    guest.read(window, STATUS)
    serves(guest, window, INDICES[window][-1])


def restore_is_refused(guest, window, setup):
    """A snapshot of another slot is refused."""
    snapshot = saved(guest)
    snapshot.sectors += 1
    restore(guest, snapshot)


def is_resized(guest, window, setup):
    guest.turn += 1
    guest.resize(guest.turn, 0x20)
    guest.read("c", 0x0fc)
    guest.read("c", 0x100)


def fails(guest, window, setup):
    """A read, a write and zeroes, each of which may fail."""
    guest.request(header(IN, 4 + guest.turn % 4), SECTOR)
    guest.request(header(OUT, 1) + bytes([guest.turn % 256]) * SECTOR)
    guest.request(header(WRITE_ZEROES) + segment(2, 1))


def acknowledges_twice(guest, window, setup):
    """A chain is served, and each bit is acknowledged twice."""
    serves(guest, window, INDICES[window][-1])
    for bit in (2, 1, 1):
        guest.write(window, INTERRUPT_ACK, bit)


OF_DISK = [reads_a_sector, writes_a_sector, flushes, reads_the_identity, zeroes_a_sector, asks_what_is_unknown, reads_past_the_end,
           asks_in_a_table, without_status, wants_none, wants_another]
OF_CONSOLE = [puts_a_text_out, puts_a_table_out, types_for_a_chain, types_for_a_table, types_before_a_chain, types_nothing, wants_none,
              wants_another]
OF_REGISTERS = [refuses_features, refuses_ready, moves_selectors, notifies_other_queues, reads_configuration, acknowledges_twice, is_resized]
OF_SNAPSHOTS = [is_restored, restore_is_refused]


def stories():
    yield by_hand()
    for is_packed in (False, True):
        for window, actions in (("b", OF_DISK), ("c", OF_CONSOLE)):
            for action in actions:
                yield many(window, action, is_packed)
        yield many("b", fails, is_packed, fails=list(range(40, 1400)), cache=1)
        for name in REQUESTS:
            yield completed(name, is_packed)
        if not is_packed:
            yield completions(is_packed)
            yield flushed()
    for window in "bc":
        for action in OF_REGISTERS:
            yield many(window, action, False)
        for action in OF_SNAPSHOTS:
            yield many(window, action, window == "c", [Wide(length=0x10000)])


def named(window, action, is_packed):
    return f"times/{'packed' if is_packed else 'split'}_{'disk' if window == 'b' else 'console'}_{action}"


def many(window, action, is_packed, slots=(Slot(),), **more):
    def script(life):
        guest, setup = Guest(life), Setup(True, is_packed, 4, 0)
        guest.bring_up(window, setup)
        for turn in range(TIMES):
            action(guest, window, setup)
        reads_registers(guest, window, setup)
        goes_on(guest, window, setup)
        guest.bring_up(window, setup)
        goes_on(guest, window, setup)

    return Life(named(window, action.__name__, is_packed), f"258 times: {action.__name__.replace('_', ' ')}.", script, slots,
                shows=[(action.__name__.replace("_", " "), "258 times")], **more)


# --- disks that the host serves

def completed(name, is_packed):
    """A request of a kind, asked and completed 258 times; each third fails."""
    def script(life):
        guest, setup = Asking(life), Setup(True, is_packed, 8, 0)
        guest.bring_up("b", setup)
        for _ in range(TIMES):
            guest.asks(name)
        reads_registers(guest, "b", setup)
    return Life(named("b", f"asks_{name}", is_packed), f"258 times the host is asked: {name.replace('_', ' ')}.", script, [Wide(length=0x10000)],
                hosted=True, shows=[("what the host is asked", "258 times")])


def completions(is_packed):
    """65,537 flushes that the host completes, one by one, of a ring of 256 that is offered anew in each round."""
    def script(life):
        guest, setup = Guest(life), Setup(True, is_packed, 256, 0)
        guest.areas = lambda window, index, home=None: [guest.base + 0x6000, guest.base + 0x7000, guest.base + 0x7800]
        guest.bring_up("b", setup)
        guest.put(guest.room + HEADER, header(FLUSH))
        ring = guest.ring("b", 0)
        named_table = ring.table([Buffer(guest.room + HEADER, 16), Buffer(guest.room + DONE, 1, WRITE)])
        if not is_packed:
            guest.put(ring.areas[0], ring.entry(named_table, 0))
        for turn in range(257):
            offer_all(guest, named_table)
            guest.notify("b", 0)
            for at in range(256 if turn < 256 else 2):
                guest.do("io", "0 failed" if at % 7 == 6 else "0 done")
            guest.look(guest.room + DONE, 1)
            guest.ends("b", 0)
    return Life(named("b", "65537_completions", is_packed), "65,537 flushes are completed one by one.", script, [Wide(length=0x10000)], hosted=True,
                shows=[("completions", "65,537")])


def flushed():
    """65,792 flushes in services of 256, of FLUSH and of OUT without data in turn."""
    def script(life):
        guest, setup = Guest(life), Setup(False, False, 256, 0)
        guest.areas = lambda window, index, home=None: [guest.base + 0x6000, guest.base + 0x7000, guest.base + 0x7800]
        guest.bring_up("b", setup)
        ring = guest.ring("b", 0)
        for at, kind in ((0, FLUSH), (2, OUT)):
            guest.put(guest.room + HEADER + 16 * at, header(kind))
            guest.put(ring.areas[0] + 16 * at, ring.entry(Buffer(guest.room + HEADER + 16 * at, 16, NEXT), at + 1)
                      + ring.entry(Buffer(guest.room + DONE + at, 1, WRITE), 0))
        guest.put(ring.areas[1] + 4, (number(0, 2) + number(2, 2)) * 128)
        for turn in range(257):
            guest.put(guest.room + DONE, b"\xee" * 3)
            guest.put(ring.areas[1] + 2, number(256 * (turn + 1) % 65536, 2))
            guest.notify("b", 0)
            guest.look(guest.room + DONE, 3)
            guest.ends("b", 0)
    return Life(named("b", "65792_flushes", False), "65,792 requests flush the image, 256 in each service.", script, shows=[("flushes", "65,792")])


def offer_all(guest, table):
    """A whole ring of this table's descriptor is on offer."""
    ring = guest.ring("b", 0)
    if ring.is_packed:
        mark = ring.mark(ring.place)
        guest.put(ring.areas[0], ring.entry(table, 7, mark) * 256)
    else:
        guest.put(ring.areas[1] + 2, number((ring.place + 256) % 65536, 2))


def by_hand():
    """Three flushes of one ring of 1."""
    return written_out("times/three_flushes_by_hand", "A flush is served three times: each is told and used as the first.", """
        w 0 b 070 4 00000003 > 0 done - 0 0
        w 0 b 024 4 00000001 > 0 done - 0 0
        w 0 b 020 4 00000001 > 0 done - 0 0
        w 0 b 070 4 0000000b > 0 done - 0 0
        w 0 b 038 4 00000002 > 0 done - 0 0
        w 0 b 080 4 80001000 > 0 done - 0 0
        w 0 b 090 4 80002000 > 0 done - 0 0
        w 0 b 0a0 4 80003000 > 0 done - 0 0
        w 0 b 044 4 00000001 > 0 done - 0 0
        w 0 b 070 4 0000000f > 0 done - 0 0
        mw 0 80004000 04000000000000000000000000000000 > 0 done - 0 0
        mw 0 80001000 00400080000000001000000001000100 > 0 done - 0 0
        mw 0 80001010 00500080000000000100000002000000 > 0 done - 0 0
        mw 0 80005000 ee > 0 done - 0 0
        mw 0 80002000 000001000000 > 0 done - 0 0
        w 0 b 050 4 00000000 > 0 done - 1 0
        mr 0 80005000 1 > 0 b:00 - 1 0
        w 0 b 064 4 00000001 > 0 done - 0 0
        mw 0 80002000 00000200 > 0 done - 0 0
        w 0 b 050 4 00000000 > 0 done - 1 0
        mr 0 80003000 14 > 0 b:0000020000000000010000000000000001000000 - 1 0
        mw 0 80002000 00000300 > 0 done - 1 0
        w 0 b 050 4 00000000 > 0 done - 1 0
        mr 0 80003000 4 > 0 b:00000300 - 1 0
        """)
