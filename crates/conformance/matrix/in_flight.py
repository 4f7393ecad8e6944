"""Disks that the host serves: what comes while a request is in flight, after each history, and what a completion says."""
from .actions import event_at, offer_room, reads_registers, text
from .first_rows import of_in_flight
from .drivers import (INTERRUPT_ACK, NOTIFY, QUEUE_NUM, QUEUE_READY, QUEUE_SEL, STATUS, WRITE, Buffer, number)
from .follows import DATA, DONE, HEADER, Guest, Life, Setup, Wide
from .histories import LIVES, outside
from .requests import FLUSH, GET_ID, IN, OUT, WRITE_ZEROES, header, segment
from .saved import restore, saved
from .story import SECTOR

TITLE = "Requests in flight"
HOW = ("The host serves the disk. Each kind of request, with and without room before its status, is in flight while the guest or the "
       "host does each other thing; then it is done or failed. What was read when it was asked counts, and of notifications what "
       "stands at the completion.")
COLUMNS = ("What", "Where")
FOLDERS = {"in_flight": "Requests in flight, and what comes meanwhile.",
           "in_flight_after": "Requests in flight after each history.",
           "in_flight_events": "Notifications of completions: what the driver says changes after the asking.",
           "in_flight_lists": "Packed lists in flight at each position of a ring."}

REQUESTS = {
    "a_read": (header(IN, 1), (SECTOR,)),
    "a_read_in_two_parts": (header(IN), (200, 2 * SECTOR - 200)),
    "a_read_of_nothing": (header(IN, 2), ()),
    "a_write": (header(OUT, 1) + b"\xa5" * SECTOR, ()),
    "a_write_with_room": (header(OUT) + b"\x5a" * SECTOR, (7, 20)),
    "a_flush": (header(FLUSH), ()),
    "a_flush_with_room": (header(FLUSH), (24,)),
    "zeroes": (header(WRITE_ZEROES) + segment(1, 2) + segment(5, 1, 1), ()),
    "zeroes_with_room": (header(WRITE_ZEROES) + segment(0, 1), (16, 1)),
    "zeroes_of_no_sector_with_room": (header(WRITE_ZEROES) + segment(8, 0), (5,)),
}
ONE = Wide(0x80000000, 0x10000)
TWO = [ONE, Wide(0x80000000, 0x10000)]
# The host has the whole disk, wherever the slot line says that it begins.
AT_5 = Wide(0x80000000, 0x10000, start=5)


class Asking(Guest):
    """A driver whose host completes all that is asked; before each completion comes `meanwhile`."""

    requests = REQUESTS

    def __init__(self, life, meanwhile=None, slot=0):
        super().__init__(life, slot)
        self.meanwhile, self.completed = meanwhile, 0
        # What the host says behind the completion.
        self.said_then = ""

    def flight(self):
        return self.life.board[self.slot].tags[0]

    def notify(self, window, index):
        found = super().notify(window, index)
        if window == "b" and self.flight():
            self.finish(self.meanwhile)
        while window == "b" and self.flight():
            self.finish(None)
        return found

    def finish(self, meanwhile):
        """What is in flight is done, or failed each third time."""
        self.completed += 1
        asked, verdict = self.flight(), "failed" if self.completed % 3 == 0 else "done"
        if meanwhile:
            meanwhile(self)
        if self.flight() and asked.kind == "in" and verdict == "done":
            for turn, (at, count) in enumerate(asked.runs):
                self.put(at, bytes([0xc0 + self.completed % 16 + turn]) * count)
        self.do("io", f"0 {verdict}")
        if self.said_then:
            said, self.said_then = self.said_then, ""
            self.do(said)

    def asks(self, name):
        """A request, completed, and what is seen of it."""
        content, rooms = self.requests[name]
        self.put(self.room + HEADER, content)
        self.put(self.done, b"\xee")
        at, data = self.room + DATA, []
        for count in rooms:
            self.put(at, b"\xdd" * min(count, 24))
            data.append(Buffer(at, count, WRITE))
            at += count
        self.offer("b", 0,
                   [Buffer(self.room + HEADER, 16), *self.content_of(content), *data, Buffer(self.done, 1, WRITE)])
        self.notify("b", 0)
        self.look(self.done, 1)
        self.look(self.room + DATA, 48)
        self.ends("b", 0)

    def content_of(self, content):
        return [Buffer(self.room + HEADER + 16, len(content) - 16)] if content[16:] else []


# --- what comes meanwhile

def put_over(at):
    """Memory that the chain names is written."""
    return lambda guest: guest.put(guest.room + at, b"\x77" * 16)


def put_over_ring(area, more, content):
    """A part of the ring is written."""
    def meanwhile(guest):
        ring = guest.ring("b", 0)
        guest.put(ring.areas[area] + (more if more >= 0 else 16 * (ring.place % ring.number)), content)
    return meanwhile


def typed(guest):
    guest.type(b"typed")


def typed_for_a_chain(guest):
    if guest.window("c").live():
        offer_room(guest, 8)
    guest.type(b"more")


def a_text(guest):
    text(guest, 4)


def notified(guest):
    for value in (0, 1, 0x80000000):
        guest.write("b", NOTIFY, value)


def busy(guest):
    for offset, value in ((STATUS, 0), (STATUS, 0xf), (QUEUE_READY, 0), (QUEUE_READY, 1)):
        guest.write("b", offset, value)
    restore(guest, saved(guest))


def of_the_console(guest):
    """The console's registers don't wait."""
    for offset, value in ((QUEUE_SEL, 1), (QUEUE_READY, 0), (QUEUE_READY, 1), (STATUS, 0xf), (STATUS, 0)):
        guest.write("c", offset, value)
    guest.bring_up("c", Setup(size=8))


def busy_at_a_stop(guest):
    """The stop that waits isn't made again: the queue goes on."""
    guest.write("b", QUEUE_READY, 0)


def registers(guest):
    reads_registers(guest, "b", None)


def moved(guest):
    for offset, value in ((QUEUE_SEL, 0), (QUEUE_NUM, 1), (0x080, 0), (0x090, 0), (0x0a4, 1), (0x014, 1), (0x024, 1),
                          (0x020, 0)):
        guest.write("b", offset, value)


def resized(guest):
    guest.resize(guest.turn, 7)


def acknowledged(guest):
    guest.write("b", INTERRUPT_ACK, 3)


def of_another_slot(guest):
    guest.life.do("io 1 0 done")
    guest.life.do("w 1 b 050 4 00000000")
    guest.life.do("in 1 61")


def another_offer(guest):
    """One more chain stands behind the one in flight."""
    at = guest.room + 0x3d00
    guest.put(at, header(FLUSH) + b"\xee")
    guest.ring("b", 0).offer([Buffer(at, 16), Buffer(at + 16, 1, WRITE)])


def a_fault_behind(guest):
    """A chain with a fault stands behind the one in flight."""
    outside(guest, "b", 0)


def over_links(guest):
    """The ids of a packed list, or the flags of a split chain's descriptors, are written."""
    ring = guest.ring("b", 0)
    for more in range(4):
        guest.put(ring.areas[0] + 16 * ((ring.place + more) % ring.number) + 12, b"\x99\x99")


def held_and_released(guest):
    """Nothing is looked at where no tag is free."""
    another_offer(guest)
    for word in ("hold", "hold", "release", "release"):
        guest.do(word)
        guest.write("b", NOTIFY, 0)


def held(guest):
    """The completion takes nothing, and the release behind it does."""
    another_offer(guest)
    guest.do("hold")
    guest.said_then = "release"


def held_at_a_fault(guest):
    """The chain with a fault waits for the release too."""
    a_fault_behind(guest)
    guest.do("hold")
    guest.said_then = "release"


def dropped(guest):
    """The completion finds nothing in flight."""
    guest.do("drop")
    guest.do("drop")
    guest.read("b", STATUS)
    looked_at(guest)


def looked_at(guest):
    """Nothing of the ring is written yet."""
    guest.ring("b", 0).look()
    guest.look(guest.done, 1)


MEANWHILE = [
    looked_at, put_over(HEADER), put_over(DATA), put_over(HEADER + 16), put_over(DONE - 8),
    put_over_ring(0, -1, b"\x11" * 12), put_over_ring(2, 0, b"\x22" * 4), over_links,
    typed, typed_for_a_chain, a_text, notified, busy, busy_at_a_stop, of_the_console, registers, moved, resized, acknowledged,
    of_another_slot, another_offer, a_fault_behind, held_and_released, held, held_at_a_fault, dropped,
]


def stories():
    yield of_in_flight()
    for turn, name in enumerate(REQUESTS):
        for is_packed in (False, True):
            yield meanwhile_of(name, is_packed, turn % 2 == 0)
    for turn, (name, history) in enumerate(LIVES.items()):
        yield after(turn, name, history)
    for is_packed in (False, True):
        for is_rich in (False, True):
            yield events(is_packed, is_rich)
    for size in (1, 2, 3, 4, 5, 7):
        yield lists(size)
    yield many()
    yield far_sectors()


def kind_of(is_packed):
    return "packed" if is_packed else "split"


def meanwhile_of(name, is_packed, is_rich):
    """A request in flight while each other thing comes."""
    def script(life):
        guest, setup = Asking(life), Setup(is_rich, is_packed, 8, 0)
        guest.bring_up("c", setup)
        for guest.meanwhile in MEANWHILE:
            if guest.window("b").status != 0xf:
                guest.bring_up("b", setup)
            guest.acknowledges = False
            for guest.completed in (0, 2):
                guest.asks(name)
            guest.acknowledge("b")
        guest.meanwhile, guest.acknowledges = looked_at, True
        behind_another(guest, name, setup)

    return Life(f"in_flight/{kind_of(is_packed)}_{name}_and_what_comes_meanwhile",
                f"{name.replace('_', ' ').capitalize()}, done and failed, while each other thing comes.", script, TWO,
                hosted=True,
                shows=[(name.replace("_", " "), "in flight beside each other event")])


def behind_another(guest, name, setup):
    """A request behind one that asks nothing: that one is used at once, and the queue is closed once, by the completion."""
    guest.bring_up("b", setup)
    for _ in range(2):
        guest.put(guest.ring("b", 0).areas[2], b"\xee\xee")
        guest.request(header(GET_ID), 20, notifies=False)
        guest.asks(name)


def after(turn, name, history):
    setup = Setup(turn % 2 == 0, turn // 2 % 2 == 0, 4, turn % 2)

    def script(life):
        guest = Asking(life)
        for request in REQUESTS:
            guest.acknowledges = False
            history(guest, "b", setup)
            guest.acknowledges = True
            guest.bring_up("b", Setup(not setup.rich, setup.packed, 4, 0)) if guest.turn % 2 else None
            guest.asks(request)
            guest.asks(request)

    return Life(f"in_flight_after/{name}", f"{history.__doc__} Then requests of each kind.", script, [AT_5, TWO[1]], hosted=True,
                shows=[("requests of each kind", name.replace("_", " "))])


def events(is_packed, is_rich):
    """What the driver says of notifications is one thing when the request is asked, and another at its completion."""
    def says(guest, flag, away):
        ring = guest.ring("b", 0)
        if away is not None:
            event_at(guest, "b", 0, away)
        if flag is not None:
            guest.put(ring.areas[1] + (2 if is_packed else 0), number(flag, 2))

    def script(life):
        guest = Asking(life)
        guest.bring_up("b", Setup(is_rich, is_packed, 4, 0))
        for then, now in ((0, 1), (1, 0), (0, 0), (1, 1)):
            for first in (None, 0, 8):
                for last in (None, 0, 8, 1):
                    guest.meanwhile = lambda one, now=now, last=last: says_of_the_one_in_flight(one, now, last)
                    says(guest, then, first)
                    guest.asks("a_flush")
                    guest.asks("a_read")

    def says_of_the_one_in_flight(guest, flag, away):
        ring = guest.ring("b", 0)
        place = ring.place + (away or 0)
        if is_packed:
            place %= 2 * ring.number
            named = place % ring.number | (0x8000 if place < ring.number else 0)
            guest.put(ring.areas[1], number(named, 2) + number(2 if away is not None else flag, 2))
            return
        guest.put(ring.areas[1], number(flag, 2))
        if away is not None:
            guest.put(ring.areas[1] + 4 + 2 * ring.number, number(place % 65536, 2))

    features = "all_features" if is_rich else "no_feature"
    return Life(f"in_flight_events/{kind_of(is_packed)}_with_{features}",
                "Flags and events change after the asking: those at the completion count.",
                script, [AT_5], hosted=True, shows=[("flags and events", kind_of(is_packed))])


def lists(size):
    """Lists of each length, in flight at each position and in both laps."""
    def script(life):
        guest = Asking(life)
        for length in range(1, size + 1):
            guest.bring_up("b", Setup(True, True, size, 0))
            for turn in range(2 * size + 1):
                asks_in_a_list(guest, length, turn)

    return Life(f"in_flight_lists/a_ring_of_{size}",
                f"Lists of 1 to {size} descriptors in flight at each position of a ring of {size}.", script, [AT_5],
                hosted=True, shows=[("packed lists that end at each position", f"a ring of {size}")])


def many():
    """257 flushes of a disk, each asked, completed and used before the next one."""
    def script(life):
        guest = Asking(life)
        guest.bring_up("b", Setup(size=4))
        for _ in range(257):
            guest.asks("a_flush")

    return Life("in_flight/257_flushes", "257 operations in a row: each is asked, and each completion is taken.", script, [ONE],
                hosted=True, shows=[("257 flushes", "one after another")])


def far_sectors():
    """Reads and writes of sectors above 2^32 of a large disk."""
    def script(life):
        guest = Asking(life)
        guest.bring_up("b", Setup(size=4))
        for sector in ((1 << 32) - 1, 1 << 32, (1 << 32) + 1, (1 << 40) + 5):
            guest.request(header(IN, sector), SECTOR)
            guest.put(guest.room + HEADER, header(OUT, sector) + bytes(SECTOR))
            guest.offer("b", 0, [Buffer(guest.room + HEADER, 16 + SECTOR), Buffer(guest.done, 1, WRITE)])
            guest.notify("b", 0)
            guest.look(guest.done, 1)

    large = Wide(0x80000000, 0x10000, start=5, count=1 << 41)
    return Life("in_flight/far_sectors_of_a_large_disk", "Reads and writes of sectors below and above 2^32.", script, [large],
                hosted=True, shows=[("sectors", "beside 2^32 and above")])


def asks_in_a_list(guest, length, turn):
    """A read whose data stand in as many buffers as the list has room for; a list of one has a table."""
    guest.turn += 1
    ring, at = guest.ring("b", 0), guest.room + DATA
    guest.put(guest.room + HEADER, header(IN, turn % 8) if length != 2 else header(FLUSH))
    guest.put(guest.done, b"\xee")
    cuts = [SECTOR] if length < 4 else [100] * (length - 3) + [SECTOR - 100 * (length - 3)]
    data = [Buffer(at + 100 * place, count, WRITE) for place, count in enumerate(cuts)] if length != 2 else []
    chain = [Buffer(guest.room + HEADER, 16), *data, Buffer(guest.done, 1, WRITE)]
    ring.offer([ring.table(chain)] if length == 1 else chain)
    guest.notify("b", 0)
    guest.look(guest.done, 1)
    guest.ends("b", 0)
