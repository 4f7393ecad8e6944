"""Several operations in flight whose driver names an event before each completion, near what is then used; requests that are answered at once among them."""
from .drivers import INTERRUPT_ACK, NOTIFY, WRITE, Buffer, number
from .first_rows import BEGINS, GOES, first
from .follows import Guest, Life, Setup, Wide
from .further_walks import Device, Driver
from .lots import Dice
from .requests import FLUSH, GET_ID, IN, OUT, WRITE_ZEROES, header, segment
from .story import SECTOR

TITLE = "Events near completions"
HOW = ("A disk of the host, a slot's own or a further one, has several operations in flight. Before each completion, release and notify the driver names an event at the "
       "place that comes, at the places near it, or wants none. Requests that ask nothing stand among the others, and are answered once a tag is free. By lot the disk "
       "is held, released and dropped, and up to four chains come at once.")
COLUMNS = ("Disk", "Ring and depth")
FOLDERS = {"depth_events": "Events that a driver names before each completion of several."}

DEPTHS, STEPS, LENGTH = (1, 2, 3, 5, 64), 240, 0x40000
HEADERS, ROOMS, DISK = 0x30000, 0x34000, Device(0, "disk", 1)


def stories():
    yield by_hand()
    for is_packed in (False, True):
        for depth in DEPTHS:
            for is_further in (False, True):
                yield by_lot(is_packed, depth, is_further)


def by_hand():
    """Two flushes in flight and an identity behind them; the first completion has the identity answered, and isn't told."""
    queue = """
w 0 b 038 4 00000008 > 0 done - 0 0
w 0 b 080 4 80001000 > 0 done - 0 0
w 0 b 090 4 80002000 > 0 done - 0 0
w 0 b 0a0 4 80003000 > 0 done - 0 0
w 0 b 044 4 00000001 > 0 done - 0 0
"""
    lines = """
mw 0 80004000 04000000000000000000000000000000 > 0 done - 0 0
mw 0 80004010 08000000000000000000000000000000 > 0 done - 0 0
mw 0 80001000 0040008000000000100000000100010000500080000000000100000002000000 > 0 done - 0 0
mw 0 80001020 1040008000000000100000000100030000600080000000001500000002000000 > 0 done - 0 0
mw 0 80002000 0000030000000000020000000000000000000000 > 0 done - 0 0
mw 0 80002014 0400 > 0 done - 0 0
w 0 b 050 4 00000000 > 0 done - 0 0 0=flush:0:0:-;1=flush:0:0:-
io 0 0 done > 0 done - 0 0
mr 0 80003000 1c > 0 b:00000200000000000100000002000000150000000000000000000000 - 0 0
io 0 1 done > 0 done - 0 0
mr 0 80003002 2 > 0 b:0300 - 0 0
"""
    begins = BEGINS.replace("w 0 W 024 4 00000001 > 0 done - 0 0", "w 0 W 020 4 20000000 > 0 done - 0 0\nw 0 W 024 4 00000001 > 0 done - 0 0")
    return first("depth_events/an_identity_behind_two_flushes_by_hand", "An identity that waits for a tag is answered at the first completion, and no place is told but the named one.",
                 begins + queue + GOES + lines, slots=[Wide(length=0x10000, disk="host:2")])


class OfSlot(Guest):
    """The driver and the host of a slot's own disk."""

    def tags(self):
        return self.life.board[self.slot].tags

    def host(self, word, fields=""):
        self.do({"done": "io", "failed": "io"}.get(word, word), fields)


class OfDevice(Driver):
    """Of a further disk."""

    def tags(self):
        return self.life.board[self.slot].devices[0].tags

    def host(self, word, fields=""):
        self.do("dio" if word in ("done", "failed") else f"d{word}", f"0 {fields}".strip())


def by_lot(is_packed, depth, is_further):
    def script(life):
        dice = Dice(f"{is_packed} {depth} {is_further}")
        guest = OfDevice(life, 0, [], dice) if is_further else OfSlot(life)
        if is_further:
            guest.do("plug", f"0 disk 8 rw {bytes(range(20)).hex()} {depth:x}")
            guest.devices.append(DISK)
        window, setup = DISK if is_further else "b", Setup(True, is_packed, 16, 0)
        guest.bring_up(window, setup)
        for _ in range(STEPS):
            step(guest, window, setup, dice)

    kind = "packed" if is_packed else "split"
    what = "a further disk" if is_further else "a slot's disk"
    return Life(f"depth_events/{kind}_{'further_disk' if is_further else 'disk'}_of_depth_{depth}", "Before each completion the driver names an event near it.", script,
                [Wide(0x80000000, LENGTH, disk=f"host:{depth:x}")], shows=[(what, f"{kind}, {depth} in flight")])


def step(guest, window, setup, dice):
    """Requests are offered, or what is in flight ends; the events that the driver names before it are by lot."""
    if guest.window(window).status & 0xcf != 0xf:
        guest.host("release")
        guest.bring_up(window, setup)
    names_event(guest, window, dice)
    busy = [tag for tag, asked in enumerate(guest.tags()) if asked]
    turn = dice.below(20)
    if turn == 0:
        guest.host(dice.one(("hold", "release", "release", "drop")))
    elif busy and turn < 12:
        guest.host(word := dice.one(("done", "done", "failed")), f"{dice.one(busy):x} {word}")
    else:
        for _ in range(dice.one((1, 1, 2, 4))):
            offers(guest, window, dice)
        if not dice.is_one_in(5):
            guest.write(window, NOTIFY, 0x5a0000)
    guest.ring(window, 0).look()
    guest.read(window, 0x060)
    if dice.is_one_in(2):
        guest.write(window, INTERRUPT_ACK, 1)


def names_event(guest, window, dice):
    ring, away = guest.ring(window, 0), dice.one((0, 0, 1, 1, 2, 3, 4, 5, 7, 15))
    if not ring.is_packed:
        guest.put(ring.areas[1] + 4 + 2 * ring.number, number((ring.used + away) % 65536, 2))
        return
    place = (ring.used + min(away, ring.number)) % (2 * ring.number)
    guest.put(ring.areas[1], number(place % ring.number | (0x8000 if place < ring.number else 0), 2) + number(dice.one((2, 2, 2, 0, 1)), 2))


def offers(guest, window, dice):
    """A request that asks its host, or one that is answered at once."""
    kind = dice.one((FLUSH, FLUSH, GET_ID, IN, OUT, WRITE_ZEROES, 9))
    guest.turn += 1
    head, room = guest.room + HEADERS + 0x400 * (guest.turn % 16), guest.room + ROOMS + 0x400 * (guest.turn % 16)
    sector = dice.one((0, 3, 7, 8))
    data = bytes([dice.below(256)]) * SECTOR if kind == OUT else segment(sector, 1) if kind == WRITE_ZEROES else b""
    guest.put(head, header(kind, sector) + data)
    count = SECTOR if kind == IN else 20 if kind == GET_ID else 0
    chain = [Buffer(head, 16 + len(data)), *([Buffer(room, count, WRITE)] if count else []), Buffer(room + 0x300, 1, WRITE)]
    guest.offer(window, 0, chain, dice.is_one_in(2))
