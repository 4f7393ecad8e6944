"""Memories of several regions: each area, table and buffer lies in each of them, at its first and at its last bytes."""
from .drivers import INDIRECT, STATUS, WRITE, Buffer, joined
from .first_rows import first
from .follows import Guest, Life, Setup, Wide
from .in_flight import Asking
from .requests import FLUSH, IN, OUT, header
from .story import SECTOR

TITLE = "Parts in regions"
HOW = ("A memory has two to eight regions, from its first page to its last address. Each area of a queue, each table, header, part of the data "
       "and status lies in each region in turn, where it begins or where it ends; then a buffer goes one byte over a region's end.")
COLUMNS = ("What", "Of how many regions")
FOLDERS = {"parts": "Areas, tables and buffers in each region of a memory, where it begins and where it ends."}

LENGTH = 0x1000
# Neighbours with a page between them, some across a power of two, and the last addresses.
BASES = (0x1000, 0x3000, 0x7ffff000, 0xffffe000, 0x100000000, 0x5000000000, 0x8000000000000000, 2**64 - LENGTH)
COUNTS = {2: (BASES[0], BASES[7]), 3: BASES[2:5], 5: BASES[1:6], 8: BASES}


def stories():
    yield by_hand()
    for count, bases in COUNTS.items():
        for is_packed in (False, True):
            for is_hosted in (False, True):
                yield of(count, bases, is_packed, is_hosted)


def by_hand():
    """A transmit queue whose areas lie in a region each; its text ends one and begins the next."""
    lines = """
w 0 c 070 4 00000003 > 0 done - 0 0
w 0 c 024 4 00000001 > 0 done - 0 0
w 0 c 020 4 00000001 > 0 done - 0 0
w 0 c 070 4 0000000b > 0 done - 0 0
w 0 c 030 4 00000001 > 0 done - 0 0
w 0 c 038 4 00000004 > 0 done - 0 0
w 0 c 080 4 90000fc0 > 0 done - 0 0
w 0 c 090 4 a0000000 > 0 done - 0 0
w 0 c 0a0 4 80000fd8 > 0 done - 0 0
w 0 c 044 4 00000001 > 0 done - 0 0
r 0 c 044 4 > 0 v:00000001 - 0 0
w 0 c 070 4 0000000f > 0 done - 0 0
mw 0 80000ffe 6162 > 0 done - 0 0
mw 0 90000000 63 > 0 done - 0 0
mw 0 90000fc0 fe0f0080000000000200000001000100 > 0 done - 0 0
mw 0 90000fd0 00000090000000000100000000000000 > 0 done - 0 0
mw 0 a0000000 000001000000 > 0 done - 0 0
w 0 c 050 4 00000001 > 0 done 616263 0 1
mr 0 80000fd8 c > 0 b:000001000000000000000000 - 0 1
mw 0 90000fd0 ff0f0090000000000200000000000000 > 0 done - 0 1
mw 0 a0000002 020000000000 > 0 done - 0 1
w 0 c 050 4 00000001 > 0 done - 0 3
r 0 c 070 4 > 0 v:0000004f - 0 3
"""
    slot = Wide(0x80000000, 0x1000, others=((0x90000000, 0x1000), (0xa0000000, 0x1000)))
    return first("parts/areas_of_three_regions_by_hand", "Three areas in three regions, a text at an end and a beginning, and a buffer past an end.",
                 lines, slots=[slot])


class Parts:
    """A driver whose areas lie in region `turn_of_regions` and in others behind it, where they end if `at_end`."""

    turn_of_regions, at_end = 0, False

    def bases(self):
        return [region.base for region in self.memory().regions]

    def areas(self, window, index, home=None):
        bases, found = self.bases(), []
        for which in range(3):
            base = bases[(self.turn_of_regions + which * (1 + index)) % len(bases)]
            room = (128, 32, 80)[which]
            slot = 3 * (index + (window == "c")) + which
            found.append(base + LENGTH - 0x400 + 0x80 * slot - (0x80 if slot == 8 else 0) if not self.at_end else self.flush_with(base, slot, room))
        return found

    def flush_with(self, base, slot, room):
        """The last bytes of a region, or of what other areas leave of it."""
        return base + LENGTH - room if slot % 3 == (self.turn_of_regions + 2) % 3 else base + LENGTH - 0x100 - 0x80 * slot


class Over(Parts, Guest):
    pass


class Host(Parts, Asking):
    pass


def of(count, bases, is_packed, is_hosted):
    slot = Wide(bases[0], LENGTH, others=tuple((base, LENGTH) for base in bases[1:]))

    def script(life):
        guest = (Host if is_hosted else Over)(life)
        for guest.turn_of_regions in range(count):
            for guest.at_end in (False, True):
                setup = Setup(True, is_packed, (4, 8)[guest.turn_of_regions % 2], 0)
                guest.bring_up("b", setup)
                guest.bring_up("c", setup)
                for in_table in (False, True):
                    requests(guest, in_table)
                    texts(guest, in_table)
                past_an_end(guest, setup)

    kind, disk = "packed" if is_packed else "split", "hosted_" if is_hosted else ""
    return Life(f"parts/{kind}_in_{count}_regions_of_a_{disk}slot", f"Each part in each of {count} regions.", script, [slot], hosted=is_hosted,
                shows=[(f"areas, tables and buffers, {kind}", str(count))])


def place(guest, which, length, at_end):
    """So many bytes at the front of a region, or at the end of its first half."""
    bases = guest.bases()
    base = bases[(guest.turn_of_regions + which) % len(bases)]
    return base + (0x800 - length if at_end else 0)


def ends(guest, which):
    """The end of a region."""
    bases = guest.bases()
    return bases[(guest.turn_of_regions + which) % len(bases)] + LENGTH


def offered(guest, window, index, buffers, in_table):
    """A chain, or a table in a region of its own."""
    ring = guest.ring(window, index)
    guest.turn += 1
    if in_table:
        entries = buffers if ring.is_packed else joined(buffers)
        at = place(guest, 5 + guest.turn, 16 * len(buffers), guest.turn % 2)
        guest.put(at, b"".join(ring.entry(one, following) for following, one in enumerate(entries, 1)))
        buffers = [Buffer(at, 16 * len(buffers), INDIRECT)]
    ring.offer(buffers)


def requests(guest, in_table):
    """A read and a write whose header, two parts of data and status lie in four regions, and a flush whose empty buffer is at an end."""
    header_at, done = place(guest, 1, 16, in_table), place(guest, 2, 1, not in_table)
    parts = [(place(guest, 3, 200, True) - 0x100, 200), (place(guest, 4, SECTOR - 200, False) + 0x40, SECTOR - 200)]
    for kind in (IN, OUT, FLUSH):
        guest.put(header_at, header(kind, guest.turn % 3))
        guest.put(done, b"\xee")
        flag = WRITE if kind == IN else 0
        data = [Buffer(at, count, flag) for at, count in parts] if kind != FLUSH else []
        if kind == OUT:
            for at, count in parts:
                guest.put(at, bytes([guest.turn % 256]) * count)
        empty = [Buffer(ends(guest, 3), 0, WRITE)] if kind == FLUSH and ends(guest, 3) < 2**64 else []
        offered(guest, "b", 0, [Buffer(header_at, 16), *data, *empty, Buffer(done, 1, WRITE)], in_table)
        guest.notify("b", 0)
        for at, count in parts:
            guest.look(at + count - 3, 4)
        guest.look(done, 1)
        guest.ends("b", 0)


def texts(guest, in_table):
    """A text in four regions goes out; what is typed comes into four."""
    parts = [(place(guest, which, 3, which % 2) + (0x20 if which % 2 == 0 else -0x20), 3) for which in range(4)]
    for turn, (at, count) in enumerate(parts):
        guest.put(at, bytes([0x41 + 4 * (guest.turn % 5) + turn]) * count)
    offered(guest, "c", 1, [Buffer(at, count) for at, count in parts], in_table)
    guest.notify("c", 1)
    guest.ends("c", 1)
    offered(guest, "c", 0, [Buffer(at, count, WRITE) for at, count in parts], in_table)
    guest.type(b"typed %04d" % guest.turn)
    for at, count in parts:
        guest.look(at, count)
    guest.ends("c", 0)


def past_an_end(guest, setup):
    """A buffer that begins in a region and ends one byte behind it; behind one of the same region that doesn't."""
    at = ends(guest, 1)
    offered(guest, "c", 1, [Buffer(at - 4, 4), Buffer((at - 4) % 2**64, 5)], False)
    guest.notify("c", 1)
    guest.read("c", STATUS)
    guest.bring_up("c", setup)
