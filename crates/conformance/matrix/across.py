"""What lies across an address that is a power of two: its addresses are reckoned in all 64 bits."""
from .actions import goes_on, puts_a_table_out, serves_each, types_for_a_table, wants_one_at_a_place
from .by_hand import written_out
from .drivers import KINDS, WRITE, Buffer
from .follows import Guest, Life, Setup, Wide
from .requests import IN, OUT, WRITE_ZEROES, header, segment
from .story import BASE, SECTOR, Slot

TITLE = "Across a power of two"
HOW = ("A memory lies on both sides of 2^16, 2^31, 2^32, 2^40 and 2^63. Each area of a queue, a table, a header, data, segments, a text, typed "
       "bytes and a status lie across that address, cut there at each entry of theirs.")
COLUMNS = ("What", "Across")
FOLDERS = {"across": "Areas, tables and buffers across an address that is a power of two."}

POWERS, HALF = (16, 31, 32, 40, 63), 0x10000
# How far before the address an area begins, by its kind of ring: each entry is cut off once.
STARTS = {False: (range(16, 128, 16), range(2, 22, 2), range(4, 70, 4)), True: (range(16, 128, 16), (), ())}


class Across(Guest):
    """A driver of a memory round an address, whose queue has one area across it."""

    def __init__(self, life, middle):
        super().__init__(life)
        self.middle, self.moved, self.starts = middle, None, 0

    def areas(self, window, index, home=None):
        found = super().areas(window, index, home)
        if (window, index) == (self.moved or ("", 0))[:2]:
            found[self.moved[2]] = self.middle - self.starts
        return found


def stories():
    yield by_hand()
    for power in POWERS:
        for kind in KINDS:
            yield areas(kind, power)
            yield chains(kind, power)
            yield asked(kind, power)
    for kind in KINDS:
        yield sectors(kind)


def by_hand():
    """A text whose descriptors lie on both sides of 2^32."""
    return written_out("across/a_descriptor_table_by_hand", "The second descriptor of a chain stands at 2^32.", """
        w 0 c 070 4 00000003 > 0 done - 0 0
        w 0 c 024 4 00000001 > 0 done - 0 0
        w 0 c 020 4 00000001 > 0 done - 0 0
        w 0 c 070 4 0000000b > 0 done - 0 0
        w 0 c 030 4 00000001 > 0 done - 0 0
        w 0 c 038 4 00000004 > 0 done - 0 0
        w 0 c 080 4 fffffff0 > 0 done - 0 0
        w 0 c 090 4 00002000 > 0 done - 0 0
        w 0 c 094 4 00000001 > 0 done - 0 0
        w 0 c 0a0 4 00003000 > 0 done - 0 0
        w 0 c 0a4 4 00000001 > 0 done - 0 0
        w 0 c 044 4 00000001 > 0 done - 0 0
        r 0 c 044 4 > 0 v:00000001 - 0 0
        w 0 c 070 4 0000000f > 0 done - 0 0
        mw 0 ffff8000 6162 > 0 done - 0 0
        mw 0 fffffff0 0080ffff0000000001000000010001000180ffff000000000100000000000000 > 0 done - 0 0
        mw 0 100002000 000001000000 > 0 done - 0 0
        w 0 c 050 4 00000001 > 0 done 6162 0 1
        mr 0 100003000 c > 0 b:000001000000000000000000 - 0 1
        """, slots=[Slot(base=2**32 - HALF, length=2 * HALF)])


def of(kind, power, what, script, slot=Slot, **more):
    middle = 1 << power
    return Life(f"across/{kind}_{what}_across_2_to_{power}", f"{what.replace('_', ' ').capitalize()} lie across 2^{power}.",
                lambda life: script(Across(life, middle)), [slot(base=middle - HALF, length=2 * HALF)], **more,
                shows=[(f"{what.replace('_', ' ')}, {kind}", f"2^{power}")])


def areas(kind, power):
    """Each area of each queue, from each entry on."""
    is_packed = kind == "packed"

    def script(guest):
        turn = 0
        for area, starts in enumerate(STARTS[is_packed]):
            for guest.starts in starts:
                window, index = (("b", 0), ("c", 1), ("c", 0))[turn % 3]
                guest.moved = window, index, area
                guest.bring_up(window, Setup(True, is_packed, 8, 0))
                goes_on(guest, window, guest.setup)
                wants_one_at_a_place(guest, window, guest.setup)
                turn += 1
    return of(kind, power, "areas", script)


def chains(kind, power):
    """Tables and buffers, from each of several bytes on."""
    is_packed = kind == "packed"

    def script(guest):
        guest.bring_up("b", Setup(True, is_packed, 8, 0))
        guest.bring_up("c", Setup(True, is_packed, 8, 0))
        for before in (1, 8, 15, 16, 17, 24, 32, 40):
            requests(guest, before)
            console(guest, before)
    return of(kind, power, "tables_and_buffers", script)


def asked(kind, power):
    """What the host is asked, of data cut by that address, behind a header in one buffer with it."""
    def script(guest):
        guest.bring_up("b", Setup(True, kind == "packed", 8, 0))
        data, done = guest.base + 0x8000, guest.base + 0x9000
        for before in (1, 15, 16, 17, 40, SECTOR, SECTOR + 16):
            for content in (header(OUT, 1) + bytes(SECTOR), header(IN, 1)):
                at = guest.middle - before
                guest.put(at if content[0] else data, content)
                chain = [Buffer(at if content[0] else data, len(content)), Buffer(data if content[0] else at, SECTOR, WRITE), Buffer(done, 1, WRITE)]
                guest.offer("b", 0, chain, before % 2 == 0)
                guest.notify("b", 0)
                guest.do("io", "0 done")
                guest.look(done, 1)
                guest.ends("b", 0)
    return of(kind, power, "what_is_asked", script, Wide, hosted=True)


def sectors(kind):
    """Requests of a hosted disk whose sectors lie across a power of two, as sectors or as bytes."""
    def script(life):
        guest = Across(life, BASE + HALF)
        guest.bring_up("b", Setup(False, kind == "packed", 8, 0))
        data, done = guest.base + 0x8000, guest.base + 0x9000
        for power in (7, 8, 15, 16, 22, 23, 24, 31, 32, 33, 40):
            for first in ((1 << power) - 2, (1 << power) - 1, 1 << power):
                for content in (header(IN, first), header(OUT, first) + bytes(3 * SECTOR),
                                header(WRITE_ZEROES) + segment(first, 3) + segment(1 << power, 1, 1) + segment(first - 1, 1)):
                    guest.put(data, content)
                    room = [] if content[0] else [Buffer(data + 0x100, 3 * SECTOR, WRITE)]
                    guest.offer("b", 0, [Buffer(data, len(content)), *room, Buffer(done, 1, WRITE)])
                    guest.notify("b", 0)
                    guest.do("io", "0 failed" if first % 4 == 3 else "0 done")
                    guest.look(done, 1)
                    guest.ends("b", 0)
    return Life(f"across/{kind}_sectors_of_a_hosted_disk", "Sectors across each of eleven powers of two.", script,
                [Wide(length=2 * HALF, start=3, count=1 << 41)], hosted=True, shows=[(f"sectors, {kind}", "2^7 to 2^40")])


def requests(guest, before):
    """A table, a header, data to be written and read, segments, and a status."""
    middle, data, done = guest.middle, guest.base + 0x8000, guest.base + 0x9000
    readable = header(OUT, 1) + bytes([before]) * SECTOR, header(WRITE_ZEROES) + segment(2, 1) + segment(3, 1), header(IN, 1)
    for content in readable:
        for at, room in ((middle - before, data), (data, middle - before)):
            guest.put(at, content)
            guest.put(done, b"\xee")
            ask(guest, [Buffer(at, len(content)), Buffer(room, SECTOR, WRITE), Buffer(done, 1, WRITE)], room)
    guest.put(data, readable[2])
    ask(guest, [Buffer(data, 16), Buffer(middle - SECTOR, SECTOR + 1, WRITE)], middle - before)
    for content in readable:
        table_at(guest, middle - before, content)


def ask(guest, buffers, room, in_table=False):
    guest.offer("b", 0, buffers, in_table)
    guest.notify("b", 0)
    for at in (room, guest.middle - 16):
        guest.look(at, 32)
    guest.look(guest.base + 0x9000, 1)
    guest.ends("b", 0)


def table_at(guest, at, content):
    """A request in a table that begins here."""
    ring, data = guest.ring("b", 0), guest.base + 0x8000
    entries = [Buffer(data, 16), Buffer(data + 16, max(1, len(content) - 16)), Buffer(data + 0x400, SECTOR, WRITE), Buffer(data + 0x1000, 1, WRITE)]
    links = [(1, 1), (1, 2), (3, 3), (2, 0)]
    guest.put(data, content)
    guest.put(at, b"".join(ring.entry(Buffer(one.address, one.length, one.flags if ring.is_packed else flags), link)
                           for one, (flags, link) in zip(entries, links)))
    ask(guest, [Buffer(at, 64, 4)], data + 0x400)


def console(guest, before):
    """A text and typed bytes."""
    at = guest.middle - before
    guest.put(at, bytes(range(0x41, 0x41 + before + 8)))
    guest.offer("c", 1, [Buffer(at, before + 8)])
    guest.notify("c", 1)
    guest.ends("c", 1)
    guest.offer("c", 0, [Buffer(at, before + 8, WRITE)])
    guest.type(bytes(range(0x61, 0x61 + before + 4)))
    guest.look(at, before + 8)
    guest.ends("c", 0)
    puts_a_table_out(guest, "c", guest.setup)
    types_for_a_table(guest, "c", guest.setup)
    serves_each(guest, "c")
