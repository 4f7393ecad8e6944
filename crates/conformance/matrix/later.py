"""What is used again 255, 256, 257 or 65,536 chains later, after it changed: a device that knew it by a counter finds it old."""
from .actions import reads_registers
from .by_hand import up, written_out
from .drivers import INDIRECT, KINDS, NEXT, WRITE, Buffer, number
from .follows import Guest, Life, Setup, Wide
from .requests import GET_ID, IN, OUT, WRITE_ZEROES, header, segment
from .saved import restore, saved
from .story import SECTOR, Slot

TITLE = "The same thing later"
HOW = ("A table, descriptors, a header, a sector, a snapshot is used, and changed; others come, one in each service or many, and 255, 256, 257 and "
       "65,536 later it is used again: as it then is.")
COLUMNS = ("What is used again", "How much later")
FOLDERS = {"later": "What is used again 256 and 65,536 chains, requests, zeroings or restores later."}

DISTANCES, FAR = (255, 256, 257), (255, 256, 257, 511, 512, 513, 65535, 65536, 65537)
TEXT, OTHER, TABLE, DONE, ROOM = 0x8000, 0x8800, 0x9000, 0x9800, 0xa000
LENGTH = 0x10000


class Later(Guest):
    """A driver whose queues have 256 entries, and whose fillers are one chain that is offered again and again."""

    def areas(self, window, index, home=None):
        at = self.base + (0x1000 if window == "b" or index else 0x4000)
        return [at, at + 0x1000, at + 0x1400]

    def use(self, window, index, buffers, count=1):
        """A chain on offer that many times, in one service."""
        ring, head = self.ring(window, index), 0x40
        place = ring.place
        if ring.is_packed:
            one = [(at, buffer) for at, buffer in enumerate(buffers)]
            entries = [ring.entry(Buffer(buffer.address, buffer.length, buffer.flags | (NEXT if at < len(buffers) - 1 else 0)), 7,
                                  ring.mark(place + at + turn * len(buffers))) for turn in range(count) for at, buffer in one]
            ring.put_round(place % 256, entries)
        else:
            self.put(ring.areas[0] + 16 * head, b"".join(ring.entry(
                Buffer(buffer.address, buffer.length, buffer.flags | (NEXT if at < len(buffers) - 1 else 0)), head + at + 1)
                for at, buffer in enumerate(buffers)))
            ring.put_round(place % 256, [number(head, 2)])
            self.put(ring.areas[1], number(0, 2) + number((place + 1) % 65536, 2))
        self.notify(window, index)

    def fill(self, window, index, filler, count, alone):
        """So many chains of another one: each in a service of its own, or as many as the ring has in each."""
        while count:
            ring = self.ring(window, index)
            many = 1 if alone else min(count, 256 // len(filler) if ring.is_packed else 256)
            if ring.is_packed:
                self.use(window, index, filler, many)
            else:
                entries = [number(0, 2)] * many
                ring.put_round(ring.place % 256, entries)
                self.put(ring.areas[1] + 2, number((ring.place + many) % 65536, 2))
                self.notify(window, index)
            self.acknowledge(window) if alone and count % 16 == 0 else None
            count -= many


def stories():
    yield by_hand()
    for kind in KINDS:
        yield texts(kind)
        yield rooms(kind)
        yield requests(kind)
        yield sectors(kind)
        yield snapshots(kind)


def by_hand():
    """The same head, whose descriptor changed between two services."""
    return written_out("later/a_descriptor_that_changed_by_hand", "A descriptor is served, changed, and served again.", up(1) + """
        mw 0 80004000 6162 > 0 done - 0 0
        mw 0 80001000 00400080000000000100000000000000 > 0 done - 0 0
        mw 0 80002000 000001000000 > 0 done - 0 0
        w 0 c 050 4 00000001 > 0 done 61 0 1
        mw 0 80001000 01 > 0 done - 0 1
        mw 0 80002000 000002000000 > 0 done - 0 1
        w 0 c 050 4 00000001 > 0 done 62 0 1
        mr 0 80003000 4 > 0 b:00000200 - 0 1
        """)


def life(kind, what, script, slot=Slot(length=LENGTH), **more):
    def begun(one):
        guest = Later(one)
        guest.bring_up("b", Setup(True, kind == "packed", 256, 0))
        guest.bring_up("c", Setup(True, kind == "packed", 256, 0))
        script(guest)
    return Life(f"later/{kind}_{what}", f"{what.replace('_', ' ').capitalize()} that change are used again 256 and 65,536 later.", begun, [slot],
                shows=[(what.replace("_", " "), f"255 to 257, 65,536, {kind}")], **more)


def each_distance(far):
    """How many come between, and whether each has a service of its own."""
    return [(count, True) for count in DISTANCES] + [(count, False) for count in (FAR if far else DISTANCES)]


def filler_of(guest, window, index):
    """An empty text, or an empty room, at descriptor 0 of a split ring."""
    filler, ring = [Buffer(guest.room + OTHER, 0 if index else 1, 0 if index else WRITE)], guest.ring(window, index)
    if not ring.is_packed:
        guest.put(ring.areas[0], ring.entry(filler[0], 0))
    return filler


def in_table(guest, window, index, buffers):
    """A table at one place of memory, and what names it."""
    ring = guest.ring(window, index)
    flags = [0 if ring.is_packed or at == len(buffers) - 1 else NEXT for at in range(len(buffers))]
    guest.put(guest.room + TABLE, b"".join(ring.entry(Buffer(one.address, one.length, one.flags | more), at + 1)
                                           for at, (one, more) in enumerate(zip(buffers, flags))))
    return [Buffer(guest.room + TABLE, 16 * len(buffers), INDIRECT)]


def texts(kind):
    """A table of one text, then of another; the same descriptors in the ring."""
    def script(guest):
        guest.put(guest.room + TEXT, bytes(range(0x41, 0x5b)))
        filler = filler_of(guest, "c", 1)
        for turn, (count, alone) in enumerate(each_distance(kind == "split")):
            for is_table in (True, False):
                for again in (0, 1):
                    at = guest.room + TEXT + (2 * turn + again) % 20
                    buffers = [Buffer(at, 2), Buffer(at + 3, 1)]
                    guest.use("c", 1, in_table(guest, "c", 1, buffers) if is_table else buffers)
                    if not again:
                        guest.fill("c", 1, filler, count - 1, alone)
        guest.ends("c", 1)
    return life(kind, "tables_and_descriptors_of_texts", script)


def rooms(kind):
    """The same of room for typed bytes; a byte is typed for each filler."""
    def script(guest):
        filler = filler_of(guest, "c", 0)
        for turn, (count, _) in enumerate(each_distance(False)):
            for again in (0, 1):
                at = guest.room + ROOM + 0x10 * ((turn + again) % 3)
                guest.put(guest.room + ROOM, b"\xee" * 0x40)
                guest.type(b"xyz")
                guest.use("c", 0, in_table(guest, "c", 0, [Buffer(at, 2, WRITE), Buffer(at + 4, 1, WRITE)]))
                guest.look(guest.room + ROOM, 0x40)
                if not again:
                    guest.type(b"f" * (count - 1))
                    guest.fill("c", 0, filler, count - 1, False)
        guest.ends("c", 0)
    return life(kind, "tables_of_rooms", script)


def requests(kind):
    """A header, a table and descriptors of a read of another sector each time; the fillers name the disk."""
    def script(guest):
        guest.put(guest.room + OTHER, header(GET_ID))
        filler = [Buffer(guest.room + OTHER, 16), Buffer(guest.room + OTHER + 0x100, 21, WRITE)]
        ring = guest.ring("b", 0)
        if not ring.is_packed:
            guest.put(ring.areas[0], ring.entry(Buffer(filler[0].address, 16, NEXT), 1) + ring.entry(filler[1], 0))
        for turn, (count, alone) in enumerate(each_distance(False)):
            for is_table in (True, False):
                for again in (0, 1):
                    read(guest, (turn + 3 * again) % 8, guest.room + ROOM + 0x400 * again, is_table)
                    if not again:
                        guest.fill("b", 0, filler, count - 1, alone)
    return life(kind, "headers_and_tables_of_requests", script)


def read(guest, sector, room, is_table):
    guest.put(guest.room + TEXT, header(IN, sector))
    guest.put(guest.room + DONE, b"\xee")
    buffers = [Buffer(guest.room + TEXT, 16), Buffer(room, SECTOR, WRITE), Buffer(guest.room + DONE, 1, WRITE)]
    guest.use("b", 0, in_table(guest, "b", 0, buffers) if is_table else buffers)
    guest.look(room, 2)
    guest.look(room + SECTOR - 2, 2)
    guest.look(guest.room + DONE, 1)
    guest.put(room, bytes(2))


def sectors(kind):
    """A cached sector is zeroed or written; as many zeroings, writes or reads of others come, and it is read."""
    def script(guest):
        for turn, count in enumerate(DISTANCES):
            for first, other in ((WRITE_ZEROES, WRITE_ZEROES), (OUT, OUT), (WRITE_ZEROES, OUT), (OUT, WRITE_ZEROES), (OUT, IN), (WRITE_ZEROES, IN)):
                changes(guest, OUT, 1, 0x60 + turn)
                read(guest, 1, guest.room + ROOM, False)
                changes(guest, first, 1, 0x70 + turn)
                changes(guest, other, 5, 0x50, count - 1)
                changes(guest, other, 6, 0x51)
                read(guest, 1, guest.room + ROOM, False)
                read(guest, 6, guest.room + ROOM, False)
    return life(kind, "sectors", script, cache=16)


def changes(guest, kind, sector, byte, count=1):
    """A sector is written or zeroed, or read, so many times."""
    data = header(kind, sector) + (segment(sector, 1) if kind == WRITE_ZEROES else b"")
    guest.put(guest.room + OTHER, data)
    guest.put(guest.room + TABLE, bytes([byte]) * SECTOR)
    chain = [Buffer(guest.room + OTHER, len(data))] + ([Buffer(guest.room + TABLE, SECTOR)] if kind == OUT else [])
    chain += ([Buffer(guest.room + ROOM, SECTOR, WRITE)] if kind == IN else []) + [Buffer(guest.room + DONE, 1, WRITE)]
    ring = guest.ring("b", 0)
    if ring.is_packed:
        while count:
            many = min(count, 256 // len(chain))
            guest.use("b", 0, chain, many)
            count -= many
        return
    guest.put(ring.areas[0], b"".join(ring.entry(Buffer(one.address, one.length, one.flags | (NEXT if at < len(chain) - 1 else 0)), at + 1)
                                      for at, one in enumerate(chain)))
    guest.fill("b", 0, chain, count, False)


def snapshots(kind):
    """A snapshot is restored; others come, and it is restored again over what changed."""
    def script(guest):
        first = saved(guest)
        guest.resize(1, 2)
        guest.write("b", 0x070, 0)
        second = saved(guest)
        for count in DISTANCES:
            restore(guest, first)
            for turn in range(count - 1):
                second.size = [turn, count]
                restore(guest, second)
            restore(guest, first)
            for window in "bc":
                reads_registers(guest, window, guest.setup)
            read(guest, 3, guest.room + ROOM, False)
    return life(kind, "snapshots", script, Wide(length=LENGTH))
