"""Requests in each form: cut at each place, in each number of buffers, with empty buffers at each place, in tables that lie at any
address, and with each part at address 0."""
import functools

from .by_hand import written_out
from .drivers import INDIRECT_DESC, KINDS, SERVED, WRITE, Buffer, number
from .requests import FLUSH, GET_ID, IDENTITY, IN, IOERR, OK, OUT, UNSUPP, WRITE_ZEROES, header, segment
from .story import BASE, SECTOR, USED, Slot, Story

TITLE = "Requests in each form"
HOW = ("Each type of request, good and refused, is cut at each place of its header, its data and its status, stands in 2 to 256 buffers, and has an "
       "empty buffer at each place. It stands in the ring, or in a table at each address modulo 16. Each part of a request lies at address 0.")
COLUMNS = ("What", "Where")
FOLDERS = {"cuts": "Requests cut at each place, in many buffers and with empty ones."}

LENGTH, SECTORS = 0x40000, 8
AREAS = [0x1000, 0x3000, 0x5000]
TABLE, READABLE, WRITABLE = 0x8000, 0x10000, 0x20000
# How many buffers a request has.
COUNTS = [*range(2, 18), 31, 32, 33, 63, 64, 65, 127, 128, 129, 130, 200, 253, 254, 255, 256]


def stories():
    yield by_hand()
    for kind in KINDS:
        for name in WHOLE:
            yield shown(f"{name.replace('_', ' ')}, {kind}", "cut at each place", each_cut(kind, name))
        yield shown(f"each type, {kind}", "2 to 256 buffers", many_buffers(kind))
        yield shown(f"each type, {kind}", "empty buffers at each place", empty_buffers(kind))
        yield shown(f"each type, {kind}", "lengths of data, in the ring and in tables", lengths(kind))
        yield shown(f"each type, {kind}", "sectors up to the last one", up_to_the_end(kind))
        yield shown(f"each part, {kind}", "address 0", at_address_0(kind))


def shown(what, where, story):
    story.shows = [(what, where)]
    return story


def by_hand():
    """A sector is read into 511 bytes, and one with the status behind it."""
    return written_out("cuts/a_read_of_511_bytes_and_one_by_hand", "A sector is read into a buffer of 511 bytes and one of two, whose last byte is the status.", """
        w 0 b 070 4 00000003 > 0 done - 0 0
        w 0 b 024 4 00000001 > 0 done - 0 0
        w 0 b 020 4 00000001 > 0 done - 0 0
        w 0 b 070 4 0000000b > 0 done - 0 0
        w 0 b 038 4 00000004 > 0 done - 0 0
        w 0 b 080 4 80001000 > 0 done - 0 0
        w 0 b 090 4 80002000 > 0 done - 0 0
        w 0 b 0a0 4 80003000 > 0 done - 0 0
        w 0 b 044 4 00000001 > 0 done - 0 0
        w 0 b 070 4 0000000f > 0 done - 0 0
        mw 0 80004000 00000000000000000100000000000000 > 0 done - 0 0
        mw 0 80001000 00400080000000001000000001000100 > 0 done - 0 0
        mw 0 80001010 0050008000000000ff01000003000200 > 0 done - 0 0
        mw 0 80001020 01600080000000000200000002000000 > 0 done - 0 0
        mw 0 80002000 000001000000 > 0 done - 0 0
        w 0 b 050 4 00000000 > 0 done - 1 0
        mr 0 80005000 200 > 0 b:{11*511}00 - 1 0
        mr 0 80006000 4 > 0 b:00110000 - 1 0
        mr 0 80003000 c > 0 b:000001000000000001020000 - 1 0
        """)


@functools.lru_cache(maxsize=None)
def pattern(first):
    """A sector in which each byte is another than its neighbours."""
    return bytes((at * 3 + at // 256 + 29 * first) % 253 for at in range(SECTOR))


def evenly(length, count):
    """Where so many parts of so many bytes are cut; some are empty where there are more parts than bytes."""
    return [length * at // count for at in range(1, count)]


class Disk:
    """Requests of parts that lie a byte apart, and what the device must have written between and into them."""

    def __init__(self, story, kind, base=BASE, areas=None, sectors=SECTORS, size=256):
        self.story, self.base, self.turn = story, base, 0
        self.queue = KINDS[kind](story, "b", 0, size, low=INDIRECT_DESC, areas=[base + at for at in areas or AREAS]).bring_up()
        self.holds = [pattern(sector) for sector in range(sectors)]
        # What the writable parts have lain in.
        self.room = bytearray(b"\xee" * 0x600)
        self.queue.put(base + WRITABLE, bytes(self.room))

    def request(self, readable, room, status, fills=b"", cuts=(), room_cuts=(), in_table=False, empties=()):
        """`fills` is what is written from the front on; `empties` are empty buffers, each with the place in the chain before which it stands."""
        self.turn += 1
        parts = self.parts(readable, cuts)
        places = self.places(room, room_cuts)
        buffers = parts + [Buffer(self.base + WRITABLE + at, length, WRITE) for at, length, _ in places]
        for place, one in sorted(empties, reverse=True, key=lambda pair: pair[0]):
            buffers.insert(place, one)
        count = self.offer(buffers, in_table)
        self.queue.notify()
        end = max([at + length for at, length, _ in places])
        for at, length, first in places:
            content = fills[first:first + length]
            self.room[at:at + len(content)] = content
        last = next((at, length) for at, length, _ in reversed(places) if length)
        self.room[sum(last) - 1] = status
        self.queue.look(self.base + WRITABLE, end + 1, bytes(self.room[:end + 1]))
        used = room if len(fills) == room - 1 else len(fills)
        self.queue.look_at_used(used, **({"count": count} if self.queue.is_packed else {}))

    def parts(self, content, cuts):
        """Readable bytes as buffers, a byte apart."""
        places = self.places(len(content), cuts)
        lies = bytearray(b"\xdd" * (len(content) + len(places)))
        for at, length, first in places:
            lies[at:at + length] = content[first:first + length]
        self.queue.put(self.base + READABLE, bytes(lies))
        return [Buffer(self.base + READABLE + at, length) for at, length, _ in places]

    def places(self, length, cuts):
        """Where each part lies, how long it is, and its first byte's number."""
        ends = [0, *cuts, length]
        return [(first + at, end - first, first) for at, (first, end) in enumerate(zip(ends, ends[1:]))]

    def offer(self, buffers, in_table):
        if in_table:
            buffers = [self.queue.table(self.base + TABLE + self.turn % 16, buffers)]
        self.queue.offer(buffers)
        return len(buffers)

    def reads_all(self):
        """All sectors are read at once."""
        count = len(self.holds)
        self.queue.put(self.base + READABLE, header(IN))
        self.queue.put(self.base + READABLE + 0x100, b"\xff")
        self.queue.offer([Buffer(self.base + READABLE, 16), Buffer(self.base + 0x30000, SECTOR * count, WRITE), Buffer(self.base + READABLE + 0x100, 1, WRITE)])
        self.queue.notify()
        self.queue.look(self.base + READABLE + 0x100, 1, bytes(1))
        self.queue.look(self.base + 0x30000, SECTOR * count, b"".join(self.holds))

    def writes_all(self):
        """All sectors have their patterns again."""
        self.holds = [pattern(sector) for sector in range(len(self.holds))]
        self.queue.put(self.base + READABLE, header(OUT) + b"".join(self.holds))
        self.queue.put(self.base + 0x30000, b"\xff")
        self.queue.offer([Buffer(self.base + READABLE, 16 + SECTOR * len(self.holds)), Buffer(self.base + 0x30000, 1, WRITE)])
        self.queue.notify()
        self.queue.look(self.base + 0x30000, 1, bytes(1))


def disk_of(name, about, kind, **more):
    story = Story(f"cuts/{kind}_{name}", about, [Slot(length=LENGTH)], image=b"".join(map(pattern, range(SECTORS))))
    return story, Disk(story, kind, **more)


# --- cut at each place

def forms(place, length):
    """Cuts at a place: once, round one byte, round an empty part; all three at the ends of a header and of a sector."""
    found = [(place,), tuple(sorted({place, min(place + 1, length)})), (place, place)]
    return found if place in (0, 1, 15, 16, 17, 511, 512, 513, 527, 528) else [found[place % 3]]


def reads(disk):
    for place in range(SECTOR + 2):
        for turn, cuts in enumerate(forms(place, SECTOR + 1)):
            sector = (place + turn) % SECTORS
            disk.request(header(IN, sector), SECTOR + 1, OK, disk.holds[sector], (place % 17,), cuts, (place + turn) % 2 == 1)


def writes(disk):
    for place in range(SECTOR + 17):
        for turn, cuts in enumerate(forms(place, SECTOR + 16)):
            sector = (place + turn) % SECTORS
            disk.holds[sector] = pattern(place + 11)
            disk.request(header(OUT, sector) + disk.holds[sector], 1, OK, cuts=cuts, in_table=(place + turn) % 2 == 0)
        if place % SECTORS == SECTORS - 1:
            disk.reads_all()


def zeroes(disk):
    for place in range(16 + 48 + 1):
        for turn, cuts in enumerate(forms(place, 64)):
            first = (place + turn) % 3
            disk.request(header(WRITE_ZEROES) + segment(first, 1) + segment(first + 2, 2, 1) + segment(7, place % 2), 1, OK, cuts=cuts, in_table=turn % 2 == 0)
            for sector in (first, first + 2, first + 3, *[7] * (place % 2)):
                disk.holds[sector] = bytes(SECTOR)
        disk.reads_all()
        disk.writes_all()


def identities(disk):
    for place in range(22):
        for other in range(17):
            disk.request(header(GET_ID), 21, OK, IDENTITY, (other,), forms(place, 21)[other % 3 % len(forms(place, 21))], (place + other) % 2 == 1)


def no_data(disk):
    for kind, status in ((FLUSH, OK), (11, UNSUPP)):
        for place in range(17):
            for other in range(place, 17):
                disk.request(header(kind), 1 + other % 3, status, cuts=(place, other), room_cuts=() if place % 2 else (other % 3,), in_table=(place + other) % 2 == 1)


WHOLE = {"reads": reads, "writes": writes, "zeroes": zeroes, "identities": identities, "requests_without_data": no_data}


def each_cut(kind, name):
    story, disk = disk_of(f"{name}_cut_at_each_place", f"{name.replace('_', ' ').capitalize()} that are cut at each place, round one byte and round none.", kind)
    WHOLE[name](disk)
    return story


# --- many buffers

def many_buffers(kind):
    """The readable bytes in all buffers but one, the writable ones so, or each half of them; in the ring, or in a table."""
    story, disk = disk_of("requests_in_2_to_256_buffers", "Requests of each type in 2 to 256 buffers, in the ring and in tables at odd addresses.", kind)
    for turn, count in enumerate(COUNTS):
        in_table, sector, most = turn % 2 == 0, turn % SECTORS, count - 1
        half = max(1, count // 2)
        for halves in ((most, 1), (1, most), (count - half, half)):
            cuts, room = lambda length: evenly(length, halves[0]), lambda length: evenly(length, halves[1])
            disk.request(header(IN, sector), SECTOR + 1, OK, disk.holds[sector], cuts(16), room(SECTOR + 1), in_table)
            disk.holds[sector] = pattern(turn + 31 + halves[0])
            disk.request(header(OUT, sector) + disk.holds[sector], 1, OK, b"", cuts(16 + SECTOR), room(1), not in_table)
            disk.request(header(GET_ID), 21, OK, IDENTITY, cuts(16), room(21), in_table)
            disk.request(header(FLUSH), 9, OK, b"", cuts(16), room(9), not in_table)
            disk.request(header(WRITE_ZEROES) + segment(8, 0) * 32, 1, OK, b"", cuts(16 + 512), room(1), in_table)
            disk.request(header(WRITE_ZEROES) + segment(8, 0) * 31 + segment(8, 1), 2, IOERR, b"", cuts(16 + 512), room(2), not in_table)
        disk.reads_all()
    return story


# --- empty buffers

def empty_buffers(kind):
    """An empty buffer, and two, before each part and behind the last, readable and writable, at each end of the memory."""
    story, disk = disk_of("empty_buffers_at_each_place", "Requests of each type with an empty buffer first, between and last, readable and writable.", kind)
    ends = (BASE, BASE + LENGTH, BASE + 0x777)
    for turn, (readable, room, status, fills) in enumerate(each_type(disk)):
        cuts, room_cuts = (16,) if len(readable) > 16 else (), (room - 1,) if room > 1 else ()
        for place in range(len(cuts) + len(room_cuts) + 3):
            for flags in (0, WRITE):
                for count in (1, 2):
                    one = Buffer(ends[(turn + place + flags + count) % 3], 0, flags)
                    disk.request(readable, room, status, fills, cuts, room_cuts, (place + count) % 2 == 0, [(place, one)] * count)
    disk.reads_all()
    return story


def each_type(disk):
    """Requests of each type: good ones, which leave the sectors as they are, and refused ones."""
    yield header(IN, 3), SECTOR + 1, OK, disk.holds[3]
    yield header(IN, 6), 2 * SECTOR + 1, OK, disk.holds[6] + disk.holds[7]
    yield header(IN, 8), 1, OK, b""
    yield header(IN, 7), 2 * SECTOR + 1, IOERR, b""
    yield header(IN), SECTOR + 2, IOERR, b""
    yield header(OUT, 5) + disk.holds[5], 1, OK, b""
    yield header(OUT, 5) + disk.holds[5], 8, OK, b""
    yield header(OUT, 8), 1, OK, b""
    yield header(OUT, 5) + disk.holds[5] + b"\1", 1, IOERR, b""
    yield header(FLUSH), 1, OK, b""
    yield header(FLUSH) + b"more", 24, OK, b""
    yield header(GET_ID), 21, OK, IDENTITY
    yield header(GET_ID) + b"more", 25, OK, IDENTITY
    yield header(GET_ID), 20, IOERR, b""
    yield header(WRITE_ZEROES) + segment(8, 0), 1, OK, b""
    yield header(WRITE_ZEROES) + segment(0, 0, 2), 1, UNSUPP, b""
    yield header(WRITE_ZEROES) + segment(0, 9), 5, IOERR, b""
    yield header(WRITE_ZEROES), 1, IOERR, b""
    yield header(12) + b"more", 21, UNSUPP, b""
    yield header(IN)[:15], 21, IOERR, b""


# --- lengths of data

def lengths(kind):
    """Data and room of each length near those that count, in the ring, in a table, and cut near their ends."""
    story, disk = disk_of("data_of_each_length", "Data and room of no whole sectors, segments or identities, in the ring and in tables, cut near their ends.", kind)
    for turn, length in enumerate((0, 1, 2, 15, 16, 17, 19, 20, 21, 31, 32, 33, 255, 256, 257, 510, 511, 512, 513, 514, 528, 529, 1023, 1024, 1025)):
        for form in range(4):
            in_table, cut = form % 2 == 0, lambda count: () if form < 2 else (count - 1,)
            whole = length % SECTOR == 0
            disk.request(header(IN, 1), length + 1, OK if whole else IOERR, b"".join(disk.holds[1:1 + length // SECTOR]) if whole else b"", (), cut(length + 1), in_table)
            data = b"".join(pattern(turn + at) for at in range(3))[:length]
            disk.request(header(OUT, 1) + data, 1 + form, OK if whole else IOERR, b"", cut(16 + length), (), in_table)
            if whole:
                disk.holds[1:1 + length // SECTOR] = [data[at:at + SECTOR] for at in range(0, length, SECTOR)]
            disk.request(header(GET_ID), length + 1, OK if length >= 20 else IOERR, IDENTITY if length >= 20 else b"", cut(16), cut(length + 1), not in_table)
            good = 0 < length <= 512 and length % 16 == 0
            disk.request(header(WRITE_ZEROES) + (segment(8, 0) * 65)[:length], 1 + form, OK if good else IOERR, b"", cut(16 + length), (), in_table)
    disk.reads_all()
    return story


# --- exactly so many sectors

def up_to_the_end(kind):
    """Requests that end with the disk, of each number of sectors near the powers of two, and those of one sector more."""
    count = 260
    image = b"".join(number(at + 1, 2) + bytes([at % 251]) * (SECTOR - 4) + number(at + 1, 2) for at in range(count))
    story = Story(f"cuts/{kind}_sectors_up_to_the_last", "Reads, writes and zeroes of 1 to 257 sectors that end with the disk, and of one sector more.",
                  [Slot(length=0x80000, count=count)], image=image)
    disk = Disk(story, kind, sectors=0)
    holds = [image[SECTOR * at:SECTOR * at + SECTOR] for at in range(count)]
    at, done, base = BASE + 0x40000, BASE + READABLE + 0x1000, BASE + READABLE

    def request(content, data, flags, status, used):
        disk.queue.put(base, content)
        disk.queue.put(done, b"\xff")
        disk.queue.offer([Buffer(base, len(content)), *([Buffer(at, data, flags)] if data else []), Buffer(done, 1, WRITE)])
        disk.queue.notify()
        disk.queue.look(done, 1, bytes([status]))
        disk.queue.look_at_used(used, **({"count": 3 if data else 2} if disk.queue.is_packed else {}))

    for turn, many in enumerate((1, 2, 3, 4, 5, 7, 8, 9, 15, 16, 17, 31, 32, 33, 63, 64, 65, 127, 128, 129, 255, 256, 257)):
        first = count - many
        request(header(IN, first), SECTOR * many, WRITE, OK, SECTOR * many + 1)
        for one in sorted({0, many // 2, many - 1}):
            disk.queue.look(at + SECTOR * one, 3, holds[first + one][:3])
            disk.queue.look(at + SECTOR * one + SECTOR - 3, 3, holds[first + one][-3:])
        request(header(IN, first), SECTOR * (many + 1), WRITE, IOERR, 0)
        if turn % 2:
            request(header(WRITE_ZEROES) + segment(first, many), 0, 0, OK, 1)
            holds[first:] = [bytes(SECTOR)] * many
        else:
            for one in sorted({0, many // 2, many - 1}):
                mark = number(0xa000 + turn * 257 + one, 2)
                disk.queue.put(at + SECTOR * one, mark)
                holds[first + one] = mark + holds[first + one][2:]
            request(header(OUT, first), SECTOR * many, 0, OK, 1)
        request(header(OUT, first), SECTOR * (many + 1), 0, IOERR, 1)
        request(header(WRITE_ZEROES) + segment(first, many + 1), 0, 0, IOERR, 1)
    request(header(IN), SECTOR * count, WRITE, OK, SECTOR * count + 1)
    for one in range(count):
        disk.queue.look(at + SECTOR * one, 3, holds[one][:3])
    return story


# --- address 0

def at_address_0(kind):
    """Each area of a queue lies at 0 in turn; then the header, the data, the status, a table, a text and room for typed bytes do."""
    story = Story(f"cuts/{kind}_parts_at_address_0", "Each area and each part of a request lies at address 0, alone.", [Slot(base=0, length=LENGTH)],
                  image=b"".join(map(pattern, range(SECTORS))))
    for which in range(3):
        disk = Disk(story, kind, 0, [0 if at == which else area for at, area in enumerate(AREAS)], size=8)
        for readable, room, status, fills in each_type(disk):
            disk.request(readable, room, status, fills, in_table=disk.turn % 2 == 0)
        story.put(0, bytes(TABLE))
    disk = Disk(story, kind, 0, size=8)
    for which in range(4):
        parts_at_0(disk, which)
    consoles_at_0(story, kind)
    return story


def parts_at_0(disk, which):
    """One of header, data, status and table lies at 0; the data of a read and of a write, and the identity."""
    queue = disk.queue
    header_at, data_at, done = (0 if at == which else one for at, one in enumerate((READABLE, WRITABLE, WRITABLE + 0x2000)))
    table_at = 0 if which == 3 else TABLE
    for turn, (kind, room) in enumerate(((IN, SECTOR), (GET_ID, 20), (OUT, 0), (IN, SECTOR))):
        queue.put(header_at, header(kind, 2))
        queue.put(done, b"\xff")
        if kind == OUT:
            disk.holds[2] = pattern(50 + which)
            queue.put(data_at, disk.holds[2])
        chain = [Buffer(header_at, 16), Buffer(data_at, room or SECTOR, WRITE if room else 0), Buffer(done, 1, WRITE)]
        chain = [queue.table(table_at, chain)] if which == 3 or turn % 2 else chain
        queue.offer(chain)
        queue.notify()
        queue.look(done, 1, bytes([OK]))
        queue.look_at_used(room + 1, **({"count": len(chain)} if queue.is_packed else {}))
        if room:
            queue.look(data_at, room, disk.holds[2] if room == SECTOR else IDENTITY)


def consoles_at_0(story, kind):
    text = KINDS[kind](story, "c", 1, 8, low=INDIRECT_DESC, areas=list(AREAS)).bring_up()
    story.put(0, b"at address 0")
    for in_table in (False, True):
        one = Buffer(0, 12)
        text.offer([text.table(TABLE, [one])] if in_table else [one, Buffer(0, 2)])
        text.notify(output=b"at address 0" + (b"" if in_table else b"at"))
        text.acknowledge()
    typed = KINDS[kind](story, "c", 0, 8, low=INDIRECT_DESC, areas=list(AREAS)).bring_up()
    typed.clear()
    for content in (b"typed there", b"and again"):
        typed.offer([Buffer(0, len(content), WRITE)])
        story.type(content, len(content), told=USED)
        typed.after(SERVED)
        typed.look(0, len(content), content)
        typed.acknowledge()
