"""Readable bytes that a request's own writes lie over, or those of the request before it."""
from .drivers import INDIRECT_DESC, KINDS, WRITE, Buffer, joined
from .requests import FLUSH, GET_ID, IDENTITY, IN, NAMES, OUT, WRITE_ZEROES, header, segment
from .story import BASE, SECTOR, USED, Story, plain_image

TITLE = "A request over its own bytes"
HOW = ("Readable bytes are those before the chain's own writes: the status, the data of a read and the identity lie over each byte of the "
       "header, of the segments, and over places of the data. What a chain wrote is what the chain behind it reads.")
COLUMNS = ("What", "Where")
FOLDERS = {"own_writes": "Requests whose writable bytes lie over their own readable ones, or those of the request behind."}

HEADER, DATA, STATUS, TABLE, RIGHT = BASE + 0x5000, BASE + 0x6000, BASE + 0x8000, BASE + 0x9000, BASE + 0xa000
OK, IOERR, UNSUPP, NOT_YET = 0, 1, 2, b"\xee"
KINDS_OF_RINGS = [(kind, in_table) for kind in KINDS for in_table in (False, True)]
SIX = segment(1, 1) + segment(6, 2)


def stories():
    for kind, in_table in KINDS_OF_RINGS:
        for name in NAMES:
            yield over_the_header(kind, in_table, name)
        yield refused(kind, in_table)
        yield over_data(kind, in_table)
        yield over_segments(kind, in_table)
        yield room_over_all(kind, in_table)
        yield data_over_data(kind, in_table)
        yield of_the_one_before(kind, in_table)
    for kind in KINDS:
        yield typed_over_itself(kind)


def story_of(name, kind, in_table, about, what, where):
    ring = f"{kind}_table" if in_table else kind
    return Story(f"own_writes/{name}_{ring}", about, image=plain_image(), shows=[(what, where)])


class Disk:
    """A disk whose requests stand in the ring or in a table."""

    def __init__(self, story, kind, in_table):
        self.story, self.in_table = story, in_table
        self.queue = KINDS[kind](story, "b", 0, 8, low=INDIRECT_DESC if in_table else 0).bring_up()

    def offer(self, buffers, table=TABLE):
        """A chain; how many places it takes."""
        chain = [self.queue.table(table, buffers)] if self.in_table else buffers
        self.queue.offer(chain)
        return len(chain)

    def serve(self, buffers, length):
        """A chain that is served, and its used len."""
        count = self.offer(buffers)
        self.queue.notify()
        self.queue.look_at_used(length, **({"count": count} if self.queue.is_packed else {}))
        self.queue.acknowledge()

    def sectors(self, first, found):
        """Sectors are read, each with one byte that it must have at a place: pairs of a place and a byte."""
        for sector, pairs in enumerate(found, first):
            self.queue.put(HEADER + 0x100, header(IN, sector))
            self.serve([Buffer(HEADER + 0x100, 16), Buffer(DATA + 0x1000, SECTOR, WRITE), Buffer(STATUS + 8, 1, WRITE)], SECTOR + 1)
            for at, byte in pairs:
                self.queue.look(DATA + 0x1000 + at, 1, bytes([byte]))


def front_of(name):
    """A request's readable bytes, and how many of them are its header."""
    return {IN: header(IN, 5), OUT: header(OUT, 5), FLUSH: header(FLUSH, 0), GET_ID: header(GET_ID, 0),
            WRITE_ZEROES: header(WRITE_ZEROES, 0) + segment(5, 1)}[name]


def over_the_header(kind, in_table, name):
    """The status over each byte of the header."""
    story = story_of(f"status_over_the_header_of_{NAMES[name]}", kind, in_table,
                     "The status lies over a byte of the header, which is read before.", "status over the header", NAMES[name].upper())
    disk = Disk(story, kind, in_table)
    front, length = front_of(name), {IN: SECTOR + 1, GET_ID: 20}.get(name, 1)
    for at in range(16):
        disk.queue.put(HEADER, front)
        disk.queue.put(DATA, bytes([0xa0 + at]) * SECTOR)
        data = {IN: [Buffer(DATA, SECTOR, WRITE)], OUT: [Buffer(DATA, SECTOR)], GET_ID: [Buffer(DATA, 20, WRITE)]}.get(name, [])
        disk.serve([Buffer(HEADER, len(front)), *data, Buffer(HEADER + at, 1, WRITE)], length + (name == GET_ID))
        disk.queue.look(HEADER, len(front), front[:at] + bytes([OK]) + front[at + 1:])
        if name == IN:
            disk.queue.look(DATA, 2, b"\x15\x15")
        elif name == GET_ID:
            disk.queue.look(DATA, 20, IDENTITY)
        elif name in (OUT, WRITE_ZEROES):
            disk.sectors(4, [[(0, 0x14)], [(0, 0xa0 + at if name == OUT else 0), (511, 0xa0 + at if name == OUT else 0)], [(0, 0x16)]])
        if name == WRITE_ZEROES:
            disk.queue.put(HEADER, header(OUT, 5))
            disk.queue.put(DATA, b"\x15" * SECTOR)
            disk.serve([Buffer(HEADER, 16), Buffer(DATA, SECTOR), Buffer(STATUS, 1, WRITE)], 1)
    return story


def refused(kind, in_table):
    """The status of a refused request over each byte of its header: the header says why, and is left but for that byte."""
    story = story_of("status_over_the_header_of_refused_requests", kind, in_table,
                     "The status of a refused request lies over a byte of its header, which is read before.", "status over the header",
                     "requests that are refused")
    disk = Disk(story, kind, in_table)
    cases = [(header(3), 0, UNSUPP), (header(0x80000000), 0, UNSUPP), (header(IN, 8), SECTOR, IOERR), (header(IN, 1 << 63), SECTOR, IOERR),
             (header(GET_ID), 19, IOERR), (header(WRITE_ZEROES), 0, IOERR), (header(FLUSH)[:15], 0, IOERR), (header(OUT, 9), 0, IOERR)]
    for front, room, status in cases:
        for at in range(len(front)):
            disk.queue.put(HEADER, front)
            between = [Buffer(DATA, room, WRITE)] if room else []
            disk.serve([Buffer(HEADER, len(front)), *between, Buffer(HEADER + at, 1, WRITE)], 0 if room else 1)
            disk.queue.look(HEADER, len(front), front[:at] + bytes([status]) + front[at + 1:])
    disk.queue.look(DATA, SECTOR, bytes(SECTOR))
    return story


# Places of data of two sectors.
PLACES = [0, 1, 2, 15, 16, 255, 256, 510, 511, 512, 513, 1022, 1023]


def over_data(kind, in_table):
    """The status over places of what is written, which goes to the image as it was."""
    story = story_of("status_over_the_data_of_out", kind, in_table,
                     "The status lies over a byte of what is written, which is read before.", "status over the data", "OUT")
    disk = Disk(story, kind, in_table)
    for turn, at in enumerate(PLACES):
        mark = 0x60 + turn
        disk.queue.put(HEADER, header(OUT, 2))
        disk.queue.put(DATA, bytes([mark]) * 2 * SECTOR)
        disk.serve([Buffer(HEADER, 16), Buffer(DATA, 2 * SECTOR), Buffer(DATA + at, 1, WRITE)], 1)
        disk.queue.look(DATA + at, 1, bytes([OK]))
        disk.sectors(2 + at // SECTOR, [[(at % SECTOR, mark), ((at + 1) % SECTOR, mark)]])
    for sector in (7, 8):
        disk.queue.put(HEADER, header(OUT, sector))
        disk.queue.put(DATA, b"\x5a" * 2 * SECTOR)
        disk.serve([Buffer(HEADER, 16), Buffer(DATA, 2 * SECTOR), Buffer(DATA + 7, 1, WRITE)], 1)
        disk.queue.look(DATA + 6, 3, bytes([0x5a, IOERR, 0x5a]))
    disk.sectors(7, [[(0, 0x17), (7, 0x17)]])
    return story


def over_segments(kind, in_table):
    """The status over each byte of two segments."""
    story = story_of("status_over_the_segments", kind, in_table,
                     "The status lies over a byte of the segments, which are read before.", "status over the segments", "WRITE_ZEROES")
    disk = Disk(story, kind, in_table)
    disk.queue.put(RIGHT, plain_image())
    for at in range(32):
        disk.queue.put(HEADER, header(OUT, 0))
        disk.serve([Buffer(HEADER, 16), Buffer(RIGHT, 8 * SECTOR), Buffer(STATUS, 1, WRITE)], 1)
        disk.queue.put(HEADER, header(WRITE_ZEROES) + SIX)
        disk.serve([Buffer(HEADER, 48), Buffer(HEADER + 16 + at, 1, WRITE)], 1)
        disk.queue.look(HEADER + 16, 32, SIX[:at] + bytes([OK]) + SIX[at + 1:])
        disk.sectors(0, [[(0, 0 if sector in (1, 6, 7) else 0x10 + sector)] for sector in range(8)])
    return story


def room_over_all(kind, in_table):
    """Writable bytes before the status lie over the whole request: they are left, but for what a type writes."""
    story = story_of("room_over_the_whole_request", kind, in_table,
                     "Room lies over all readable bytes, which are read before; a type that writes nothing there leaves it.",
                     "room over all readable bytes", "each type, and one that is none")
    disk = Disk(story, kind, in_table)
    data = bytes([0x77]) * SECTOR
    for name, length in ((OUT, 16 + SECTOR), (FLUSH, 16), (WRITE_ZEROES, 32), (3, 16)):
        front = {OUT: header(OUT, 3) + data, WRITE_ZEROES: header(WRITE_ZEROES) + segment(4, 1), 3: header(3)}.get(name, header(FLUSH))
        status = UNSUPP if name == 3 else OK
        disk.queue.put(HEADER, front)
        disk.serve([Buffer(HEADER, length), Buffer(HEADER, length, WRITE)], 0)
        disk.queue.look(HEADER, length, front[:-1] + bytes([status]))
    disk.sectors(2, [[(0, 0x12)], [(0, 0x77), (511, 0x77)], [(0, 0), (511, 0)], [(0, 0x15)]])
    # What is read, and the identity, over the header and behind it; the status is over its last byte.
    for at in (0, 1, 4, 8, 15):
        disk.queue.put(HEADER, header(IN, 6) + NOT_YET * SECTOR)
        disk.serve([Buffer(HEADER, 16), Buffer(HEADER + at, SECTOR, WRITE), Buffer(HEADER + at + 3, 1, WRITE)], SECTOR + 1)
        disk.queue.look(HEADER, at + 5, header(IN, 6)[:at] + b"\x16\x16\x16\0\x16")
        disk.queue.look(HEADER + at + SECTOR - 1, 2, b"\x16\xee")
        disk.queue.put(HEADER, header(GET_ID) + NOT_YET * 20)
        disk.serve([Buffer(HEADER, 16), Buffer(HEADER + at, 20, WRITE), Buffer(HEADER + at + 19, 1, WRITE)], 21)
        disk.queue.look(HEADER, at + 20, header(GET_ID)[:at] + IDENTITY[:19] + bytes([OK]))
    return story


def data_over_data(kind, in_table):
    """Two sectors are read into one place, and into places that share bytes: the later one stays."""
    story = story_of("sectors_over_one_another", kind, in_table,
                     "The buffers of a read lie over one another: what is written later stays, the status last.",
                     "buffers of a read over one another", "0 to 511 bytes apart")
    disk = Disk(story, kind, in_table)
    for apart in (0, 1, 8, 256, 511):
        disk.queue.put(HEADER, header(IN, 1))
        disk.queue.put(DATA, NOT_YET * (SECTOR + apart + 1))
        disk.serve([Buffer(HEADER, 16), Buffer(DATA, SECTOR, WRITE), Buffer(DATA + apart, SECTOR, WRITE),
                    Buffer(DATA + apart + 1, 1, WRITE)], 2 * SECTOR + 1)
        disk.queue.look(DATA, apart + 3, b"\x11" * apart + b"\x12\0\x12")
        disk.queue.look(DATA + apart + SECTOR - 1, 2, b"\x12\xee")
    return story


def of_the_one_before(kind, in_table):
    """Two chains in one service: the first one's status is a byte of the second one's header, data or segment."""
    story = story_of("bytes_of_the_request_before", kind, in_table,
                     "What a request wrote is what the request behind it reads.", "written by the request before", "header, data, segment")
    disk = Disk(story, kind, in_table)
    cases = [(header(OUT, 0x0100), 9, SECTOR), (header(OUT, 3), SECTOR // 2, SECTOR), (header(WRITE_ZEROES), 16, 0),
             (header(OUT | 0xff00, 2), 1, SECTOR)]
    for turn, (front, at, size) in enumerate(cases):
        behind = bytes([0x90 + turn]) * size or segment(0xff, 1)
        disk.queue.put(HEADER, front + behind)
        disk.queue.put(HEADER + 0x800, header(FLUSH))
        place = HEADER + at + (16 if turn == 1 else 0)
        first = [Buffer(HEADER + 0x800, 16), Buffer(place, 1, WRITE)]
        second = [Buffer(HEADER, 16 + len(behind)), Buffer(STATUS, 1, WRITE)]
        disk.queue.put(STATUS, NOT_YET)
        if kind == "split":
            disk.queue.put_chain([disk.queue.table(TABLE, first)] if in_table else joined(first), 0)
            disk.queue.put_chain([disk.queue.table(TABLE + 0x100, second)] if in_table else joined(second), 4)
            disk.queue.offer_head(0)
            disk.queue.offer_head(4)
        else:
            disk.offer(first)
            disk.offer(second, TABLE + 0x100)
        disk.queue.notify()
        disk.queue.look(STATUS, 1, bytes([OK]))
    disk.sectors(0, [[(0, 0)], [(0, 0x11)], [(0, 0x93)], [(0, 0x91), (256, 0)]])
    return story


def typed_over_itself(kind):
    """Typed bytes go into buffers that share bytes."""
    story = story_of("typed_bytes_over_one_another", kind, False, "The buffers of a chain for typed bytes lie over one another: the later byte stays.",
                     "buffers for typed bytes over one another", "0 to 3 bytes apart")
    queue = KINDS[kind](story, "c", 0, 8).bring_up()
    for apart in range(4):
        queue.put(DATA, NOT_YET * 8)
        queue.offer([Buffer(DATA, 3, WRITE), Buffer(DATA + apart, 3, WRITE)])
        story.type(b"abcdef", took=6, told=USED)
        queue.look(DATA, 7, b"abc"[:apart] + b"def" + NOT_YET * (4 - apart))
        queue.place = queue.offered
        queue.acknowledge()
    return story
