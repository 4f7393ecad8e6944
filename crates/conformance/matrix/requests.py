"""Each bit of a block request's header, and of a segment of WRITE_ZEROES."""
from .drivers import KINDS, NEXT, WRITE, Buffer, Split, number
from .story import BASE, SECTOR, Slot, Story, plain_image

TITLE = "Block requests"
HOW = ("Requests that differ in one bit of the header or of a segment. The status, the used len, the data and the image tell what "
       "was done.")
FOLDERS = {"bits_requests": "Each bit of a request's type, reserved bytes and sector, and of a segment."}

HEADER, DATA, STATUS, COPY = BASE + 0x4000, BASE + 0x5000, BASE + 0x6000, BASE + 0x8000
IN, OUT, FLUSH, GET_ID, WRITE_ZEROES = 0, 1, 4, 8, 13
NAMES = {IN: "in", OUT: "out", FLUSH: "flush", GET_ID: "get_id", WRITE_ZEROES: "write_zeroes"}
OK, IOERR, UNSUPP = 0, 1, 2
NOT_YET = b"\xee"
IDENTITY = b"vreplay-block" + bytes(7)
SECTORS = 8


class Disk:
    """A disk whose request has a header, a buffer for data, and a status, in that order."""

    def __init__(self, story, kind=Split):
        self.queue, self.kept = kind(story, "b", 0, 4).bring_up(), None

    def request(self, header, data, status, length=0, more=b"", at=DATA):
        """A request with `data` bytes of data, readable where it writes, and more bytes behind its header; the status and the used
        len that it must have, which is 1 where the status is the only writable byte."""
        queue = self.queue
        kind = int.from_bytes(header[:4], "little")
        length = 1 if kind in (OUT, WRITE_ZEROES) else length
        queue.put(HEADER, header + more)
        queue.put(STATUS, NOT_YET)
        chain = [Buffer(HEADER, len(header) + len(more)), Buffer(at, data, WRITE if kind not in (OUT, WRITE_ZEROES) else 0),
                 Buffer(STATUS, 1, WRITE)]
        if queue.is_packed:
            queue.offer(chain)
        elif self.kept != chain:
            queue.offer(chain)
        else:
            queue.offer_head(0)
        self.kept = chain
        queue.notify()
        queue.look(STATUS, 1, bytes([status]))
        if queue.is_packed:
            queue.look_at_used(length, count=3)
        else:
            queue.look_at_used(length)


def header(kind, sector=0, reserved=0):
    return number(kind, 4) + number(reserved, 4) + number(sector, 8)


def segment(sector, count, flags=0):
    return number(sector, 8) + number(count, 4) + number(flags, 4)


def stories():
    for kind in KINDS:
        for name in NAMES:
            yield types(kind, name)
        for name in NAMES:
            yield reserved(kind, name)
        for name in (IN, OUT):
            yield sectors(kind, name)
        for name in (FLUSH, GET_ID, WRITE_ZEROES):
            yield ignored_sectors(kind, name)
        for field in ("sector", "count", "flags"):
            yield segments(kind, field)
        for name in (IN, OUT, GET_ID, WRITE_ZEROES):
            yield lengths(kind, name)
        yield each_sector(kind)
    yield large_disk()
    yield large_extents()


def story_of(name, about, field, bits, **more):
    return Story(f"bits_requests/{name}", about, shows=[(field, bits)], **more)


def try_type(disk, kind, reserved_bits=0, sector=0):
    """A request of any type, with a buffer of a sector for its data (and a segment behind the header of a WRITE_ZEROES)."""
    queue = disk.queue
    if kind == OUT:
        queue.put(DATA, b"\x20")
        disk.request(header(kind, sector, reserved_bits), SECTOR, OK)
    elif kind == IN:
        queue.put(DATA, NOT_YET)
        disk.request(header(kind, sector, reserved_bits), SECTOR, OK, SECTOR + 1)
        queue.look(DATA + SECTOR - 1, 1, b"\x10")
    elif kind == GET_ID:
        queue.put(DATA, NOT_YET * 20)
        disk.request(header(kind, sector, reserved_bits), SECTOR, OK, 20)
        queue.look(DATA, 20, IDENTITY)
    elif kind == WRITE_ZEROES:
        disk.request(header(kind, sector, reserved_bits), 0, OK, more=segment(6, 1))
    elif kind == FLUSH:
        disk.request(header(kind, sector, reserved_bits), SECTOR, OK)
    else:
        queue.put(DATA, NOT_YET * 20)
        disk.request(header(kind, sector, reserved_bits), SECTOR, UNSUPP)
        queue.look(DATA, 20, NOT_YET * 20)


def types(kind, right):
    """What is right, and each type that differs from it in one bit."""
    story = story_of(f"type_of_{NAMES[right]}_{kind}", f"each bit of the type decides, from that of {NAMES[right].upper()} on", "request's type", "0..31")
    disk = Disk(story, KINDS[kind])
    for one in [right] + [right ^ 1 << bit for bit in range(32)] + [right]:
        # What is written isn't what is read.
        try_type(disk, one, sector=3 if one == OUT else 0)
    return story


def reserved(kind, right):
    story = story_of(f"reserved_of_{NAMES[right]}_{kind}", f"no bit of the reserved bytes of {NAMES[right].upper()} says anything", "request's reserved bytes", "0..31")
    disk = Disk(story, KINDS[kind])
    for bits in [1 << bit for bit in range(32)] + [0xffffffff]:
        try_type(disk, right, bits)
    return story


def sectors(kind, right):
    """Two sectors that differ from one another in each bit of the capacity, and each that differs in one bit from one of them."""
    story = story_of(f"sector_of_{NAMES[right]}_{kind}", f"each bit of the sector of {NAMES[right].upper()} decides", "request's sector", "0..63")
    disk = Disk(story, KINDS[kind])
    content = list(range(0x10, 0x18))
    for first in (2, 5):
        for bit in range(64):
            sector = first ^ 1 << bit
            is_there = sector < SECTORS
            mark = 0x80 + bit + 8 * first
            disk.queue.put(DATA + SECTOR - 1, bytes([mark]))
            disk.request(header(right, sector), SECTOR, OK if is_there else IOERR, SECTOR + 1 if is_there and right == IN else 0)
            if right == IN:
                disk.queue.look(DATA + SECTOR - 1, 1, bytes([content[sector] if is_there else mark]))
    return story


def ignored_sectors(kind, right):
    story = story_of(f"sector_of_{NAMES[right]}_{kind}", f"no bit of the sector of {NAMES[right].upper()} says anything", "request's sector", "0..63")
    disk = Disk(story, KINDS[kind])
    for sector in [1 << bit for bit in range(64)] + [(1 << 64) - 1]:
        try_type(disk, right, sector=sector)
    return story


def segments(kind, field):
    """A segment that is right, and those that differ from it in one bit of a field."""
    width = 64 if field == "sector" else 32
    story = story_of(f"{field}_of_a_segment_{kind}", f"each bit of a segment's {field} decides", f"segment's {field}", f"0..{width - 1}")
    disk = Disk(story, KINDS[kind])
    disk.queue.put(COPY, plain_image())
    for right in (dict(sector=2, count=1), dict(sector=1, count=6)):
        for bit in range(width):
            fields = dict(right, flags=0)
            fields[field] ^= 1 << bit
            if fields["flags"] & ~1:
                status = UNSUPP
            elif fields["count"] > 65536 or fields["sector"] + fields["count"] > SECTORS:
                status = IOERR
            else:
                status = OK
            disk.request(header(WRITE_ZEROES), 0, status, more=segment(**fields))
            if status == OK and fields["count"]:
                restore(disk, fields["sector"], fields["count"])
    return story


def restore(disk, sector, count):
    """Reads what was zeroed, with the sector before and the one behind, and writes it again."""
    first, end = max(0, sector - 1), min(SECTORS, sector + count + 1)
    length = SECTOR * (end - first)
    disk.request(header(IN, first), length, OK, length + 1)
    for one in range(first, end):
        byte = 0 if sector <= one < sector + count else 0x10 + one
        disk.queue.look(DATA + SECTOR * (one - first), 1, bytes([byte]))
    disk.request(header(OUT, sector), SECTOR * count, OK, at=COPY + SECTOR * sector)


# --- lengths of data

def is_refused(kind, length, sector):
    """Whether a request with so many bytes of data is."""
    if kind in (IN, OUT):
        return length % SECTOR or sector + length // SECTOR > SECTORS
    return length < 20 if kind == GET_ID else not length or length % 16 or length > 512


def tried_lengths(right):
    """Lengths that differ in one bit from one that is good, those of one bit, and the neighbours of these and of what is good."""
    bits = [1 << bit for bit in range(13)]
    near = {one + more for one in bits + [SECTOR, 2 * SECTOR, right] for more in (-2, -1, 1, 2)}
    return sorted({one for one in [right ^ bit for bit in bits] + bits + list(near) if one > 0})


def lengths(kind, name):
    """Data of many lengths, of which few are good."""
    story = story_of(f"length_of_{NAMES[name]}_{kind}", f"each bit of how many bytes of data {NAMES[name].upper()} has", "request's length of data", "0..12")
    disk = Disk(story, KINDS[kind])
    right = {IN: 1024, OUT: 1024, GET_ID: 20, WRITE_ZEROES: 32}[name]
    for length in tried_lengths(right):
        for sector in (0, 5) if name in (IN, OUT) else (0,):
            answer = IOERR if is_refused(name, length, sector) else OK
            used = 0 if answer == IOERR else length + 1 if name == IN else 20 + (length == 20) if name == GET_ID else 0
            disk.request(header(name, sector), length, answer, used, at=COPY)
    return story


# --- a disk of 260 sectors, and each sector of one of eight

MANY = 260
# The sectors that have content: powers of two, and those before them.
MARKED = sorted({0} | {1 << bit for bit in range(9)} | {(1 << bit) - 1 for bit in range(1, 9)})


def marked(sector):
    return number(0xa000 + sector, 2) + bytes(SECTOR - 2) if sector in MARKED else bytes(SECTOR)


def large_image():
    return b"".join(marked(sector) for sector in range(MANY))


def large_disk():
    """Reads, writes and zeroes at each power of two."""
    story = story_of("a_disk_of_260_sectors", "each bit below 9 of a sector, and of a segment's sector and count, leads to another sector",
                     "request's sector", "0..8, inside", slots=[Slot(length=0x40000, count=MANY)], image=large_image())
    story.shows += [("segment's sector", "0..8, inside"), ("segment's count", "0..8, inside"), ("sectors of a read", "0..8, inside"), ("capacity", "0..8")]
    disk = Disk(story)
    story.read("b", 0x100, MANY)
    for bit in range(9):
        length = SECTOR << bit
        disk.request(header(IN), length, OK, length + 1, at=BASE + 0x10000)
        disk.queue.look(BASE + 0x10000 + length - SECTOR, 2, marked((1 << bit) - 1)[:2])
    for bit in range(9):
        for sector in ((1 << bit) - 1, 1 << bit):
            read_back(disk, sector, marked(sector)[:2])
    for bit in range(9):
        disk.queue.put(DATA, number(0xb000 + bit, 2) + bytes(SECTOR - 2))
        disk.request(header(OUT, 1 << bit), SECTOR, OK)
    for bit in range(9):
        read_back(disk, 1 << bit, number(0xb000 + bit, 2))
    for bit in range(9):
        disk.request(header(WRITE_ZEROES), 0, OK, more=segment(1 << bit, 1))
        read_back(disk, 1 << bit, bytes(2))
        disk.queue.put(DATA, number(0xc000 + bit, 2) + bytes(SECTOR - 2))
        disk.request(header(OUT, 1 << bit), SECTOR, OK)
    for bit in range(9):
        disk.request(header(WRITE_ZEROES), 0, OK, more=segment(0, 1 << bit))
        read_back(disk, (1 << bit) - 1, bytes(2))
        read_back(disk, 1 << bit, number(0xc000 + bit, 2))
    disk.request(header(IN, MANY), SECTOR, IOERR)
    return story


def read_back(disk, sector, content):
    disk.request(header(IN, sector), SECTOR, OK, SECTOR + 1)
    disk.queue.look(DATA, 2, content)


def each_sector(kind):
    """Each sector is written alone, then all are read; each is zeroed alone, then all are read again."""
    story = story_of(f"each_sector_{kind}", "each sector of eight is written alone and zeroed alone", "request's sector", "0..2")
    disk = Disk(story, KINDS[kind])
    holds = [0x10 + sector for sector in range(SECTORS)]
    for turn in (0, 1):
        for sector in range(SECTORS):
            if turn:
                disk.request(header(WRITE_ZEROES), 0, OK, more=segment(sector, 1))
            else:
                disk.queue.put(DATA, bytes([0xa0 + sector]))
                disk.request(header(OUT, sector), SECTOR, OK)
            holds[sector] = 0 if turn else 0xa0 + sector
            disk.request(header(IN), SECTORS * SECTOR, OK, SECTORS * SECTOR + 1, at=COPY)
            for one in range(SECTORS):
                disk.queue.look(COPY + SECTOR * one, 1, bytes([holds[one]]))
    return story


def large_extents():
    """Extents that begin at a power of two and have as many sectors."""
    slots = [Slot(start=1 << bit, count=1 << bit if bit < 8 else MANY - 256) for bit in range(9)]
    story = Story("bits_requests/extents_of_260_sectors", "each bit below 9 of an extent's start leads to another sector, and each bit of its count to another end",
                  slots, image=large_image(), shows=[("extent's start", "0..8"), ("extent's count", "0..7"), ("capacity, shown", "0..7")])
    for slot, one in enumerate(slots):
        queue = Split(story, "b", slot=slot).bring_up()
        queue.offer([Buffer(HEADER, 16), Buffer(DATA, SECTOR, WRITE), Buffer(STATUS, 1, WRITE)])
        story.read("b", 0x100, one.count, slot=slot)
        for turn, sector in enumerate((0, one.count - 1, one.count)):
            queue.put(HEADER, header(IN, sector))
            queue.put(STATUS, NOT_YET)
            if turn:
                queue.offer_head(0)
            queue.notify()
            queue.look(STATUS, 1, bytes([IOERR if sector == one.count else OK]))
            if sector < one.count:
                queue.look(DATA, 2, marked(one.start + sector)[:2])
    return story
