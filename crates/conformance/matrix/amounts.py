"""More than usual of what has no small limit: sectors of a request, bytes put out, looked at and typed, kept sectors,
and buffers of a sector."""
import functools

from .by_hand import written_out
from .drivers import INDIRECT_DESC, KINDS, SERVED, WRITE, Buffer, Split, number
from .places import shown
from .requests import IN, OUT, WRITE_ZEROES, header, segment
from .segments import IOERR, OK
from .story import BADRANGE, BASE, SECTOR, USED, Slot, Story

TITLE = "Amounts"
HOW = ("Requests of more than 1,024 sectors, whose used length has bits from 20 up; a service that puts out more than "
       "128 KiB; a memory of more than 1 MiB, looked at as a whole; caches of more than 256 sectors, full and more; a "
       "sector in up to 253 buffers; input that fills its 4096 bytes.")
COLUMNS = ("What", "How much")
FOLDERS = {"amounts": "Larger amounts than drivers mostly have.",
           "amounts_cached": "Caches of more than 256 sectors that are full: which reads call the image."}

IDENTITY = b"amounts" + bytes(13)
AREAS = [BASE + 0x1000, BASE + 0x3000, BASE + 0x5000]
HEADER, STATUS, TABLE, DATA = BASE + 0x8000, BASE + 0x9000, BASE + 0xa000, BASE + 0x20000
MANY = 65536 + 16
MIB = 1 << 20


def stories():
    yield from shown("pending input that is full", "at 4095 bytes, by hand", [the_last_byte_of_input()])
    yield from shown("sectors of a read, and the used len", "1,024 to 65,552; bits 20 to 25",
                     map(reads, KINDS.values()))
    yield from shown("sectors of a write", "1,024 to 65,552", map(writes, KINDS.values()))
    yield from shown("sectors of 2, 3 and 32 segments together", "65,537 to 196,608", [zeroes()])
    yield from shown("bytes put out in one service", "64 KiB, 128 KiB and 1 MiB, and beside them", map(texts, KINDS.values()))
    yield from shown("bytes of `mr` and `mw`", "1 MiB, and a whole memory", [whole_memory()])
    yield from shown("kept sectors", "255 to 300", map(kept, (255, 256, 257, 300)))
    yield from shown("kept sectors", "4,097, 65,536", map(many_kept, (4097, 65536)))
    yield from shown("buffers of a sector", "16 to 253",
                     [one(kind) for one in (cut_reads, cut_writes) for kind in KINDS.values()])
    yield from shown("pending input that is full", "from each place of 4096 bytes, behind up to 131,072",
                     map(full, KINDS.values()))
    yield from shown("typed bytes", "4095 to 65,536, where a queue waits", map(typed, KINDS.values()))


def the_last_byte_of_input():
    """4095 bytes wait, then one of two more; a buffer of 4096 bytes takes them all."""
    return written_out("amounts/the_last_byte_of_pending_input",
                       "Of two bytes that are typed behind 4095 the first is taken, and no other until a buffer took "
                       "them.", """
        in 0 {61*4095} > 0 took:fff - 0 0
        in 0 6263 > 0 took:1 - 0 0
        in 0 64 > 0 took:0 - 0 0
        w 0 c 070 4 00000003 > 0 done - 0 0
        w 0 c 024 4 00000001 > 0 done - 0 0
        w 0 c 020 4 00000001 > 0 done - 0 0
        w 0 c 070 4 0000000b > 0 done - 0 0
        w 0 c 038 4 00000001 > 0 done - 0 0
        w 0 c 080 4 80001000 > 0 done - 0 0
        w 0 c 090 4 80002000 > 0 done - 0 0
        w 0 c 0a0 4 80003000 > 0 done - 0 0
        w 0 c 044 4 00000001 > 0 done - 0 0
        w 0 c 070 4 0000000f > 0 done - 0 0
        mw 0 80001000 00800080000000000010000002000000 > 0 done - 0 0
        mw 0 80002002 01000000 > 0 done - 0 0
        w 0 c 050 4 00000000 > 0 done - 0 1
        mr 0 80008000 1001 > 0 b:{61*4095}6200 - 0 1
        mr 0 80003002 a > 0 b:01000000000000100000 - 0 1
        in 0 65 > 0 took:1 - 0 1
        mr 0 80003002 2 > 0 b:0100 - 0 1
        """)


def named(kind, what):
    return f"amounts/{'packed' if kind.is_packed else 'split'}_{what}"


class Disk:
    """Requests of a header, data or room, and a status byte."""

    def __init__(self, story, kind, low=0):
        self.story, self.queue = story, kind(story, "b", 0, 256, low=low, areas=list(AREAS)).bring_up()

    def request(self, kind, status, length, sector=0, buffers=(), in_table=False):
        """A request with these buffers between its header and its status."""
        queue = self.queue
        queue.put(HEADER, header(kind, sector))
        queue.put(STATUS, b"\xff")
        chain = [Buffer(HEADER, 16), *buffers, Buffer(STATUS, 1, WRITE)]
        chain = [queue.table(TABLE, chain)] if in_table else chain
        queue.offer(chain)
        queue.notify()
        queue.look(STATUS, 1, bytes([status]))
        queue.look_at_used(length, **({"count": len(chain)} if queue.is_packed else {}))

    def reads(self, sector, count, status=OK, length=None, at=DATA):
        self.request(IN, status, SECTOR * count + 1 if length is None else length, sector,
                     [Buffer(at, SECTOR * count, WRITE)])

    def writes(self, sector, content, status=OK):
        self.queue.put(DATA, content)
        self.request(OUT, status, 1, sector, [Buffer(DATA, len(content))])

    def sees(self, sector, content):
        """A sector that begins so, and the end of it."""
        self.reads(sector, 1, at=DATA - SECTOR)
        self.queue.look(DATA - SECTOR, len(content), content)
        self.queue.look(DATA - 4, 4, bytes(4))


# --- requests of many sectors

def large_disk(name, about):
    return Story(name, about, [Slot(length=1 << 26, count=MANY, identity=IDENTITY)], zeros=MANY)


def reads(kind):
    """A mark stands at the last sector of each read: it is read, and nothing behind it."""
    story = large_disk(named(kind, "reads_of_1024_to_65552_sectors"),
                       "Reads of 1,024 sectors and more: each byte of the used len counts, and the last sector is "
                       "there.")
    disk = Disk(story, kind)
    counts = (1024, 1025, 2047, 2048, 4096, 8192, 16384, 32768, 65536, MANY)
    if kind.is_packed:
        counts = (1023, 1025, 2047, 2049, 43691, 65537)
    for turn, count in enumerate(counts, 1):
        mark = number(0x5a00 + turn, 2)
        disk.writes(count - 1, mark + bytes(SECTOR - 2))
        disk.queue.put(DATA + SECTOR * count, b"\xee")
        disk.reads(0, count)
        disk.queue.look(DATA + SECTOR * (count - 1), SECTOR + 1, mark + bytes(SECTOR - 2) + b"\xee")
    disk.reads(0, MANY + 1, IOERR, 0)
    # The sectors before the last one of the second read are those that were marked before.
    disk.reads(1000, 1030)
    for turn, count in enumerate(counts, 1):
        if 1000 < count <= 2030:
            disk.queue.look(DATA + SECTOR * (count - 1001), 2, number(0x5a00 + turn, 2))
    return story


def writes(kind):
    """A write's first and last sectors, and those at 1,023, 1,024 and 65,535, have marks; all others are zeros."""
    story = large_disk(named(kind, "writes_of_1024_to_65552_sectors"),
                       "Writes of 1,024 sectors and more are written up to the last one, and no further.")
    disk = Disk(story, kind)
    ranges = ((3, 1024), (3, 1025), (0, 2049), (15, 65537)) if kind.is_packed else ((3, 1024), (3, 1025), (16, 65536), (0, MANY))
    for turn, (sector, count) in enumerate(ranges, 1):
        marks = {at: number(0x6000 + 256 * turn + at % 251, 2) for at in (0, 1023, 1024, 1025, count - 2, count - 1)
                 if at < count}
        disk.writes(sector + count - 1, b"\x77" * 2 + bytes(SECTOR - 2))
        if sector + count < MANY:
            disk.writes(sector + count, b"\x78" * 2 + bytes(SECTOR - 2))
        disk.queue.put(DATA, bytes(SECTOR))
        for at, mark in marks.items():
            disk.queue.put(DATA + SECTOR * at, mark)
        disk.request(OUT, OK, 1, sector, [Buffer(DATA, SECTOR * count)])
        for at, mark in marks.items():
            disk.queue.put(DATA + SECTOR * at, bytes(2))
            disk.sees(sector + at, mark)
        disk.sees(sector + 7, bytes(2))
        if sector + count < MANY:
            disk.sees(sector + count, b"\x78" * 2)
    disk.request(OUT, IOERR, 1, 1, [Buffer(DATA, SECTOR * MANY)])
    return story


def zeroes():
    """Segments that have more sectors together than each may have."""
    story = large_disk("amounts/segments_of_196608_sectors",
                       "Segments of more than 65,536 sectors together: each is zeroed.")
    disk = Disk(story, Split)
    marked = [0, 1, 2047, 2048, 32767, 65534, 65535, 65536, MANY - 1]
    for segments in ([(0, 65535, 0), (65535, 2, 0)], [(1, 65536, 0), (0, 65536, 1), (16, 65536, 0)],
                     [(2048 * at, 2049, 0) for at in range(32)]):
        for sector in marked:
            disk.writes(sector, b"\x55" + bytes(SECTOR - 1))
        disk.queue.put(HEADER + 16, b"".join(segment(*one) for one in segments))
        disk.request(WRITE_ZEROES, OK, 1, 0, [Buffer(HEADER + 16, 16 * len(segments))])
        for sector in marked:
            is_zero = any(first <= sector < first + count for first, count, _ in segments)
            disk.sees(sector, bytes(1) if is_zero else b"\x55")
    return story


# --- bytes

def texts(kind):
    """Buffers that lie over one another, so that a small memory has room for all; no byte is that of its neighbours."""
    story = Story(named(kind, "texts_of_64_kib_and_more"),
                  "64 KiB, 128 KiB and more go out in one service, by one chain and by several.",
                  [Slot(length=0x40000, identity=IDENTITY)])
    queue = kind(story, "c", 1, 256, areas=list(AREAS)).bring_up()
    content = bytes(at * 7 % 251 for at in range(0x8000))
    queue.put(DATA, content)
    whole = lambda count: [Buffer(DATA, 0x8000)] * count
    for chains in ([whole(3) + [Buffer(DATA, 0x7fff)]], [whole(4)], [whole(4) + [Buffer(DATA + 5, 1)]],
                   [whole(2), whole(2) + [Buffer(DATA + 9, 3)]],
                   [whole(30), whole(1), [Buffer(DATA + 1, 0x7fff)], [Buffer(DATA + 3, 3)]]):
        put_out(queue, chains, content)
    for chains in ([whole(1) + [Buffer(DATA, 0x7fff)]], [whole(2)], [[Buffer(DATA, 0x10000)]], [[Buffer(DATA + 0x7fff, 0x10001)]],
                   [whole(1), [Buffer(DATA + 1, 0x7fff), Buffer(DATA, 1)]], [[Buffer(DATA, 0xffff)], [Buffer(DATA + 7, 1)], [Buffer(DATA + 8, 1)]],
                   [[Buffer(DATA + at * 97 % 0x7f00, 256) for at in range(64)]] * 4):
        put_out(queue, chains, content)
    return story


def put_out(queue, chains, content):
    """Chains that are served at once; behind the content lie zeros."""
    output, behind = b"", content + bytes(0x10000)
    for chain in chains:
        offer(queue, chain)
        output += b"".join(behind[one.address - DATA:one.address - DATA + one.length] for one in chain)
    queue.notify(output=output)
    queue.look_at_used(0, **({"wrote": False, "count": len(chains[-1])} if queue.is_packed else {"head": queue.head}))


def offer(queue, chain):
    """Offers a chain beside those that wait."""
    if queue.is_packed:
        queue.offer(chain)
        return
    queue.head = 64 * (queue.offered % 4)
    queue.offer(chain, head=queue.head)


def whole_memory():
    length = MIB + 0x1000
    story = Story("amounts/a_memory_of_more_than_1_mib",
                  "1 MiB, a byte more, and the whole of a memory are looked at, and written, at once; not what ends behind it.",
                  [Slot(length=length, identity=IDENTITY)])
    content = bytearray(length)
    for at in (0, 1, 4095, 4096, 65535, 65536, MIB - 1, MIB, MIB + 1, length - 1):
        content[at] = 1 + at % 251
        story.put(BASE + at, content[at:at + 1])
    story.look(BASE, MIB + 1, bytes(content[:MIB + 1]))
    story.look(BASE + MIB, length - MIB, bytes(content[MIB:]))
    story.look(BASE, length + 1, BADRANGE)
    story.look(BASE + 1, length, BADRANGE)
    content = (b"0123456789abcdefg" * (length // 17 + 1))[:length]
    story.put(BASE, content)
    story.look(BASE + 1, 20, content[1:21])
    story.look(BASE, length, content)
    # What ends a byte behind the memory writes nothing of it.
    for count in (2, 513, 4097, 8193, 65537, length):
        story.put(BASE + length + 1 - count, b"\xee" * count, reply=BADRANGE)
        story.look(BASE + length + 1 - count, count - 1, content[length + 1 - count:])
    return story


# --- caches

def sectors(count):
    """An image whose sectors begin and end with their number."""
    return b"".join(number(at, 2) + bytes([at % 251]) * (SECTOR - 4) + number(at, 2) for at in range(count))


def kept(capacity):
    """The cache is filled by one read of many sectors; a new sector takes the first one's room, and so on."""
    count = capacity + 4
    story = Story(f"amounts_cached/a_full_cache_of_{capacity}",
                  "A cache is filled by one read, and two sectors more drop the first two: the rest is read without a "
                  "call.",
                  [Slot(length=0x80000, count=count, identity=IDENTITY)], cache=capacity, image=sectors(count),
                  fails=[capacity + 2, capacity + 4])
    disk = Disk(story, Split)
    disk.reads(0, capacity)
    look_at_sectors(disk, range(capacity))
    disk.reads(capacity, 2)
    look_at_sectors(disk, range(capacity, capacity + 2))
    disk.reads(2, capacity)
    look_at_sectors(disk, range(2, capacity + 2))
    # Call capacity + 2 is the first since.
    disk.reads(0, 1, IOERR, 0)
    disk.reads(0, 1)
    disk.reads(3, capacity - 1)
    look_at_sectors(disk, range(3, capacity + 2))
    disk.reads(2, 2, IOERR, 0)
    disk.reads(1, 2)
    look_at_sectors(disk, range(1, 3))
    return story


def look_at_sectors(disk, range_of):
    """The first and last bytes of some of the sectors that were read, the first and the last among them."""
    for at, sector in enumerate(range_of):
        if at in (0, 1, 253, 254, 255, 256, 257) or at == len(range_of) - 1:
            disk.queue.look(DATA + SECTOR * at, 3, number(sector, 2) + bytes([sector % 251]))
            disk.queue.look(DATA + SECTOR * at + SECTOR - 3, 3, bytes([sector % 251]) + number(sector, 2))


def many_kept(capacity):
    """The same by many reads in one, of zeros: calls alone tell which are kept."""
    story = Story(f"amounts_cached/a_full_cache_of_{capacity}",
                  "A cache is filled by one read, and a sector more drops the first: the rest is read without a call.",
                  [Slot(length=1 << 26, count=MANY, identity=IDENTITY)], cache=capacity, zeros=MANY,
                  fails=[capacity + 1])
    disk = Disk(story, Split)
    disk.reads(0, capacity)
    disk.reads(capacity, 1)
    disk.reads(1, capacity)
    disk.reads(0, 1, IOERR, 0)
    disk.reads(0, 1)
    return story


# --- a sector in many buffers

CUTS = (16, 17, 31, 32, 33, 64, 65, 128, 253)


def parts(count):
    """Lengths of so many buffers with 512 bytes together, none of them 0: the last has what is left."""
    lengths = [1 + at % 2 if count > 128 else 1 + at % 5 if count > 64 else 1 + at % 7 for at in range(count - 1)]
    return lengths + [SECTOR - sum(lengths)]


PATTERN = bytes((at * 3 + at // 256) % 253 for at in range(SECTOR))


def pieces(count, flags):
    """The buffers of a sector, each with its bytes: they lie one before another, a byte apart."""
    found, at, place = [], DATA + 0x800, 0
    for length in parts(count):
        at -= length + 1
        found.append((Buffer(at, length, flags), PATTERN[place:place + length]))
        place += length
    return found


def cut_reads(kind):
    story = Story(named(kind, "reads_into_16_to_253_buffers"),
                  "A sector is read into up to 253 buffers: each byte is in its place, and none between them is "
                  "touched.",
                  [Slot(length=0x40000, identity=IDENTITY)])
    disk = Disk(story, kind, INDIRECT_DESC)
    disk.writes(5, PATTERN)
    for turn, count in enumerate(CUTS):
        wanted, buffers = bytearray(b"\xee" * 0x800), pieces(count, WRITE)
        for buffer, content in buffers:
            wanted[buffer.address - DATA:buffer.address - DATA + buffer.length] = content
        disk.queue.put(DATA, b"\xee" * 0x800)
        disk.request(IN, OK, SECTOR + 1, 5, [buffer for buffer, _ in buffers], turn % 2 == 0)
        disk.queue.look(DATA, 0x800, bytes(wanted))
    return story


def cut_writes(kind):
    story = Story(named(kind, "writes_from_16_to_253_buffers"),
                  "A sector is written from up to 253 buffers: it has each byte in its place.",
                  [Slot(length=0x40000, identity=IDENTITY)])
    disk = Disk(story, kind, INDIRECT_DESC)
    for turn, count in enumerate(CUTS):
        lies, buffers = bytearray(b"\xee" * 0x800), pieces(count, 0)
        for buffer, content in buffers:
            lies[buffer.address - DATA:buffer.address - DATA + buffer.length] = content
        disk.queue.put(DATA, bytes(lies))
        disk.request(OUT, OK, 1, turn % 8, [buffer for buffer, _ in buffers], turn % 2 == 1)
        disk.reads(turn % 8, 1)
        disk.queue.look(DATA, SECTOR, PATTERN)
    return story


# --- input

@functools.lru_cache(maxsize=None)
def text(first, count):
    return bytes((first + at) * 3 % 241 for at in range(count))


def full(kind):
    """So many bytes are typed and taken first; then 4095, the 4096th, and one that finds no room."""
    story = Story(named(kind, "input_that_is_full_from_each_place"),
                  "Input fills its 4096 bytes, the last of them alone, behind so many that were taken before: their "
                  "order stays.",
                  [Slot(identity=IDENTITY)])
    queue, count = kind(story, "c", 0, 4, areas=list(AREAS)).bring_up(), 0

    def take(size, first):
        queue.offer([Buffer(DATA - 0x18000, size, WRITE)])
        queue.notify()
        queue.look_at_used(size)
        queue.look(DATA - 0x18000, size, text(first, size))
    # So much was taken in all when the room is filled, modulo 4096; in all more than twice 65,536 bytes are typed.
    for at in (1, 2047, 2048, 4093, 4094, 4095, 0) * 4:
        before = (at - count - 1) % 4096 + 1
        story.type(text(count, before), took=before)
        take(before, count)
        count += before
        story.type(text(count, 4095), took=4095)
        story.type(text(count + 4095, 2), took=1)
        story.type(b"\xee", took=0)
        take(1, count)
        story.type(text(count + 4096, 3), took=1)
        take(4095, count + 1)
        story.type(text(count + 4097, 1), took=1)
        take(2, count + 4096)
        count += 4098
    return story


def typed(kind):
    """A queue waits with more room than may be pending: what is more than 4096 bytes is gone all the same."""
    story = Story(named(kind, "typed_bytes_where_a_queue_waits"),
                  "Buffers wait for more bytes than may be pending: of what is typed at once 4096 are taken, the next "
                  "are taken again.",
                  [Slot(length=0x40000, identity=IDENTITY)])
    queue = kind(story, "c", 0, 4, areas=list(AREAS)).bring_up()
    rows = ((8192, 4095), (8192, 4096), (8192, 4097), (8192, 8192), (3000, 4097), (4096, 5000), (4095, 4097),
            (8192, 65536))
    for turn, (room, length) in enumerate(rows):
        queue.put(DATA, b"\xee" * 0x4001)
        for place in range(2):
            queue.offer([Buffer(DATA + place * room, room, WRITE)],
                        **({} if queue.is_packed else {"head": queue.offered % 4}))
        took = min(4096, length)
        story.type(text(turn, length), took=took, told=USED)
        queue.look(DATA, min(took, 2 * room) + 1, text(turn, took) + b"\xee")
        if took <= room:
            story.type(b"!", took=1)
            queue.look(DATA + room, 2, b"!\xee")
        else:
            queue.look(DATA + room, took - room, text(turn, took)[room:])
        queue.after(SERVED)
        queue.acknowledge()
    return story
