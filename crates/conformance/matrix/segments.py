"""Each position of a list of segments to zero: what one of 32 says, how many there are, and where the image fails."""
from .drivers import KINDS, WRITE, Buffer, number
from .places import HEADER, ROOM, STATUS_BYTE, places, shown
from .story import Story, plain_image

TITLE = "Segments of a WRITE_ZEROES"
HOW = "One of 32 segments is another, at 1, 2, 31, 32 and each power of two with its neighbours; and lists of other lengths."
COLUMNS = ("What", "Where")
FOLDERS = {"positions_segments": "One of 32 segments of a WRITE_ZEROES is another, at each place; and how many there may be."}
PLACES = places(32)
OK, IOERR, UNSUPP = 0, 1, 2
SECTOR = 512


def stories():
    for what, name, about, one, status in ROWS:
        yield from shown(what, "each of 32", (each(kind, name, about, one, status) for kind in KINDS.values()))
    yield from shown("the one segment with a sector", "each of 32",
                     [zeroed(kind, flags) for kind in KINDS.values() for flags in (0, 1)])
    yield from shown("the one segment without", "each of 32", map(left, KINDS.values()))
    yield from shown("a segment in a buffer of its own", "each of 32", map(spread, KINDS.values()))
    yield from shown("how many segments", "1 to 65", map(counted, KINDS.values()))
    yield from shown("data of no whole segments", "1, 8 and 15 bytes behind n", map(between, KINDS.values()))
    yield from shown("an image call that fails", "calls 0 to 32", map(failing, (0, 1, 2, 3, 7, 8, 15, 16, 17, 30, 31, 32)))


# What is tried at each place: the row's words, a name, a sentence, the segment (sector, count, flags), the status.
ROWS = [
    ("a flag: bit 1", "flag_2_of_one_segment", "Bit 1 of one of 32 segments' flags is UNSUPP.", (0, 0, 2), UNSUPP),
    ("a flag: bit 31", "flag_31_of_one_segment", "Bit 31 of one of 32 segments' flags is UNSUPP.", (0, 0, 1 << 31), UNSUPP),
    ("bit 0", "unmap_of_one_segment", "Bit 0 of one of 32 segments' flags says nothing.", (0, 0, 1), OK),
    ("a range past the end", "one_segment_past_the_end", "One of 32 segments goes one sector too far: IOERR.", (7, 2, 0), IOERR),
    ("no sectors behind the end", "one_segment_behind_the_end",
     "One of 32 segments has no sector, and begins behind the end: IOERR.", (9, 0, 0), IOERR),
    ("no sectors at the end", "one_segment_at_the_end", "One of 32 segments has no sector, and begins at the end.", (8, 0, 0),
     OK),
]


def name_of(kind, what):
    return f"positions_segments/{'packed' if kind.is_packed else 'split'}_{what}"


def segment(sector, count, flags=0):
    return number(sector, 8) + number(count, 4) + number(flags, 4)


class Disk:
    """Requests of one shape: header and data in one buffer, room if any, and the status."""

    def __init__(self, kind, story, size=4, low=0):
        self.story, self.queue = story, kind(story, "b", 0, size, low=low).bring_up()

    def request(self, kind, status, data=b"", sector=0, room=0):
        queue = self.queue
        queue.put(HEADER, number(kind, 4) + bytes(4) + number(sector, 8) + data)
        queue.put(STATUS_BYTE, b"\xff")
        buffers = [Buffer(HEADER, 16 + len(data))] + ([Buffer(ROOM, room, WRITE)] if room else [])
        queue.offer(buffers + [Buffer(STATUS_BYTE, 1, WRITE)])
        queue.notify()
        queue.look(STATUS_BYTE, 1, bytes([status]))
        length = (room + 1 if status == OK else 0) if room else 1
        queue.look_at_used(length, **({"count": len(buffers) + 1} if queue.is_packed else {}))

    def zeroes(self, segments, status):
        self.request(13, status, b"".join(segment(*one) for one in segments))

    def sees(self, sector, byte):
        """Reads a sector, and looks at its first and last bytes."""
        self.request(0, OK, sector=sector, room=SECTOR)
        for at in (ROOM, ROOM + SECTOR - 4):
            self.queue.look(at, 4, bytes([byte]) * 4)

    def fills(self, sector, byte):
        self.request(1, OK, bytes([byte]) * SECTOR, sector)


def but(place, one, others=(0, 0, 0), count=32):
    return [one if at == place else others for at in range(1, count + 1)]


def each(kind, what, about, one, status):
    """A segment at each place among 31 that say nothing."""
    story = Story(name_of(kind, what), about)
    disk = Disk(kind, story)
    for place in PLACES:
        disk.zeroes(but(place, one), status)
    return story


def zeroed(kind, flags):
    """The one segment with a sector, without and with bit 0 of its flags."""
    story = Story(name_of(kind, "one_segment_to_unmap" if flags else "one_segment_with_a_sector"),
                  "Of 32 segments one has a sector: it becomes zero, and its neighbour stays.")
    disk = Disk(kind, story)
    for place in PLACES:
        disk.fills(3, place)
        disk.zeroes(but(place, (3, 1, flags)), OK)
        disk.sees(3, 0)
    disk.sees(2, 0x12)
    disk.sees(4, 0x14)
    return story


def left(kind):
    story = Story(name_of(kind, "one_segment_without_sectors"), "Of 32 segments one has no sector: just the others' become zero.")
    disk = Disk(kind, story)
    for place in PLACES:
        disk.fills(3, place)
        disk.zeroes(but(place, (5, 0, 0), (3, 1, 0)), OK)
        disk.sees(3, 0)
    disk.sees(5, 0x15)
    return story


def spread(kind):
    """32 segments in 32 buffers behind their header."""
    story = Story(name_of(kind, "segments_in_32_buffers"), "32 segments stand in a buffer each: one has a sector, then a flag.")
    disk = Disk(kind, story, 64)
    queue = disk.queue
    for place in PLACES:
        for one, status in (((place % 8, 1, 0), OK), ((0, 0, 2), UNSUPP)):
            queue.put(HEADER, number(13, 16) + b"".join(segment(*each) for each in but(place, one)))
            queue.put(STATUS_BYTE, b"\xff")
            queue.offer([Buffer(HEADER + 16 * at, 16) for at in range(33)] + [Buffer(STATUS_BYTE, 1, WRITE)])
            queue.notify()
            queue.look(STATUS_BYTE, 1, bytes([status]))
        disk.sees(place % 8, 0)
        disk.fills(place % 8, 0x10 + place % 8)
    return story


def counted(kind):
    """n segments: up to 32 are served, the last one among them."""
    story = Story(name_of(kind, "lists_of_1_to_65_segments"), "n segments: up to 32 are served, 33 and more are IOERR.")
    disk = Disk(kind, story)
    for count in places(65) + [34, 48]:
        good = count <= 32
        disk.fills(3, count)
        disk.zeroes(but(count, (3, 1, 0), count=count), OK if good else IOERR)
        disk.sees(3, 0 if good else count)
    return story


def between(kind):
    """Data of a byte more or less than n segments."""
    story = Story(name_of(kind, "data_beside_n_segments"),
                  "Data of 1, 8 or 15 bytes more than n segments are IOERR, also below and above 32; so is a segment of no "
                  "sector far behind the end.")
    disk = Disk(kind, story)
    for count in (0, 1, 2, 15, 16, 31, 32, 33):
        for more in (1, 8, 15):
            disk.request(13, IOERR, b"".join([segment(3, 1)] * count) + segment(3, 1)[:more])
    for sector in (1 << 55, 1 << 63, (1 << 64) - 1):
        disk.request(13, IOERR, segment(sector, 0))
    disk.sees(3, 0x13)
    return story


def failing(call):
    """Segment k's sector is written by call k - 1; call 32 is the flush."""
    story = Story(f"positions_segments/call_{call}_of_32_segments_fails",
                  "Of 32 writes and a flush one fails: IOERR, and no later call is made.", fails=[call])
    disk = Disk(KINDS["split"], story)
    sectors = [0 if at < call else 1 if at == call else 2 for at in range(32)]
    disk.zeroes([(sector, 1, 0) for sector in sectors], IOERR)
    image = bytearray(plain_image())
    if call:
        image[:SECTOR] = bytes(SECTOR)
    if call < 32:
        image[SECTOR:SECTOR + 256] = bytes(256)
    story.leaves = (bytes(image), 1 if call == 32 else 0)
    disk.sees(2, 0x12)
    return story
