"""Each sector of a request: which ranges an extent has, and what stands where the image fails at one of them."""
from .drivers import KINDS, WRITE, Buffer, Split, number
from .places import HEADER, STATUS_BYTE, places, shown
from .segments import IOERR, OK, UNSUPP, Disk
from .story import BASE, SECTOR, Slot, Story, plain_image

TITLE = "Sectors of a request"
HOW = "Each first sector and each number of sectors of an extent, inside and past its end; and a failure at each of eight sectors."
COLUMNS = ("What", "Where")
FOLDERS = {"positions_sectors": "Each sector of a read and of a write."}

ROOM = BASE + 0x8000


def stories():
    kinds = KINDS.values()
    yield from shown("a read's range", "each of an extent of six", map(read_ranges, kinds))
    yield from shown("a write's range", "each of an extent of six", map(write_ranges, kinds))
    yield from shown("a cut between two buffers", "each place of a header and a sector",
                     [*map(cut_writes, kinds), *map(cut_reads, kinds)])
    yield from shown("a cut between two buffers", "each place of an identity", map(cut_identities, kinds))
    yield from shown("each sector", "of a whole disk, and alone", map(whole_disk, kinds))
    yield from shown("data of no whole sectors", "1 to 1025 bytes", map(odd_data, kinds))
    yield from shown("a header too short", "0 to 15 bytes", map(short_headers, kinds))
    yield from shown("a byte of the header", "each, first behind a cut", map(cut_headers, kinds))
    yield from shown("room for an identity", "0 to 22 bytes", map(rooms_for_identities, kinds))
    yield from shown("a read that fails", "at each of eight", map(failing_read, range(8)))
    yield from shown("a write that fails", "at each of eight, at its flush", map(failing_write, range(9)))


def name(kind, what):
    return f"positions_sectors/{'packed' if kind.is_packed else 'split'}_{what}"


def read_ranges(kind):
    """n sectors from s on, of an extent of six that begins at the image's second."""
    story = Story(name(kind, "reads_of_each_range"),
                  "n sectors from s on are read where s + n is at most six: their first and last bytes show which.",
                  [Slot(start=1, count=6)])
    disk = Disk(kind, story)
    for sector in range(8):
        for count in range(0, 8):
            good = sector + count <= 6
            disk.queue.put(BASE + 0xc000, b"\xee")
            disk.request(0, OK if good else IOERR, sector=sector, room=SECTOR * count)
            if count:
                disk.queue.look(BASE + 0xc000, 1, bytes([0x11 + sector]) if good else b"\xee")
            if good and count:
                disk.queue.look(BASE + 0xc000 + SECTOR * count - 1, 1, bytes([0x10 + sector + count]))
    return story


def write_ranges(kind):
    """Writes of up to two sectors; a read of the whole extent shows what was written."""
    story = Story(name(kind, "writes_of_each_range"),
                  "n sectors from s on are written where s + n is at most six, and none where it isn't.",
                  [Slot(start=1, count=6)])
    disk = Disk(kind, story)
    holds = [0x11 + at for at in range(6)]
    for sector in range(8):
        for count in (0, 1, 2):
            good = sector + count <= 6
            byte = 0x40 + 3 * sector + count
            disk.request(1, OK if good else IOERR, bytes([byte]) * (SECTOR * count), sector)
            if good:
                holds[sector:sector + count] = [byte] * count
        disk.request(0, OK, room=SECTOR * 6)
        for at, byte in enumerate(holds):
            disk.queue.look(BASE + 0xc000 + SECTOR * at + 511 * (at % 2), 1, bytes([byte]))
    return story


PATTERN = bytes((at * 5 + at // 256) % 256 for at in range(SECTOR))


def cut(address, count, place, flags=0):
    """A range as two buffers, of which the first has `place` bytes."""
    return [Buffer(address, place, flags), Buffer(address + place, count - place, flags)]


def cut_writes(kind):
    """A header and a sector in two buffers."""
    story = Story(name(kind, "writes_cut_at_each_place"),
                  "A header and its sector stand in two buffers, cut at each place: the sector is the same.")
    disk = Disk(kind, story, size=8)
    queue = disk.queue
    for turn, place in enumerate(sorted({*range(1, 17), *(16 + one for one in places(511))})):
        data = bytes([turn]) + PATTERN[1:]
        queue.put(HEADER, number(1, 4) + bytes(4) + number(3, 8) + data)
        queue.put(STATUS_BYTE, b"\xff")
        queue.offer(cut(HEADER, 528, place) + [Buffer(STATUS_BYTE, 1, WRITE)])
        queue.notify()
        queue.look(STATUS_BYTE, 1, b"\0")
        disk.request(0, OK, sector=3, room=SECTOR)
        near = max(place - 18, 0)
        queue.look(BASE + 0xc000, 2, data[:2])
        queue.look(BASE + 0xc000 + near, min(4, SECTOR - near), data[near:near + 4])
        queue.look(BASE + 0xc000 + 510, 2, data[510:])
    return story


def cut_reads(kind):
    """A sector and its status in two buffers."""
    story = Story(name(kind, "reads_cut_at_each_place"),
                  "A sector and its status stand in two buffers, cut at each place: each byte is where it would be in one.")
    disk = Disk(kind, story, size=8)
    queue = disk.queue
    disk.request(1, OK, PATTERN, 3)
    for place in places(512):
        queue.put(HEADER, bytes(8) + number(3, 8))
        queue.put(ROOM, b"\xee")
        queue.put(ROOM + 0x1000 + place, b"\xee" * (513 - place))
        queue.offer([Buffer(HEADER, 16), Buffer(ROOM, place, WRITE), Buffer(ROOM + 0x1000 + place, 513 - place, WRITE)])
        queue.notify()
        queue.look_at_used(513, **({"count": 3} if queue.is_packed else {}))
        queue.look(ROOM, min(place, 2), PATTERN[:min(place, 2)])
        queue.look(ROOM + max(place - 2, 0), min(place, 2), PATTERN[max(place - 2, 0):place])
        queue.look(ROOM + 0x1000 + place, min(2, 513 - place), (PATTERN + b"\0")[place:place + 2])
        queue.look(ROOM + 0x1000 + 510, 3, PATTERN[510:] + b"\0") if place < 510 else queue.look(ROOM + 0x1000 + 512, 1, b"\0")
    return story


def cut_identities(kind):
    """An identity and its status in two buffers."""
    identity = bytes(range(0x41, 0x55))
    story = Story(name(kind, "identities_cut_at_each_place"),
                  "An identity and its status stand in two buffers, cut at each place.", [Slot(identity=identity)])
    disk = Disk(kind, story, size=8)
    queue = disk.queue
    for place in range(1, 21):
        queue.put(HEADER, number(8, 16))
        queue.put(ROOM, b"\xee" * 21)
        queue.put(ROOM + 0x1000, b"\xee" * 21)
        queue.offer([Buffer(HEADER, 16), Buffer(ROOM, place, WRITE), Buffer(ROOM + 0x1000 + place, 21 - place, WRITE)])
        queue.notify()
        queue.look_at_used(21, **({"count": 3} if queue.is_packed else {}))
        queue.look(ROOM, 21, identity[:place] + b"\xee" * (21 - place))
        queue.look(ROOM + 0x1000, 21, b"\xee" * place + identity[place:] + b"\0")
    return story


def whole_disk(kind):
    """All sectors in one read, in one write, and each zeroed by itself."""
    story = Story(name(kind, "all_sectors_of_a_disk"),
                  "Eight sectors are read at once, written at once, and zeroed one by one: each is where it was.")
    disk = Disk(kind, story)
    queue = disk.queue
    holds = [0x10 + at for at in range(8)]
    for step in range(10):
        disk.request(0, OK, room=8 * SECTOR)
        for at, byte in enumerate(holds):
            queue.look(BASE + 0xc000 + SECTOR * at, 2, bytes([byte]) * 2)
            queue.look(BASE + 0xc000 + SECTOR * at + 510, 2, bytes([byte]) * 2)
        if step == 0:
            holds = [0xa0 + at for at in range(8)]
            disk.request(1, OK, b"".join(bytes([byte]) * SECTOR for byte in holds))
        elif step < 9:
            sector = step * 3 % 8
            disk.zeroes([(sector, 1, 0)], OK)
            holds[sector] = 0
    return story


def odd_data(kind):
    """Reads and writes of each number of bytes that is no multiple of 512."""
    story = Story(name(kind, "data_of_1_to_1025_bytes"),
                  "Data of no multiple of 512 bytes are IOERR, to read and to write; none of them is touched.")
    disk = Disk(kind, story)
    for count in places(1025):
        if count % SECTOR:
            disk.queue.put(BASE + 0xc000, b"\xee")
            disk.request(0, IOERR, room=count)
            disk.queue.look(BASE + 0xc000, 1, b"\xee")
            disk.request(1, IOERR, b"\xaa" * count)
    disk.sees(0, 0x10)
    disk.sees(1, 0x11)
    return story


def short_headers(kind):
    """Headers whose bytes so far say IN, or FLUSH."""
    story = Story(name(kind, "headers_of_0_to_16_bytes"),
                  "A header of fewer than 16 bytes is IOERR, whatever its first bytes say.")
    disk = Disk(kind, story)
    queue = disk.queue
    for first, length in ((0, 513), (4, 1)):
        for count in range(17):
            good = count == 16
            queue.put(HEADER, number(first, 16))
            queue.put(ROOM, b"\xee")
            queue.put(ROOM + length - 1, b"\xff")
            queue.offer(([Buffer(HEADER, count)] if count else []) + [Buffer(ROOM, length, WRITE)])
            queue.notify()
            queue.look(ROOM + length - 1, 1, bytes([OK if good else IOERR]))
            queue.look_at_used(length if good or length == 1 else 0, **({"count": 1 + bool(count)} if queue.is_packed else {}))
            if length > 1:
                queue.look(ROOM, 1, b"\x10" if good else b"\xee")
    return story


def cut_headers(kind):
    """A header with one byte of 1, which is the first of the second buffer: an unknown type, nothing, or a sector."""
    story = Story(name(kind, "headers_cut_before_each_byte"),
                  "One byte of a header is 1, and its second buffer begins there: the byte counts.")
    disk = Disk(kind, story)
    queue = disk.queue
    for place in range(1, 16):
        status = UNSUPP if place < 4 else OK if place <= 8 else IOERR
        queue.put(HEADER, number(1 << 8 * place, 16))
        queue.put(ROOM, b"\xee")
        queue.offer(cut(HEADER, 16, place) + [Buffer(ROOM, 513, WRITE)])
        queue.notify()
        queue.look(ROOM, 1, b"\xee" if status else b"\x11" if place == 8 else b"\x10")
        queue.look(ROOM + 512, 1, bytes([status]))
    return story


def rooms_for_identities(kind):
    """Each room for an identity, and the status behind it."""
    story = Story(name(kind, "identities_in_0_to_22_bytes"),
                  "Room for fewer than 20 bytes of an identity is IOERR, and all of it stays.")
    disk = Disk(kind, story)
    queue = disk.queue
    for room in range(23):
        good = room >= 20
        queue.put(HEADER, number(8, 16))
        queue.put(ROOM, b"\xee" * 23)
        queue.offer([Buffer(HEADER, 16), Buffer(ROOM, room + 1, WRITE)])
        queue.notify()
        found = b"vreplay-block" + bytes(7) + b"\xee" * 3 if good else b"\xee" * 23
        queue.look(ROOM, 23, found[:room] + bytes([OK if good else IOERR]) + b"\xee" * (22 - room))
        length = (21 if room == 20 else 20) if good else 0 if room else 1
        queue.look_at_used(length, **({"count": 2} if queue.is_packed else {}))
    return story


def failing_read(call):
    """Eight sectors, of which one fails: those before it are read, and no byte behind."""
    story = Story(f"positions_sectors/a_read_fails_at_sector_{call}_of_8",
                  "Of a read of eight sectors one fails: those before it are read, the room behind stays.", fails=[call])
    disk = Disk(Split, story)
    queue = disk.queue
    queue.put(HEADER, bytes(16))
    queue.put(ROOM, b"\xee" * (8 * SECTOR + 1))
    queue.offer([Buffer(HEADER, 16), Buffer(ROOM, 8 * SECTOR + 1, WRITE)])
    queue.notify()
    queue.look(ROOM + 8 * SECTOR, 1, bytes([IOERR]))
    queue.look_at_used(SECTOR * call)
    for at in range(8):
        found = 0x10 + at if at < call else 0xee
        queue.look(ROOM + SECTOR * at, 2, bytes([found]) * 2)
        queue.look(ROOM + SECTOR * at + 510, 2, bytes([found]) * 2)
    disk.sees(call, 0x10 + call)
    return story


def failing_write(call):
    """Eight sectors, of which one fails; call 8 is the flush."""
    story = Story(f"positions_sectors/a_write_fails_at_call_{call}_of_8",
                  "Of a write of eight sectors one fails, or the flush behind: those before it stand, those behind stay.",
                  fails=[call])
    disk = Disk(Split, story)
    queue = disk.queue
    data = b"".join(bytes([0x90 + at]) * SECTOR for at in range(8))
    queue.put(HEADER, number(1, 16))
    queue.put(ROOM, data)
    queue.put(STATUS_BYTE, b"\xff")
    queue.offer([Buffer(HEADER, 16), Buffer(ROOM, len(data)), Buffer(STATUS_BYTE, 1, WRITE)])
    queue.notify()
    queue.look(STATUS_BYTE, 1, bytes([IOERR]))
    queue.look_at_used(1)
    image = bytearray(plain_image())
    image[:SECTOR * call] = data[:SECTOR * call]
    if call < 8:
        image[SECTOR * call:SECTOR * call + 256] = data[SECTOR * call:SECTOR * call + 256]
    story.leaves = (bytes(image), 1 if call == 8 else 0)
    for at in range(8):
        if at != call:
            disk.sees(at, 0x90 + at if at < call else 0x10 + at)
    return story
