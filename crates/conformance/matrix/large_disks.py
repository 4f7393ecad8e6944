"""A disk of more than 65536 sectors, on which a segment may have as many, and none more."""
from .drivers import KINDS, WRITE, Buffer
from .places import shown
from .requests import IN, OUT, WRITE_ZEROES, header, segment
from .segments import HEADER, IOERR, OK, ROOM, STATUS_BYTE, UNSUPP
from .story import SECTOR, Slot, Story

TITLE = "Large disks"
HOW = ("A disk of more sectors than a segment may zero: how many it may have is told from how many there are. The image is zeros, so that "
       "its file is a line.")
COLUMNS = ("What", "Where")
FOLDERS = {"large_disks": "A disk of more than 65536 sectors."}

MOST = 65536
SECTORS = 2 * MOST + 4


def stories():
    yield from shown("a segment of 65536 sectors and more", "first, middle and last of a list", map(counts, KINDS.values()))
    yield from shown("the request's and a segment's sector", "bits 15 to 17, inside", [sectors()])
    yield from shown("capacity, extent's start and count", "bits 16 and 17", [extents()])


class Disk:
    """Requests of a header with its data, room and a status."""

    def __init__(self, story, kind, slot=0):
        self.story, self.queue = story, kind(story, "b", 0, 4, slot=slot).bring_up()

    def request(self, kind, status, sector=0, data=b"", room=0):
        queue = self.queue
        queue.put(HEADER, header(kind, sector) + data)
        queue.put(STATUS_BYTE, b"\xff")
        buffers = [Buffer(HEADER, 16 + len(data))] + ([Buffer(ROOM, room, WRITE)] if room else [])
        queue.offer(buffers + [Buffer(STATUS_BYTE, 1, WRITE)])
        queue.notify()
        queue.look(STATUS_BYTE, 1, bytes([status]))

    def zeroes(self, status, *segments):
        self.request(WRITE_ZEROES, status, data=b"".join(segment(*one) for one in segments))

    def fills(self, sector, byte):
        self.request(OUT, OK, sector, bytes([byte]) * SECTOR)

    def sees(self, sector, byte):
        self.request(IN, OK, sector, room=SECTOR)
        self.queue.look(ROOM + SECTOR - 2, 2, bytes([byte]) * 2)


def counts(kind):
    """A count of 65536 is served, a larger one refused, whatever stands beside it."""
    name = "packed" if kind.is_packed else "split"
    story = Story(f"large_disks/counts_of_65536_and_more_{name}", "A segment of 65536 sectors is zeroed, at each place; a larger one is IOERR, "
                  "though the disk has as many, and nothing is zeroed.", [Slot(count=SECTORS)], zeros=SECTORS)
    disk = Disk(story, kind)
    for sector in (0, 1, MOST - 1, MOST, MOST + 1, SECTORS - 1):
        disk.fills(sector, 0x55)
    for count in (MOST + 1, MOST + 2, SECTORS - 1, SECTORS):
        disk.zeroes(IOERR, (0, count, 0))
        disk.zeroes(IOERR, (0, count, 1))
        disk.zeroes(UNSUPP, (0, count, 2))
    large, small = (1, MOST + 1, 0), (0, 1, 0)
    for segments in ((large, small, small), (small, large, small), (small, small, large)):
        disk.zeroes(IOERR, *segments)
    for sector in (0, 1, MOST - 1, MOST, MOST + 1, SECTORS - 1):
        disk.sees(sector, 0x55)
    disk.zeroes(OK, (1, MOST, 0))
    for sector, byte in ((0, 0x55), (1, 0), (MOST - 1, 0), (MOST, 0), (MOST + 1, 0x55), (SECTORS - 1, 0x55)):
        disk.sees(sector, byte)
    disk.zeroes(IOERR, (SECTORS - MOST + 1, MOST, 0))
    disk.zeroes(OK, (SECTORS - 1, 0, 0), (SECTORS - MOST, MOST, 1), (0, 1, 0))
    for sector, byte in ((0, 0), (MOST + 1, 0x55), (SECTORS - MOST, 0), (SECTORS - 1, 0)):
        disk.sees(sector, byte)
    return story


def sectors():
    """Sectors that differ in one bit from 15 to 17."""
    story = Story("large_disks/sectors_of_a_large_disk", "Bits 15, 16 and 17 of a sector lead to other sectors, for a read, a write and a segment.",
                  [Slot(count=SECTORS)], zeros=SECTORS)
    disk, places = Disk(story, KINDS["split"]), [0, 1 << 15, 1 << 16, 3 << 15, 1 << 17, SECTORS - 1]
    story.read("b", 0x100, SECTORS)
    for at, sector in enumerate(places):
        disk.fills(sector, 0x61 + at)
    for at, sector in enumerate(places):
        disk.sees(sector, 0x61 + at)
    for sector in places[1:]:
        disk.zeroes(OK, (sector, 1, 0))
        disk.sees(sector, 0)
    disk.sees(0, 0x61)
    disk.request(IN, IOERR, SECTORS, room=SECTOR)
    return story


def extents():
    """Two extents that begin and end at bits 16 and 17."""
    slots = [Slot(start=0, count=MOST), Slot(start=MOST, count=MOST + 3), Slot(start=SECTORS - 1, count=1)]
    story = Story("large_disks/extents_of_a_large_image", "Extents that begin at 65536 and at 131075: each slot has its own sectors.", slots, zeros=SECTORS)
    disks = [Disk(story, KINDS["split"], slot) for slot in range(3)]
    for slot, one in enumerate(slots):
        story.read("b", 0x100, one.count, slot=slot)
        for sector in (0, one.count - 1):
            disks[slot].fills(sector, 0x71 + slot)
    for slot, one in enumerate(slots):
        for sector in (0, one.count - 1):
            disks[slot].sees(sector, 0x71 + slot)
        disks[slot].request(IN, IOERR, one.count, room=SECTOR)
    disks[0].zeroes(OK, (0, MOST, 0))
    disks[1].sees(0, 0x72)
    disks[1].zeroes(OK, (3, MOST, 0))
    disks[1].sees(MOST + 2, 0)
    disks[1].sees(0, 0x72)
    disks[2].sees(0, 0x73)
    return story
