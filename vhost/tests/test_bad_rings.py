"""Rings that break the standard: the queue stops, tells it by its error eventfd, and nothing outside the ring's own area is written."""
import struct

import disks
from front_end import Memory, Region
from program import options_of, over, same
from queues import INDIRECT, NEXT, WRITE, Silent, Split

BASE, SIZE = 0x80000000, 4 << 20
END = BASE + SIZE
FAR = 0x90000000
HEADER, ROOM, STATUS, TABLE = (BASE + at for at in (0x20000, 0x30000, 0x28000, 0x29000))
GOOD = [(HEADER, 16, 0), (ROOM, 512, WRITE), (STATUS, 1, WRITE)]


def with_room(*buffers):
    """A read whose room for data is this."""
    return [GOOD[0], *buffers, GOOD[2]]


# Buffers that no device may take; a second region is at FAR.
BUFFERS = {
    "outside": with_room((END + 0x100000, 512, WRITE)),
    "below": with_room((BASE - 512, 512, WRITE)),
    "over the end": with_room((END - 511, 512, WRITE)),
    "over the end by much": with_room((END - 512, 0xffffffff, WRITE)),
    "at 2^64": with_room(((1 << 64) - 256, 512, WRITE)),
    "wraps to memory": with_room(((1 << 64) - 512, 0xffffffff, WRITE)),
    "in the gap": with_room((FAR - 512, 512, WRITE)),
    "over the gap": with_room((END - 512, FAR - END + 1024, WRITE)),
    "behind all": with_room((FAR + 4096, 1, WRITE)),
    "a header outside": [(END, 16, 0), *GOOD[1:]],
    "a status outside": [*GOOD[:2], (END, 1, WRITE)],
    "a status at 2^64 - 1": [*GOOD[:2], ((1 << 64) - 1, 1, WRITE)],
    "a table outside": [(END, 48, INDIRECT)],
    "a table over the end": [(END - 32, 48, INDIRECT)],
    "a table of no length": [(TABLE, 0, INDIRECT)],
    "a table of 17 bytes": [(TABLE, 17, INDIRECT)],
    "a table of 4112 bytes": [(TABLE, 4112, INDIRECT)],
    "a table with a buffer outside": [(TABLE + 0x100, 48, INDIRECT)],
}
# Buffers near these that are good.
NEAR = {
    "to the end": with_room((END - 512, 512, WRITE)),
    "at the beginning": with_room((BASE + 0x10000, 512, WRITE)),
    "in the other region": with_room((FAR, 512, WRITE)),
    "to the end of all": with_room((FAR + 4096 - 512, 512, WRITE)),
    "in two": with_room((END - 256, 256, WRITE), (FAR, 256, WRITE)),
}


def two_regions():
    return Memory(Region(BASE, SIZE), Region(FAR, 4096))


def prepare(front, kind):
    """A read's header of sector 0, a table that has a table, and one whose second buffer lies outside."""
    front.memory.write(HEADER, struct.pack("=IIQ", disks.IN, 0, 0))
    is_split = kind == "split"
    nested = (INDIRECT, 0) if is_split else (0, INDIRECT)
    front.memory.write(TABLE, struct.pack("=QIHH", TABLE + 16, 16, *nested))
    rows = ((HEADER, 16, NEXT, 1) if is_split else (HEADER, 16, 0, 0), (END, 512, NEXT | WRITE, 2) if is_split else (END, 512, 0, WRITE),
            (STATUS, 1, WRITE, 0) if is_split else (STATUS, 1, 0, WRITE))
    front.memory.write(TABLE + 0x100, b"".join(struct.pack("=QIHH", *row) for row in rows))


def must_stop(program, front, offer):
    """That what is offered stops the queue, and that nothing but the ring's own area changes."""
    queue = front.queue
    offer(queue)
    before = front.memory.all()
    queue.notify()
    same(queue.has_failed(), True, "whether the error is told")
    try:
        used = queue.wait(seconds=0.05)
    except Silent:
        used = []
    same(used, [], "what is used")
    first, last = (address - BASE for address in queue.written())
    for guest, content in front.memory.all().items():
        was = bytearray(before[guest])
        if guest == BASE:
            was[first:last] = content[first:last]
        same(bytes(was) == content, True, f"whether memory at {guest:#x} is as it was")


@over(*((kind, name) for kind in ("split", "packed") for name in BUFFERS))
def test_buffers(make, kind, name):
    with make(*options_of(kind)) as program:
        whole = program.bytes(0, program.sectors)
        with program.machine(kind, memory=two_regions()) as front:
            prepare(front, kind)
            must_stop(program, front, lambda queue: queue.offer(BUFFERS[name], notify=False))
            front.stop()
        same(program.bytes(0, program.sectors) == whole, True, "whether the file is as it was")
        program.must_serve(kind)


@over(*((kind, name) for kind in ("split", "packed") for name in NEAR))
def test_near_ones_are_served(make, kind, name):
    with make(*options_of(kind)) as program, program.machine(kind, memory=two_regions()) as front:
        prepare(front, kind)
        front.queue.offer(NEAR[name])
        same([length for _, length in front.queue.wait()], [513], "the used lengths")
        found = b"".join(front.memory.read(address, length) for address, length, _ in NEAR[name][1:-1])
        same(found, program.bytes(0), "sector 0")


def link(queue, *rows):
    """Descriptors of one byte each, (index, flags, next), and the first on offer."""
    for index, flags, following in rows:
        queue.put(index, ROOM + index, 1, flags, following)
    queue.publish(rows[0][0], notify=False)


# What only a split ring can break.
SPLIT = {
    "a chain to itself": lambda queue: link(queue, (3, NEXT, 3)),
    "a circle of two": lambda queue: link(queue, (3, NEXT, 4), (4, NEXT, 3)),
    "a circle of all": lambda queue: link(queue, *((index, NEXT, (index + 1) % 256) for index in range(256))),
    "a next of 256": lambda queue: link(queue, (0, NEXT, 256)),
    "a next of 65535": lambda queue: link(queue, (0, NEXT, 65535)),
    "a head of 256": lambda queue: queue.publish(256, notify=False),
    "a head of 65535": lambda queue: queue.publish(65535, notify=False),
    "an idx of 257 more": lambda queue: queue.memory.put_word(queue.driver + 2, 257),
    "an idx of one less": lambda queue: queue.memory.put_word(queue.driver + 2, 65535),
    "a table in a table": lambda queue: queue.offer([(TABLE, 16, INDIRECT)], notify=False),
    "a table and a next": lambda queue: queue.offer([(TABLE + 0x100, 16, INDIRECT), (STATUS, 1, WRITE)], notify=False),
}


@over(*((name,) for name in SPLIT))
def test_links_of_a_split_ring(make, name):
    with make() as program:
        with program.machine(memory=two_regions()) as front:
            prepare(front, "split")
            must_stop(program, front, SPLIT[name])
        program.must_serve()


# Each list's first descriptor is written last: before that a device may look.
def all_with_next(queue):
    for position in reversed(range(queue.size)):
        queue.put(position, ROOM + position, 1, position, NEXT)


def far_list(queue):
    for position in (1, 0):
        queue.put(position, (ROOM, END)[position], 1, position, (NEXT, WRITE)[position])


@over(("a list without an end",), ("a list that ends outside",))
def test_lists_of_a_packed_ring(make, name):
    with make("--packed") as program:
        with program.machine("packed", memory=two_regions()) as front:
            must_stop(program, front, {"a list without an end": all_with_next, "a list that ends outside": far_list}[name])
        program.must_serve("packed")


def test_another_queue_goes_on(make):
    with make("--queues=2") as program, program.machine() as front:
        other = Split(front.memory, at=BASE + 0x200000)
        front.start(other, 1)
        disk = disks.Disk(other)
        SPLIT["a chain to itself"](front.queue)
        front.queue.notify()
        same(front.queue.has_failed(), True, "whether the error is told")
        same(disk.do(disks.IN, 4, wanted=512).data, program.bytes(4), "sector 4 of the other queue")
        same(disk.do(disks.OUT, 4, bytes(512)).status, disks.OK, "a write of the other queue")
