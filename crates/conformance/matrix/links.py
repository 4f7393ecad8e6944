"""Each bit of the numbers that name a descriptor or a buffer: head, next, and the id of a packed one."""
from .drivers import FAULT, INDIRECT, INDIRECT_DESC, NEXT, SERVED, WRITE, Buffer, Packed, Split
from .story import BASE, CHANGED, USED, Slot, Story
from .vehicles import FLUSH

TITLE = "Heads, next and ids"
HOW = ("In a ring or a table of 256 the low eight bits of a head and of next tell which descriptor is served, and the high eight are "
       "the fault Index; in a ring of 4 all but two bits are, in a ring of 2 all but one. A good descriptor lies where such an index would lead. The used entry "
       "tells the head, and the id of a packed buffer.")
FOLDERS = {"bits_links": "Each bit of heads, of next, and of ids."}

# Where a byte for each descriptor lies, and what stands before such a byte in a chain. The descriptors of a ring and of a table lie
# behind all that, so that 65536 of them have room.
ROOM, FRONT, RING, TABLE = BASE + 0x8000, BASE + 0x4000, BASE + 0x10000, BASE + 0x10000
AREAS = [RING, BASE + 0x2000, BASE + 0x3000]
MEMORY = Slot(length=0x111000)
RIGHT, NOT_YET = 0x5a, 0xee


class Text:
    """The output tells which byte was in the chain."""

    NAME, WINDOW, INDEX, FLAGS, FRONT = "transmit", "c", 1, 0, Buffer(FRONT, 1)

    def __init__(self, queue):
        self.queue = queue
        queue.put(FRONT, bytes([NOT_YET]))
        queue.put(ROOM, bytes(range(256)))

    def serve(self, which, has_front):
        """A service in which byte `which` is in the chain, and a front where it has one; the used len."""
        self.queue.notify(SERVED, bytes([NOT_YET] * has_front + [which]))
        return 0

    def refuse(self):
        self.queue.notify(FAULT)

    def recover(self):
        """What must be done once the window is up again."""


class Typed:
    """A typed byte comes to the byte that was in the chain."""

    NAME, WINDOW, INDEX, FLAGS, FRONT = "receive", "c", 0, WRITE, Buffer(FRONT, 0, WRITE)

    def __init__(self, queue):
        self.queue = queue

    def serve(self, which, has_front):
        self.queue.story.type(b"\x5a", 1, told=USED)
        self.queue.after(SERVED)
        self.queue.look(ROOM + which, 1, b"\x5a")
        self.queue.put(ROOM + which, bytes(1))
        return 1

    def refuse(self):
        self.queue.story.type(b"\xa5", 1, told=CHANGED)
        self.queue.after(FAULT)

    def recover(self):
        """What was typed waits: a good chain takes it."""
        self.queue.offer_head(0)
        self.queue.notify()


class Request:
    """A status comes to the byte that was in the chain: of a FLUSH behind its header, or of a request that has none."""

    NAME, WINDOW, INDEX, FLAGS, FRONT = "disk", "b", 0, WRITE, Buffer(FRONT, 16)

    def __init__(self, queue):
        self.queue = queue
        queue.put(FRONT, FLUSH)

    def serve(self, which, has_front):
        self.queue.put(ROOM + which, bytes([NOT_YET]))
        self.queue.notify()
        self.queue.look(ROOM + which, 1, b"\0" if has_front else b"\1")
        return 1

    def refuse(self):
        self.queue.notify(FAULT)

    def recover(self):
        pass


VEHICLES = (Request, Text, Typed)


def stories():
    for vehicle in VEHICLES:
        for size in (256, 4, 2):
            yield heads(size, vehicle)
            yield nexts(size, vehicle)
        yield nexts_of_a_table(vehicle)
    for vehicle in VEHICLES:
        yield ids(vehicle)
        yield ids_of_tables(vehicle)


def values(right):
    """What is right, and what differs from it in one bit of 16."""
    return [right] + [right ^ 1 << bit for bit in range(16)] + [right]


def bytes_of(vehicle, count):
    """A descriptor for each byte of the room."""
    return [Buffer(ROOM + which, 1, vehicle.FLAGS, 0) for which in range(count)]


def up(story, vehicle, kind=Split, size=256, low=0, areas=AREAS):
    queue = kind(story, vehicle.WINDOW, vehicle.INDEX, size, low, areas=list(areas)).bring_up()
    return queue, vehicle(queue)


def put_behind(queue, vehicle, at, indices):
    """Good descriptors where indices past the end of a ring or a table would lead."""
    for index in indices:
        queue.put(at + 16 * index, queue.entry(Buffer(ROOM + index % 256, 1, vehicle.FLAGS, 0), 0))


def again(queue, at):
    queue.bring_up_again()
    at.recover()


def heads(size, vehicle):
    """Each head is a descriptor of its own byte."""
    story = Story(f"bits_links/heads_in_a_ring_of_{size}_of_{vehicle.NAME}", f"each bit of a head in a ring of {size} decides",
                  [MEMORY], shows=[("entry of the available ring", "0..15")])
    queue, at = up(story, vehicle, size=size)
    queue.put_chain(bytes_of(vehicle, size))
    put_behind(queue, vehicle, RING, [head for head in values(RIGHT % size) if head >= size])
    for head in values(RIGHT % size):
        queue.offer_head(head)
        if head < size:
            length = at.serve(head, False)
            queue.look_at_used(length, head)
        else:
            at.refuse()
            again(queue, at)
    return story


def nexts(size, vehicle):
    """Behind a front comes a descriptor of its own byte."""
    story = Story(f"bits_links/next_in_a_ring_of_{size}_of_{vehicle.NAME}", f"each bit of next in a ring of {size} decides",
                  [MEMORY], shows=[("descriptor's next, split ring", "0..15")])
    queue, at = up(story, vehicle, size=size)
    queue.put_chain(bytes_of(vehicle, size))
    put_behind(queue, vehicle, RING, [index for index in values(RIGHT % size) if index >= size])
    # An index that no value names.
    front, first = vehicle.FRONT, {256: 255, 4: 1, 2: 1}[size]
    for following in values(RIGHT % size):
        if following == first:
            continue
        queue.put(queue.areas[0] + 16 * first, queue.entry(Buffer(front.address, front.length, front.flags | NEXT, following), 0))
        queue.offer_head(first)
        if following < size:
            length = at.serve(following, True)
            queue.look_at_used(length, first)
        else:
            at.refuse()
            again(queue, at)
    return story


def nexts_of_a_table(vehicle):
    """A table of 256 entries, of which the first is the front."""
    story = Story(f"bits_links/next_in_a_table_of_{vehicle.NAME}", "each bit of next in a table of 256 entries decides",
                  [MEMORY], shows=[("descriptor's next, split table", "0..15")])
    queue, at = up(story, vehicle, size=4, low=INDIRECT_DESC, areas=[BASE + 0x1000, *AREAS[1:]])
    front = vehicle.FRONT
    put_behind(queue, vehicle, TABLE, [index for index in values(RIGHT) if index >= 256])
    queue.put(TABLE, b"".join(queue.entry(one, 0) for one in bytes_of(vehicle, 256)))
    queue.put_chain([Buffer(ROOM + 255, 1, vehicle.FLAGS, 0), Buffer(TABLE, 4096, INDIRECT, 0)])
    for following in values(RIGHT):
        queue.put(TABLE, queue.entry(Buffer(front.address, front.length, front.flags | NEXT, following), 0))
        queue.offer_head(1)
        if following < 256:
            length = at.serve(following, True)
            queue.look_at_used(length, 1)
        else:
            at.refuse()
            again(queue, at)
    return story


def id_values():
    return [0] + [1 << bit for bit in range(16)] + [0xffff ^ 1 << bit for bit in range(16)] + [0xffff]


def ids(vehicle):
    """Lists of two with an id of its own in each; the last one's is told."""
    story = Story(f"bits_links/ids_of_{vehicle.NAME}", "each bit of the id of a packed list's last descriptor is told, and none of the first one's",
                  [MEMORY], shows=[("descriptor's id, packed ring", "0..15")])
    queue, at = up(story, vehicle, Packed, 3)
    front = vehicle.FRONT
    for name in id_values():
        queue.offer([Buffer(front.address, front.length, front.flags, name ^ 0xffff), Buffer(ROOM + 1, 1, vehicle.FLAGS, name)])
        length = at.serve(1, True)
        queue.look_at_used(length, name, wrote=vehicle.FLAGS == WRITE, count=2)
    return story


def ids_of_tables(vehicle):
    """A table's entries have ids too, which say nothing."""
    story = Story(f"bits_links/ids_with_a_table_of_{vehicle.NAME}", "each bit of the id beside INDIRECT is told, and none of those in the table",
                  [MEMORY], shows=[("descriptor's id, packed table", "0..15")])
    queue, at = up(story, vehicle, Packed, 3, INDIRECT_DESC, [BASE + 0x1000, *AREAS[1:]])
    front = vehicle.FRONT
    for name in id_values():
        table = queue.table(TABLE, [Buffer(front.address, front.length, front.flags, name ^ 0xffff),
                                    Buffer(ROOM + 1, 1, vehicle.FLAGS, name ^ 0x5555)])
        queue.offer([Buffer(table.address, table.length, INDIRECT, name)])
        length = at.serve(1, True)
        queue.look_at_used(length, name, wrote=vehicle.FLAGS == WRITE)
    return story
