"""The middle bits of addresses and lengths: in the largest memory they lead to other places, and not outside."""
from .drivers import AREAS, INDIRECT_DESC, KINDS, QUEUE_READY, WRITE, Buffer
from .registers import ALL, at_the_place
from .story import Slot, Story
from .vehicles import FLUSH

TITLE = "The largest memory"
HOW = "In a memory of 2^28 bytes each bit below 28 of an address and of a length names another byte of it."
FOLDERS = {"bits_large": "Addresses and lengths in a memory of 2^28 bytes."}

BASE, LENGTH = 0x5555555550000000, 1 << 28
SLOT = Slot(BASE, LENGTH, identity=bytes(20))
HEADER, STATUS, TABLE = BASE + 0x234, BASE + 0x345, BASE + 0x456
# Areas far from one another, and from all that lies at a power of two.
PLACES = [BASE + 0xa550000, BASE + 0x5aa3000, BASE + 0x3cc6000]
BITS = range(12, 28)


def stories():
    for kind in KINDS:
        yield buffers(kind)
        yield tables(kind)
        yield areas(kind)


def story_of(name, about, *shows):
    return Story(f"bits_large/{name}", about, [SLOT], shows=shows)


def flush(queue, header, status, length, table=None):
    """A FLUSH with its header, and a buffer of so many bytes for the status, at these addresses; or in a table at another."""
    last = status + length - 1
    queue.put(header, FLUSH)
    queue.put(last, b"\xee")
    chain = [Buffer(header, 16), Buffer(status, length, WRITE)]
    queue.offer([queue.table(table, chain)] if table else chain)
    queue.notify()
    queue.look(last, 1, b"\0")
    queue.put(header, bytes(16))


def buffers(kind):
    story = story_of(f"{kind}_buffers", f"buffers of a {kind} ring at each power of two, and as long as each",
                     (f"descriptor's address, {kind} ring", "12..27, inside"), (f"descriptor's length, {kind} ring", "12..27, inside"))
    queue = KINDS[kind](story, areas=PLACES).bring_up()
    for bit in BITS:
        flush(queue, BASE + (1 << bit) + 0x111, STATUS, 1)
        flush(queue, HEADER, BASE + (1 << bit) + 0x222, 1)
        flush(queue, HEADER, BASE + 0x1000, 1 << bit)
    return story


def tables(kind):
    story = story_of(f"{kind}_tables", f"tables of a {kind} ring, and buffers in a table, at each power of two, and as long as each",
                     (f"descriptor's address, {kind} table", "12..27, inside"), (f"descriptor's length, {kind} table", "12..27, inside"))
    queue = KINDS[kind](story, low=INDIRECT_DESC, areas=PLACES).bring_up()
    for bit in BITS:
        flush(queue, HEADER, STATUS, 1, BASE + (1 << bit) + 0x333)
        flush(queue, BASE + (1 << bit) + 0x111, STATUS, 1, TABLE)
        flush(queue, HEADER, BASE + (1 << bit) + 0x222, 1, TABLE)
        flush(queue, HEADER, BASE + 0x1000, 1 << bit, TABLE)
    return story


def areas(kind):
    story = story_of(f"{kind}_areas", f"the areas of a {kind} queue at places that differ in one bit",
                     *((f"address of the {name} area, {kind}", "16..27, inside") for name in ("desc", "driver", "device")))
    queue = KINDS[kind](story, areas=list(PLACES)).bring_up()
    for which, right in enumerate(PLACES):
        for address in [right ^ 1 << bit for bit in range(16, 28)] + [right]:
            story.write("b", QUEUE_READY, 0)
            story.write("b", AREAS[which], address & ALL)
            story.write("b", QUEUE_READY, 1)
            queue.areas[which] = address
            at_the_place(queue, STATUS, 1)
    return story
