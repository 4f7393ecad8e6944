"""What is added up over a chain: its readable bytes, its writable bytes, and all of them."""
from .drivers import FAULT, KINDS, SERVED, WRITE, Buffer
from .requests import IDENTITY, OUT, SECTOR, WRITE_ZEROES
from .story import USED, Slot, Story
from .vehicles import FLUSH

TITLE = "Sums over a chain"
HOW = ("Chains whose readable or writable bytes are a power of two together: a device that loses that bit finds a header too short, no "
       "room, or fewer sectors. The largest memory is used again and again, so that a chain may have 2^32 - 1 bytes.")
FOLDERS = {"bits_sums": "Each bit of how many bytes a chain has."}

BASE, LENGTH = 0x5555555550000000, 1 << 28
SLOT = Slot(BASE, LENGTH, identity=IDENTITY)
# The front of the memory is the header of a FLUSH, its second page holds the rings.
HEADER, AREAS = BASE, [BASE + 0x1000, BASE + 0x1400, BASE + 0x1800]
LAST = BASE + LENGTH - 1
IN_OF_SECTOR_0 = bytes(16)


def stories():
    for kind in KINDS:
        yield readable(kind)
        yield writable(kind)
        yield sectors(kind)
        yield data_to_write(kind, OUT)
        yield data_to_write(kind, WRITE_ZEROES)
        yield received(kind)
        yield whole(kind)
        yield too_long(kind)


def queue_of(kind, name, about, shows, window="b"):
    story = Story(f"bits_sums/{kind}_{name}", about, [SLOT], shows=[shows])
    queue = KINDS[kind](story, window, 0, 32, areas=AREAS).bring_up()
    queue.put(HEADER, FLUSH)
    return queue


def cut(length, flags=0, at=BASE):
    """So many bytes as buffers that all begin at one address, mostly where the memory does."""
    size = BASE + LENGTH - at
    whole, rest = divmod(length, size)
    return [Buffer(at, size, flags)] * whole + ([Buffer(at, rest, flags)] if rest else [])


def served(queue, chain, status_at, length, status=b"\0"):
    """A chain whose status is written at an address, with this used len."""
    queue.put(status_at, b"\xee")
    queue.offer(chain)
    queue.notify()
    queue.look(status_at, 1, status)
    used(queue, chain, length)


def used(queue, chain, length):
    if queue.is_packed:
        queue.look_at_used(length, count=len(chain))
    else:
        queue.look_at_used(length)


def readable(kind):
    """A FLUSH with 2^k readable bytes: the first 16 are its header."""
    queue = queue_of(kind, "readable_bytes", "each bit of how many readable bytes a chain has", (f"readable bytes, {kind}", "4..31"))
    for bit in range(4, 32):
        served(queue, cut(1 << bit) + [Buffer(LAST, 1, WRITE)], LAST, 1)
    return queue.story


def writable(kind):
    """A FLUSH with 2^k writable bytes: the last is its status, behind buffers that end where it does."""
    queue = queue_of(kind, "writable_bytes", "each bit of how many writable bytes a chain has", (f"writable bytes, {kind}", "0..31"))
    for bit in range(32):
        length = 1 << bit
        size, count = min(length, LENGTH), max(1, length // LENGTH)
        buffers = [Buffer(BASE + LENGTH - size, size, WRITE)] * count
        served(queue, [Buffer(HEADER, 16), *buffers], LAST, int(length == 1))
        queue.put(HEADER, FLUSH)
    return queue.story


def sectors(kind):
    """A read of 2^k sectors, with room for them: all but those of the disk are refused, and nothing is written but the status."""
    queue = queue_of(kind, "sectors_of_a_read", "each bit of how many sectors a read has", (f"sectors of a read, {kind}", "0..22"))
    queue.put(HEADER, IN_OF_SECTOR_0)
    for bit in range(23):
        is_good = 1 << bit <= 8
        buffers = cut(SECTOR << bit, WRITE) if not is_good else [Buffer(BASE + 0x10000, SECTOR << bit, WRITE)]
        served(queue, [Buffer(HEADER, 16), *buffers, Buffer(LAST, 1, WRITE)], LAST, (SECTOR << bit) + 1 if is_good else 0,
               b"\0" if is_good else b"\1")
    return queue.story


def received(kind):
    """A receive chain with 2^k writable bytes takes a typed byte."""
    queue = queue_of(kind, "room_for_input", "each bit of how many writable bytes a receive chain has", (f"room for input, {kind}", "0..31"), "c")
    for bit in range(32):
        chain = cut(1 << bit, WRITE)
        queue.offer(chain)
        queue.story.type(bytes([bit + 1]), 1, told=USED)
        queue.place = queue.offered
        used(queue, chain, 1)
        queue.look(BASE, 1, bytes([bit + 1]))
    return queue.story


def data_to_write(kind, what):
    """Data of 2^k bytes, and of 16 or 512 more, all zeros: far more than the disk has, or than 32 segments are."""
    name, unit = {OUT: ("write", SECTOR), WRITE_ZEROES: ("write_zeroes", 16)}[what]
    queue = queue_of(kind, f"data_of_a_{name}", f"each bit of how many bytes of data a {name} has", (f"data of a {name}, {kind}", "9..31"))
    queue.put(HEADER, what.to_bytes(4, "little") + bytes(12))
    for bit in range(13, 32):
        for length in (1 << bit, unit | 1 << bit):
            served(queue, [Buffer(HEADER, 16), *cut(length, at=BASE + 0x2000), Buffer(LAST, 1, WRITE)], LAST, 1, b"\1")
            # Nothing of the data is the status of the one before.
            queue.put(LAST, b"\0")
    return queue.story


def whole(kind):
    """2^32 - 1 bytes of buffers that each have all the bits below 28; then one more byte, in the last buffer or behind it."""
    queue = queue_of(kind, "all_bytes", "a chain of 2^32 - 1 bytes is served, and one of a byte more isn't", (f"bytes of a chain, {kind}", "0..31"))
    size = LENGTH - 1
    front = [Buffer(HEADER, 16)] + [Buffer(BASE, size, WRITE)] * 15 + [Buffer(BASE, (1 << 32) - 1 - 16 - 15 * size - 1, WRITE)]
    for ends in ([Buffer(LAST, 1, WRITE)], [Buffer(LAST - 1, 2, WRITE)], [Buffer(LAST, 1, WRITE)] * 2):
        refused(queue, front + ends, len(ends) == 1 and ends[0].length == 1)
    return queue.story


def refused(queue, chain, is_good):
    """A chain that is served, or is a fault."""
    queue.put(HEADER, FLUSH)
    queue.put(LAST, b"\xee")
    queue.offer(chain)
    if is_good:
        queue.notify()
    else:
        queue.notify(FAULT)
        queue.bring_up_again()
    queue.look(LAST, 1, b"\0" if is_good else b"\xee")


def too_long(kind):
    """16 buffers of the whole memory are 2^32 bytes; the same with one byte less are served."""
    queue = queue_of(kind, "sixteen_whole_memories", "sixteen buffers of 2^28 bytes are too long, and a byte less isn't", (f"bytes of a chain, {kind}", "28"))
    for more in (0, 1):
        chain = [Buffer(HEADER, LENGTH - 1 + more)] + [Buffer(BASE, LENGTH, WRITE)] * 15
        refused(queue, chain, not more)
    return queue.story
