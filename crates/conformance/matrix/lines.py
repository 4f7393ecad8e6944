"""Each bit of the numbers in event lines and slot lines: addresses, lengths, slot numbers, sizes, memories, extents, identities."""
import dataclasses

from .drivers import NOTIFY, WRITE, Buffer, Packed, Split, number
from .requests import FLUSH, GET_ID, IN, IOERR, OK, OUT, Disk, header
from .story import BADRANGE, BADSLOT, BASE, CHANGED, LENGTH, SECTOR, Slot, Story, plain_image

TITLE = "Lines of a trace"
HOW = ("An event or a slot line has a number that differs in one bit from a right one: another byte, another slot, another size, or "
       "a refusal.")
FOLDERS = {"bits_memory": "Each bit of the address and the length of a memory event.",
           "bits_slots": "Each bit of a slot's number, and of what a slot line says of sizes and identities.",
           "bits_memories": "Each bit of the base and the length of a guest's memory.",
           "bits_extents": "Each bit of the start and the count of an extent.",
           "bits_caches": "Each bit of the cache's capacity."}
UNSEEN = [("cache's capacity", "3..16, that it keeps no more", "It shows on an image of more sectors alone, as `cache/*` do for few."),
          ("pending input's length", "13 and above", "4096 bytes are all that wait: `input/4097_bytes_at_once`.")]

BASES = (0x5555555555550000, 0xaaaaaaaaaaaa0000)
EIGHT_SECTORS = 8


def stories():
    yield from (addresses(base) for base in BASES)
    yield lengths_read()
    yield lengths_outside()
    yield lengths_written()
    yield slot_numbers_of_one()
    yield slot_numbers_of_64()
    yield resizes()
    yield columns_and_rows()
    yield identities()
    yield typed_lengths()
    yield bases()
    yield from (bad_base(bit) for bit in range(12))
    yield bases_near_the_top()
    yield from (past_the_top(bit) for bit in range(12, 29))
    for bits in ((12, 13, 14, 15, 16, 17, 18, 19, 20, 21, 22), (23, 24), (25,), (26,), (27,), (28,)):
        yield memory_lengths(bits)
    yield from (bad_length(bit) for bit in (*range(12), *range(29, 64)))
    yield starts()
    yield counts()
    for bit in range(3, 64):
        yield start_outside(bit)
        yield count_outside(bit)
    yield neighbours()
    for bit in range(3):
        for is_later in (False, True):
            yield overlap(bit, is_later)
    yield from (bad_capacity(bit) for bit in range(17, 32))
    yield from (kept(bit) for bit in range(17))


# --- memory events

def addresses(base):
    """Each address that differs in one bit, to write and to read."""
    name = "5" if base == BASES[0] else "a"
    story = Story(f"bits_memory/addresses_from_{name * 4}_on", "each bit of the address of a memory event decides", [Slot(base)],
                  shows=[("memory event's address", "0..63")])
    right = base + (0x5a5a if base == BASES[0] else 0xa5a5)
    turned = [right ^ 1 << bit for bit in range(64)]
    there = {address: bytes([1 + bit]) for bit, address in enumerate(turned) if base <= address < base + LENGTH}
    for bit, address in enumerate(turned):
        story.put(address, bytes([1 + bit]), "done" if address in there else BADRANGE)
    story.put(right, b"\xee")
    for address in turned:
        story.look(address, 1, there.get(address, BADRANGE))
    story.look(right, 1, b"\xee")
    story.look(base + 0x5a00, 0x100)
    return story


def lengths_read():
    """Each bit of a length below 4096, with all of them set and with none."""
    story = Story("bits_memory/lengths_that_are_read", "each bit of the length of a memory read decides how many bytes are told",
                  shows=[("memory read's length", "0..12")])
    content = bytes(at * 7 % 251 for at in range(0x2000))
    story.put(BASE, content)
    for length in [1 << bit for bit in range(13)] + [0x555 ^ 1 << bit for bit in range(11)]:
        story.look(BASE, length, content[:length])
    return story


def lengths_outside():
    story = Story("bits_memory/lengths_past_the_end", "each bit of the length of a memory read is a range past the end", [Slot(length=0x1000)],
                  shows=[("memory read's length", "1..31")])
    last = BASE + 0xfff
    for bit in range(1, 32):
        for length in (1 << bit, 1 | 1 << bit):
            story.look(last, length, BADRANGE)
    for length, at in ((1, last), (0, last + 1), (0, last)):
        story.look(at, length, bytes(length))
    return story


def lengths_written():
    """The bytes of a write are as many as stand there."""
    story = Story("bits_memory/lengths_that_are_written", "as many bytes are written as stand in the line", [Slot(length=0x2000)],
                  shows=[("memory write's bytes", "0..12")])
    end = BASE + 0x2000
    for bit in range(13):
        length = 1 << bit
        story.put(end - length, bytes([1 + bit]) * length)
        story.look(end - length, 1, bytes([1 + bit]))
        story.look(end - 1, 1, bytes([1 + bit]))
        story.put(end - length + 1, bytes([0x80]) * length, BADRANGE)
        story.look(end - 1, 1, bytes([1 + bit]))
    return story


# --- slots

def slot_numbers_of_one():
    """Slot 0 alone: no other number is a slot."""
    story = Story("bits_slots/numbers_of_one_slot", "each bit of a slot's number counts, beside slot 0", shows=[("slot's number", "0..7")])
    for slot in [1 << bit for bit in range(8)] + [0xff]:
        each_event(story, slot)
    story.look(BASE, 4, bytes(4))
    story.read("c", 0x100, 0x190050)
    story.read("b", 0x070, 0)
    return story


def each_event(story, slot):
    """One event of each kind, for a slot that isn't there."""
    story.read("b", 0, slot=slot)
    story.write("b", 0x070, 1, slot=slot)
    story.look(BASE, 4, slot=slot)
    story.put(BASE, b"\xff", slot=slot)
    story.type(b"a", slot=slot)
    story.resize(1, 2, slot=slot)


def slot_numbers_of_64():
    """64 slots, each with a byte and a size of its own."""
    slots = [Slot(BASE, 0x1000, 0, 0, "rw", slot, 0x40 + slot, bytes([slot]) * 20) for slot in range(64)]
    story = Story("bits_slots/numbers_of_64_slots", "each bit of a slot's number counts, among 64 slots", slots, shows=[("slot's number", "0..7")])
    for slot in range(64):
        story.put(BASE, bytes([0x80 + slot]), slot=slot)
    for slot in range(64):
        story.look(BASE, 1, bytes([0x80 + slot]), slot=slot)
        story.read("c", 0x100, slot | 0x40 + slot << 16, slot=slot)
    for slot in (64, 65, 128, 129, 0xc0, 0xff, 0x7f, 0xbf):
        each_event(story, slot)
    return story


def resizes():
    story = Story("bits_slots/sizes_of_resizes", "each bit of the columns and of the rows of a resize is shown",
                  shows=[("resize's columns", "0..15"), ("resize's rows", "0..15")])
    for bit in range(16):
        for columns, rows in ((1 << bit, 0xffff ^ 1 << bit), (0xffff ^ 1 << bit, 1 << bit)):
            story.resize(columns, rows)
            story.read("c", 0x100, rows << 16 | columns)
            story.read("c", 0x102, rows, width=2)
            story.read("c", 0x101, columns >> 8, width=1)
    return story


def columns_and_rows():
    slots = [Slot(columns=1 << bit, rows=0xffff ^ 1 << bit, count=0) for bit in range(16)]
    story = Story("bits_slots/sizes_of_slots", "each bit of the columns and of the rows of a slot is shown", slots,
                  shows=[("slot's columns", "0..15"), ("slot's rows", "0..15")])
    for slot, one in enumerate(slots):
        story.read("c", 0x100, one.rows << 16 | one.columns, slot=slot)
    return story


def identities():
    """Eight slots: in each byte of each identity stands another bit."""
    names = [bytes(1 << (slot + at) % 8 for at in range(20)) for slot in range(8)] + [bytes(range(0xe0, 0xf4))]
    slots = [Slot(BASE, 0x10000, 0, 0, "rw", 0x50, 0x19, name) for name in names]
    story = Story("bits_slots/identities", "each bit of each byte of a slot's identity is told", slots, shows=[("slot's identity", "0..159")])
    for slot, name in enumerate(names):
        queue = Split(story, "b", slot=slot).bring_up()
        queue.put(BASE + 0x4000, header(GET_ID))
        queue.offer([Buffer(BASE + 0x4000, 16), Buffer(BASE + 0x5000, 20, WRITE), Buffer(BASE + 0x6000, 1, WRITE)])
        queue.notify()
        queue.look(BASE + 0x5000, 20, name)
    return story


def typed_lengths():
    """As many bytes as are typed, up to what fits."""
    story = Story("bits_slots/lengths_of_input", "each bit of how many bytes are typed counts, up to 4096 that wait",
                  [Slot(columns=slot, count=0) for slot in range(14)], shows=[("pending input's length", "0..12")])
    for slot in range(14):
        story.type(bytes([slot]) * (1 << slot), min(1 << slot, 4096), slot=slot)
        story.type(b"\xff" * 4097, max(0, 4096 - (1 << slot)), slot=slot)
        story.type(b"\xff", 0, slot=slot)
    return story


# --- memories

def bases():
    """52 slots, each at a power of two."""
    slots = [Slot(1 << bit, 0x1000, 0, 0, "rw", 0, 0, bytes(20)) for bit in range(12, 64)]
    story = Story("bits_memories/bases", "each bit of a memory's base from 12 on decides where it is", slots, shows=[("slot's base", "12..63")])
    for slot, one in enumerate(slots):
        story.put(one.base, b"\xaa\xbb", slot=slot)
        story.look(one.base, 2, b"\xaa\xbb", slot=slot)
        story.look(0, 1, BADRANGE, slot=slot)
        story.look(one.base - 1, 1, BADRANGE, slot=slot)
        story.look(one.base + 0xfff, 1, bytes(1), slot=slot)
        story.look(one.base + 0x1000, 1, BADRANGE, slot=slot)
    return story


def refused(folder, name, about, fault, field, bits, slot=Slot(), cache=8):
    return Story(f"{folder}/{name}", about, [slot], cache=cache, fault=f"board {fault}", shows=[(field, bits)])


def bad_base(bit):
    return refused("bits_memories", f"a_base_with_bit_{bit}", f"a base with bit {bit} set is no page", "BadBase", "slot's base", "0..11", Slot(BASE | 1 << bit))


def bases_near_the_top():
    """Two pages, of which the second ends a page behind 2^64 - 2^k: one bit more would lead past 2^64."""
    slots = [Slot((1 << 64) - (1 << bit) - 0x1000, 0x2000, 0, 0, "rw", 0, 0, bytes(20)) for bit in range(12, 64)]
    story = Story("bits_memories/bases_near_the_top", "memories that end below 2^64 and whose base lacks one bit", slots, shows=[("slot's base", "12..63")])
    for slot, one in enumerate(slots):
        story.put(one.base + 0x1fff, b"\xaa", slot=slot)
        story.look(one.base + 0x1fff, 1, b"\xaa", slot=slot)
        story.look(one.base - 1, 1, BADRANGE, slot=slot)
    return story


def past_the_top(bit):
    """A page too far up for its length."""
    length = 1 << bit
    base = (1 << 64) - length + 0x1000
    if bit == 12:
        length, base = 0x3000, (1 << 64) - 0x2000
    return refused("bits_memories", f"a_length_of_2_to_{bit}_past_the_top", f"a memory of {length:#x} bytes that would end a page behind 2^64 is refused",
                   "BadBase", "slot's length", "12..28, past 2^64", Slot(base, length))


def memory_lengths(bits):
    """Memories of powers of two, each with its first and its last byte."""
    slots = [Slot(1 << 28, 1 << bit, 0, 0, "rw", 0, 0, bytes(20)) for bit in bits]
    name = f"{bits[0]}_to_{bits[-1]}" if len(bits) > 1 else str(bits[0])
    story = Story(f"bits_memories/lengths_of_2_to_{name}", "a memory has as many bytes as its slot says, and no more", slots,
                  shows=[("slot's length", "12..28")])
    for slot, one in enumerate(slots):
        last = one.base + one.length - 1
        story.put(last, b"\xaa", slot=slot)
        story.put(one.base, b"\xbb", slot=slot)
        story.look(last, 1, b"\xaa", slot=slot)
        story.look(last + 1, 1, BADRANGE, slot=slot)
        story.look(last, 2, BADRANGE, slot=slot)
        for bit in range(one.length.bit_length() - 1):
            story.put(one.base + (1 << bit), bytes([bit]), slot=slot)
        for bit in range(one.length.bit_length() - 1):
            story.look(one.base + (1 << bit), 1, bytes([bit]), slot=slot)
        story.look(one.base, 1, b"\xbb", slot=slot)
    return story


def bad_length(bit):
    return refused("bits_memories", f"a_length_with_bit_{bit}", f"a length with bit {bit} set too is refused", "BadSize", "slot's length",
                   "0..11 and 29..63", Slot(length=0x10000 | 1 << bit))


# --- extents

def starts():
    """Extents of one sector each, at powers of two and beside them."""
    firsts = (0, 1, 2, 4, 3, 5, 6, 7)
    slots = [Slot(start=first, count=1) for first in firsts]
    story = Story("bits_extents/starts", "each bit of an extent's start decides which sector is read", slots, shows=[("extent's start", "0..2")])
    for slot, first in enumerate(firsts):
        read_first(story, slot, bytes([0x10 + first]))
    return story


def read_first(story, slot, byte):
    """Sector 0 of a slot's disk begins with this byte; the sector behind its extent isn't there."""
    queue = Split(story, "b", slot=slot).bring_up()
    queue.put(BASE + 0x4000, header(IN))
    queue.offer([Buffer(BASE + 0x4000, 16), Buffer(BASE + 0x5000, SECTOR, WRITE), Buffer(BASE + 0x6000, 1, WRITE)])
    queue.notify()
    queue.look(BASE + 0x5000, 1, byte)
    queue.look(BASE + 0x6000, 1, b"\0")
    story.put(BASE + 0x4000, header(IN, story.slots[slot].count), slot=slot)
    queue.offer_head(0)
    queue.notify()
    queue.look(BASE + 0x6000, 1, b"\1")


def counts():
    slots = [Slot(start=0, count=1), Slot(start=1, count=2), Slot(start=3, count=4), Slot(start=8, count=0)]
    story = Story("bits_extents/counts", "each bit of an extent's count decides which sector is its last", slots, shows=[("extent's count", "0..3")])
    for slot, one in enumerate(slots):
        story.read("b", 0x100, one.count, slot=slot)
        story.read("b", 0x104, 0, slot=slot)
        if one.count:
            read_first(story, slot, bytes([0x10 + one.start]))
    return story


def start_outside(bit):
    return refused("bits_extents", f"a_start_with_bit_{bit}", f"an extent whose start has bit {bit} set too is outside", "ExtentOutside",
                   "extent's start", "3..63", Slot(start=1 | 1 << bit, count=1))


def count_outside(bit):
    return refused("bits_extents", f"a_count_with_bit_{bit}", f"an extent whose count has bit {bit} set too is outside", "ExtentOutside",
                   "extent's count", "3..63", Slot(start=0, count=1 | 1 << bit))


def neighbours():
    """Extents that touch one another."""
    slots = [Slot(start=start, count=count) for start, count in ((3, 2), (1, 2), (0, 1), (5, 3), (8, 0))]
    story = Story("bits_extents/neighbours", "extents of one, two and three sectors stand side by side", slots, shows=[("extent's start and count, compared", "0..2")])
    for slot, one in enumerate(slots):
        story.read("b", 0x100, one.count, slot=slot)
    for slot, one in enumerate(slots[:4]):
        read_first(story, slot, bytes([0x10 + one.start]))
    return story


def overlap(bit, is_later):
    """An extent of 2^k sectors, and one whose first sector is its last."""
    count = 1 << bit
    slots = [Slot(start=0, count=count), Slot(start=count - 1, count=9 - count)]
    where = "behind" if is_later else "before"
    return Story(f"bits_extents/{count}_sectors_{where}_the_extent_that_has_their_last", f"an extent of {count} sectors, {where} one that has its last sector",
                 slots[::-1] if is_later else slots, fault="board ExtentsOverlap", shows=[("extent's start and count, compared", "0..2")])


# --- caches

def bad_capacity(bit):
    return refused("bits_caches", f"a_capacity_with_bit_{bit}", f"a capacity with bit {bit} set too is refused", "BadCapacity", "cache's capacity",
                   "17..31", cache=1 | 1 << bit)


def kept(bit):
    """A power of two: so many sectors are kept, eight at most here, and the next one displaces the first."""
    capacity = 1 << bit
    most = min(capacity, 2 if capacity >= EIGHT_SECTORS else capacity)
    goes_over = capacity < EIGHT_SECTORS
    story = Story(f"bits_caches/a_capacity_of_2_to_{bit}", f"a capacity of {capacity} keeps {most} sectors" + (" and no more" if goes_over else ""),
                  cache=capacity, fails=[most + 1], shows=[("cache's capacity", "0..16")])
    disk = Disk(story)
    for sector in list(range(most)) * 2:
        disk.request(header(IN, sector), SECTOR, OK, SECTOR + 1)
    if goes_over:
        disk.request(header(IN, most), SECTOR, OK, SECTOR + 1)
        disk.request(header(IN, 0), SECTOR, IOERR)
        disk.request(header(IN, 0), SECTOR, OK, SECTOR + 1)
    else:
        disk.request(header(FLUSH), SECTOR, OK)
        disk.request(header(FLUSH), SECTOR, IOERR)
    return story
