"""The ends of addresses: 0, the last byte below 2^64, and both ends of memories that begin or end there, for each kind of range."""
from .drivers import AREAS, INDIRECT, KINDS, QUEUE_READY, Buffer, joined
from .registers import ALL, at_the_place
from .story import BADRANGE, LENGTH, Slot, Story
from .vehicles import VEHICLES, up

TITLE = "Ends"
HOW = ("A memory that begins at 0, one that ends at 2^64, and one that does neither. In each a range lies at both ends, one byte (or as "
       "its alignment asks) before and behind them, where one bit more or less of its address would lead over the end, at 0, and at the "
       "end of all addresses.")
FOLDERS = {"ends_memory": "Memory events at the ends of memories and of addresses.",
           "ends_buffers": "Buffers there, in rings and in tables.",
           "ends_tables": "Indirect tables there.",
           "ends_areas": "The areas of queues there.",
           "ends_boards": "Memories that begin at 0, and that end at 2^64 or would end behind it."}

TOP = 1 << 64

# Where the byte of a chain lies, clear of what is tried.
BYTE = 0x8800
# The bases by their names.
BASES = {"0": 0, "2_to_64_less_its_length": TOP - LENGTH, "80000000": 0x80000000}


def stories():
    for name, base in BASES.items():
        yield events(name, base)
    for name, base in BASES.items():
        for kind in KINDS:
            for in_table in (False, True):
                for vehicle in VEHICLES:
                    yield buffers(name, base, kind, in_table, vehicle)
            for vehicle in VEHICLES:
                yield tables(name, base, kind, vehicle)
            for which, area in enumerate(("desc", "driver", "device")):
                yield areas(name, base, kind, which, area)
    yield driver_of_one()
    yield from boards()


def inside(base, address, count, length=LENGTH):
    return base <= address and address + count <= base + length


def places(base, count, step=1):
    """Where a range of so many bytes is tried: at the ends of the memory, and at those of all addresses."""
    end = base + LENGTH
    last = end - count - (end - count) % step
    found = [base, base - step, last, last + step, end - step, end, 0, step, TOP - step, TOP - count - (TOP - count) % step]
    return list(dict.fromkeys(address % TOP for address in found + (near(base, count, step) if count > 2 else [])))


def near(base, count, step):
    """Where one bit more would lead past the end, and where one bit less would lead back inside."""
    end, steps = base + LENGTH, range(step.bit_length() - 1, LENGTH.bit_length() - 1)
    inside_by_a_bit = [end - (1 << bit) - count + step for bit in steps if (1 << bit) >= count]
    outside_by_a_bit = [end - count + (1 << bit) for bit in steps if (1 << bit) < count]
    return [address - address % step for address in inside_by_a_bit + outside_by_a_bit]


def events(name, base):
    story = Story(f"ends_memory/from_{name}_on", f"memory events at the ends of a memory from {said(name)} on, and at those of all addresses",
                  [Slot(base)], shows=[("memory event", "ends")])
    first, last = base, base + LENGTH - 1
    story.put(first, b"\x01\x02")
    story.put(last - 1, b"\x03\x04")
    for count in (0, 1, 2, 16):
        for address in places(base, count):
            is_inside = inside(base, address, count)
            story.look(address, count, content(base, address, count) if is_inside else BADRANGE)
            if count == 1 or not is_inside:
                story.put(address, b"\x05" * count, "done" if is_inside else BADRANGE)
                if is_inside:
                    story.put(address, content(base, address, count))
    story.look(first, 2, b"\x01\x02")
    story.look(last - 1, 2, b"\x03\x04")
    return story


def content(base, address, count):
    """What lies at both ends of the memory."""
    there = {base: 1, base + 1: 2, base + LENGTH - 2: 3, base + LENGTH - 1: 4}
    return bytes(there.get(at, 0) for at in range(address, address + count))


def said(name):
    return name.replace("2_to_64", "2^64").replace("_", " ")


def buffers(name, base, kind, in_table, vehicle):
    place = f"{kind}_{'table' if in_table else 'ring'}"
    story = Story(f"ends_buffers/{place}_of_{vehicle}_from_{name}_on",
                  f"buffers in a {place.replace('_', ' ')} at the ends of a memory from {said(name)} on, and at those of all addresses",
                  [Slot(base)], shows=[(f"buffer, {place.replace('_', ' ')}", "ends")])
    at = up(story, VEHICLES[vehicle], KINDS[kind], base, in_table)
    for count in (0, 1, 16):
        for address in places(base, count):
            if not inside(base, address, count):
                at.offer(address, count)
                at.refused()
            elif count:
                at.shows(address, count, 0x40 + count)
            else:
                at.shows_empty(address)
    return story


def tables(name, base, kind, vehicle):
    story = Story(f"ends_tables/{kind}_of_{vehicle}_from_{name}_on",
                  f"{kind} tables at the ends of a memory from {said(name)} on, and at those of all addresses", [Slot(base)],
                  shows=[(f"table, {kind}", "ends")])
    at = up(story, VEHICLES[vehicle], KINDS[kind], base, True)
    count = 16 * len(at.chain(Buffer(base, 1)))
    for address in places(base, count):
        if inside(base, address, count):
            at.table = address
            at.shows(base + BYTE, 1, 0x77)
        else:
            put_front(at, base, address)
            at.queue.offer([Buffer(address, count, INDIRECT)])
            at.refused()
    return story


def put_front(at, base, address):
    """As much of a table as lies in memory, where its front does."""
    entries = at.chain(Buffer(base + BYTE, 1, at.FLAGS))
    table = b"".join(at.queue.entry(one, number) for number, one in enumerate(entries if at.queue.is_packed else joined(entries)))
    if base <= address < base + LENGTH:
        at.queue.put(address, table[:base + LENGTH - address])


def areas(name, base, kind, which, area):
    story = Story(f"ends_areas/{kind}_{area}_from_{name}_on",
                  f"a {kind} {area} area at the ends of a memory from {said(name)} on, and at those of all addresses", [Slot(base)],
                  shows=[(f"{area} area, {kind}", "ends")])
    queue = KINDS[kind](story, areas=[base + 0x5000, base + 0x6300, base + 0x9600]).bring_up()
    count, alignment = ([(64, 16), (14, 2), (38, 4)] if kind == "split" else [(64, 16), (4, 4), (4, 4)])[which]
    right = queue.areas[which]
    for address in places(base, count, alignment) + [right]:
        story.write("b", QUEUE_READY, 0)
        story.write("b", AREAS[which], address & ALL)
        story.write("b", AREAS[which] + 4, address >> 32)
        story.write("b", QUEUE_READY, 1)
        story.read("b", QUEUE_READY, int(inside(base, address, count)))
        if inside(base, address, count):
            queue.areas[which] = address
            at_the_place(queue, base + BYTE, 1)
    return story


def driver_of_one():
    """The available ring of a queue of one has 8 bytes: at the end of the memory, and two bytes at a time behind it."""
    base = BASES["80000000"]
    story = Story("ends_areas/split_driver_of_a_ring_of_1", "an available ring of 8 bytes at the end of the memory, and steps of two bytes behind that",
                  [Slot(base)], shows=[("driver area, split", "ends")])
    queue = KINDS["split"](story, size=1, areas=[base + 0x5000, base + 0x6300, base + 0x9600]).bring_up()
    for address in (base + LENGTH - 8 + step for step in (-2, 0, 2, 4, 6, 8)):
        story.write("b", QUEUE_READY, 0)
        story.write("b", AREAS[1], address)
        story.write("b", QUEUE_READY, 1)
        story.read("b", QUEUE_READY, int(inside(base, address, 8)))
        if inside(base, address, 8):
            queue.areas[1] = address
            at_the_place(queue, base + BYTE, 1)
    return story


def boards():
    """Memories of some lengths at both ends of all addresses."""
    for bits in (12, 16, 28):
        length = 1 << bits
        for base, where in ((0, "from_0_on"), (TOP - length, "up_to_2_to_64")):
            story = Story(f"ends_boards/2_to_{bits}_bytes_{where}", f"a memory of 2^{bits} bytes {said(where)} has its first and its last byte",
                          [Slot(base, length)], shows=[("memory", "ends")])
            for address, mark in ((base, b"\x01"), (base + length - 1, b"\x02")):
                story.put(address, mark)
            for address, found in ((base, b"\x01"), (base + length - 1, b"\x02")):
                story.look(address, 1, found)
            for address in (base - 1, base + length):
                story.look(address % TOP, 1, BADRANGE)
            yield story
        if bits > 12:
            yield Story(f"ends_boards/2_to_{bits}_bytes_a_page_past_2_to_64", f"a memory of 2^{bits} bytes would end a page behind 2^64",
                        [Slot(TOP - length + 0x1000, length)], fault="board BadBase", shows=[("memory", "ends")])
    yield Story("ends_boards/two_pages_from_the_last_page_on", "a memory of two pages from the last page on would end behind 2^64",
                [Slot(TOP - 0x1000, 0x2000)], fault="board BadBase", shows=[("memory", "ends")])
