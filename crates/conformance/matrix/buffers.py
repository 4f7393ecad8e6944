"""Each position of a chain: what one of 256 buffers says, a fault at one of them, and how many there are."""
import dataclasses

from .drivers import FAULT, INDIRECT, NEXT, SERVED, STATUS, WRITE, Buffer, Packed, number
from .places import (BOTH, CHAIN, HEADER, LIST, PACKED_TABLE, ROOM, SHAPES, STATUS_BYTE, TABLE, TABLE_OF_256, TEXT, but, content,
                     places, shown, texts)
from .story import BASE, Slot, Story

TITLE = "Buffers of a chain"
HOW = ("A chain of 256 buffers stands in five shapes: descriptors of a split ring, a split table, half and half, a packed list, a "
       "packed table. The places are 1, 2, 255, 256, and each power of two with its neighbours.")
COLUMNS = ("What", "Where")
FOLDERS = {"positions_buffers": "One of 256 buffers of a chain is another, at each place; and how many there may be."}
UNSEEN = [
    ("which fault a chain has, where two are there", "each pair",
     "No record tells one fault from another: each leaves the same status and words."),
    ("TooMany in a packed list or table", "the 257th buffer",
     "A list ends with its ring, a table with 4096 bytes: neither has a 257th."),
]

PLACES = places(256)
END = BASE + 0x10000


def stories():
    plain, split = "split ring, table, both; packed list, table", (CHAIN, TABLE_OF_256, BOTH)
    yield from shown("one buffer with WRITE", plain, map(writable_in_a_text, SHAPES))
    yield from shown("one buffer without WRITE", plain, map(readable_in_a_room, SHAPES))
    yield from shown("one empty buffer", plain, map(empty_in_a_text, SHAPES))
    yield from shown("Range of a buffer", plain, (outside(shape, 1) for shape in SHAPES))
    yield from shown("Range of an empty buffer", plain, (outside(shape, 0) for shape in SHAPES))
    yield from shown("how many buffers", plain, map(counted, SHAPES))
    yield from shown("the status behind empty buffers and before them", plain, map(status_at, SHAPES))
    yield from shown("the header behind empty buffers", plain, map(header_at, SHAPES))
    yield from shown("the header's last byte behind empty buffers", plain, map(header_ends_at, SHAPES))
    yield from shown("INDIRECT", "split ring, packed list, split table, packed table",
                     (table_behind(), *map(joined_table, (True, False)), *map(nested, (True, False)), ignored_in_a_packed_table()))
    yield from shown("Index of `next`", "split ring, table, both", map(next_outside, split))
    yield from shown("Loop", "split ring, table, both; packed rings of each size", [*map(next_back, split), circle_of_a_list()])
    yield from shown("`next` in falling order", "split ring, table, both", map(backwards, split))
    yield from shown("TooMany", "k descriptors and a table", [too_many(1), too_many(0)])
    yield from shown("TooLong", "places 64, 65, 127, 128, 129, 255, 256", too_long())


def started(shape, name, about, plain, window="c", index=1, slots=(Slot(),)):
    """A story with a live queue, and the chain written down."""
    story = Story(f"positions_buffers/{name}", about, slots)
    queue = shape.queue(story, window, index).bring_up()
    shape.write(queue, plain)
    return story, queue


def each_place(shape, queue, plain, change, among=PLACES):
    """For each place, the chain with one buffer changed there; afterwards it is as it was."""
    for place in among:
        changed = but(plain, place, change(plain[place - 1]))
        shape.change(queue, place, changed)
        shape.offer(queue, changed)
        yield place, changed
        shape.change(queue, place, plain)


def writable_in_a_text(shape):
    """Of 256 buffers of a text all but one go out."""
    plain = texts()
    story, queue = started(shape, f"one_writable_buffer_of_a_{shape.name}",
                           "Of 256 buffers of a text one has WRITE: it alone stays.", plain)
    queue.put(TEXT, content())
    for place, _ in each_place(shape, queue, plain, lambda one: dataclasses.replace(one, flags=WRITE)):
        queue.notify(output=content()[:place - 1] + content()[place:])
    return story


def empty_in_a_text(shape):
    plain = texts()
    story, queue = started(shape, f"one_empty_buffer_of_a_{shape.name}",
                           "Of 256 buffers of a text one has no byte: the rest goes out.", plain)
    queue.put(TEXT, content())
    for place, _ in each_place(shape, queue, plain, lambda one: dataclasses.replace(one, length=0)):
        queue.notify(output=content()[:place - 1] + content()[place:])
    return story


def readable_in_a_room(shape):
    """What is typed goes round the one buffer that isn't writable."""
    plain = texts(flags=WRITE)
    story, queue = started(shape, f"one_readable_buffer_of_a_{shape.name}",
                           "Of 256 buffers one lacks WRITE: typed bytes fill all others, in order.", plain, index=0)
    for place, _ in each_place(shape, queue, plain, lambda one: dataclasses.replace(one, flags=0), PLACES[::2] + PLACES[-1:]):
        queue.put(TEXT + place - 1, b"\xee")
        typed = bytes((place + at) % 251 for at in range(255))
        story.type(typed, took=255, told=1)
        queue.after(SERVED)
        queue.look(TEXT, 256, typed[:place - 1] + b"\xee" + typed[place - 1:])
    return story


def faulty(shape, queue, plain, change, among=PLACES):
    """A fault at each place, each time from a reset on."""
    for at, place in enumerate(among):
        if at:
            shape.again(queue)
        changed = but(plain, place, change(plain[place - 1]))
        shape.change(queue, place, changed)
        shape.offer(queue, changed)
        queue.notify(FAULT)
        queue.story.read(queue.window, STATUS, 0x4f)
        shape.change(queue, place, plain)
    shape.again(queue)
    shape.offer(queue, plain)
    queue.notify(output=b"-" * len(plain))


def outside(shape, length):
    """A buffer that ends, or lies, behind the memory's end."""
    plain = texts()
    what, at = ("a_buffer", END) if length else ("an_empty_buffer", END + 1)
    story, queue = started(shape, f"{what}_outside_memory_in_a_{shape.name}",
                           "One of 256 buffers is outside memory: a fault, and nothing goes out.", plain)
    queue.put(TEXT, b"-" * 256)
    faulty(shape, queue, plain, lambda one: Buffer(at, length))
    return story


def counted(shape):
    """A chain of each length."""
    plain = texts()
    story = Story(f"positions_buffers/lengths_of_a_{shape.name}", "A chain of 1, 2, .. 256 buffers goes out whole.")
    queue = shape.queue(story).bring_up()
    queue.put(TEXT, content())
    for count in PLACES:
        if shape is LIST:
            queue.offer(plain[:count], link=count)
        else:
            inner = shape if count > shape.plain else dataclasses.replace(shape, plain=count)
            inner.write(queue, plain[:count])
            inner.offer(queue, plain[:count])
        queue.notify(output=content()[:count])
        if shape is LIST:
            queue.look_at_used(0, link=count, wrote=False, count=count)
        queue.acknowledge()
    return story


def status_at(shape):
    """The status is the last writable byte, whatever empty buffers stand behind it."""
    plain = [Buffer(HEADER, 16)] + [Buffer(TEXT + at, 0, WRITE) for at in range(1, 256)]
    story, queue = started(shape, f"the_status_in_one_buffer_of_a_{shape.name}",
                           "Of 255 writable buffers one has a byte: the status of a flush.", plain, "b", 0)
    queue.put(HEADER, number(4, 16))
    for place, _ in each_place(shape, queue, plain, lambda one: dataclasses.replace(one, length=1), PLACES[1:]):
        queue.put(TEXT + place - 1, b"\xff")
        queue.notify()
        queue.look(TEXT + place - 1, 1, b"\0")
    return story


def header_at(shape):
    """The header is the first 16 readable bytes, whatever empty buffers stand before and between them."""
    plain = [Buffer(TEXT, 0)] * 254 + [Buffer(HEADER + 1, 15), Buffer(STATUS_BYTE, 1, WRITE)]
    story, queue = started(shape, f"the_type_in_one_buffer_of_a_{shape.name}",
                           "Of 254 buffers before the rest of a header one has a byte: the request's type.", plain, "b", 0)
    queue.put(HEADER, number(0x10d, 16))
    for place, _ in each_place(shape, queue, plain, lambda one: Buffer(HEADER, 1), [place for place in PLACES if place < 255]):
        queue.notify()
        queue.look(STATUS_BYTE, 1, b"\2")
        queue.put(STATUS_BYTE, b"\xff")
    return story


def header_ends_at(shape):
    """The status stands first, then 15 bytes of the header, then empty buffers and its last byte."""
    plain = [Buffer(STATUS_BYTE, 1, WRITE), Buffer(HEADER, 15)] + [Buffer(TEXT, 0)] * 254
    story, queue = started(shape, f"the_end_of_a_header_in_one_buffer_of_a_{shape.name}",
                           "The last byte of a header stands in one of the 254 buffers behind the status and its other bytes.",
                           plain, "b", 0)
    queue.put(HEADER, number(4, 16))
    for place, _ in each_place(shape, queue, plain, lambda one: Buffer(HEADER + 15, 1), PLACES[2:]):
        queue.put(STATUS_BYTE, b"\xff")
        queue.notify()
        queue.look(STATUS_BYTE, 1, b"\0")
    return story


def table_behind():
    """A table behind some plain descriptors of a split ring ends the chain."""
    story = Story("positions_buffers/a_table_behind_plain_descriptors",
                  "A table of one buffer stands behind 0, 1, .. 255 descriptors.")
    queue = CHAIN.queue(story).bring_up()
    queue.put(TEXT, content())
    CHAIN.write(queue, texts())
    queue.put(TABLE, queue.entry(Buffer(TEXT + 255, 1), -1))
    for place in PLACES:
        queue.put(queue.areas[0] + 16 * (place - 1), queue.entry(Buffer(TABLE, 16, INDIRECT), -1))
        queue.offer_head(0)
        queue.notify(output=content()[:place - 1] + b"\xff")
        CHAIN.change(queue, place, texts())
    return story


def joined_table(is_last):
    """A packed descriptor with INDIRECT is the first of its list, or a fault. `is_last`: NEXT is clear in it, so that its place alone
    is wrong."""
    which, what = ("at_the_end_of", "without NEXT") if is_last else ("in", "with NEXT")
    story = Story(f"positions_buffers/a_table_{which}_a_packed_list",
                  f"INDIRECT {what} at each position of a list of up to 256 but the first is a fault.")
    queue = LIST.queue(story).bring_up()
    queue.put(TEXT, b"-" * 256)
    queue.put(TABLE, queue.entry(Buffer(TEXT + 255, 1), 0))
    LIST.write(queue, texts())
    faulty(LIST, queue, texts(), lambda one: Buffer(TABLE, 16, INDIRECT | (0 if is_last else NEXT)), PLACES[1:])
    return story


def nested(is_last):
    """`is_last`: NEXT is clear in the entry with INDIRECT, so that it is wrong in a table alone."""
    which, what = ("at_the_end_of", "without NEXT") if is_last else ("in", "with NEXT")
    story = Story(f"positions_buffers/a_table_{which}_a_split_table",
                  f"INDIRECT {what} in each entry of a table of 256, which names a good table, is a fault.")
    queue = TABLE_OF_256.queue(story).bring_up()
    queue.put(TEXT, b"-" * 256)
    TABLE_OF_256.write(queue, texts())
    queue.put(ROOM, queue.entry(Buffer(TEXT, 1), -1))
    faulty(TABLE_OF_256, queue, texts(), lambda one: Buffer(ROOM, 16, INDIRECT | (0 if is_last else NEXT)))
    return story


def ignored_in_a_packed_table():
    """NEXT and INDIRECT of a packed table's entries say nothing."""
    story, queue = started(PACKED_TABLE, "flags_of_one_entry_of_a_packed_table",
                           "All flags but WRITE in one of 256 entries say nothing.", texts())
    queue.put(TEXT, content())
    for _ in each_place(PACKED_TABLE, queue, texts(), lambda one: dataclasses.replace(one, flags=0xfffd)):
        queue.notify(output=content())
    return story


def next_outside(shape):
    """`next` of one member is the number of descriptors, or of the table's entries."""
    plain = texts()
    story, queue = started(shape, f"a_next_outside_in_a_{shape.name}",
                           "`next` of one of 256 members is 256, where a good descriptor lies: a fault.", plain)
    queue.put(TEXT, b"-" * 256)
    for area in (queue.areas[0], TABLE):
        queue.put(area + 4096, queue.entry(Buffer(TEXT, 1), -1))
    among = [place for place in PLACES if shape is not BOTH or place <= 128]
    faulty(shape, queue, plain, lambda one: dataclasses.replace(one, flags=NEXT, link=256), among)
    return story


def next_back(shape):
    """`next` of one member leads back to the first."""
    plain = texts()
    story, queue = started(shape, f"a_circle_in_a_{shape.name}", "`next` of one of 256 members leads back to the first: a fault.",
                           plain)
    queue.put(TEXT, b"-" * 256)
    among = [place for place in PLACES if shape is not BOTH or place <= 128]
    faulty(shape, queue, plain, lambda one: dataclasses.replace(one, flags=NEXT, link=0), among)
    return story


def circle_of_a_list():
    """A packed list of all positions, each with NEXT."""
    story = Story("positions_buffers/a_list_longer_than_its_ring",
                  "All descriptors of rings of 1, 2, .. 256 have NEXT: a fault; with one less the list goes out.")
    for size in PLACES:
        queue = Packed(story, "c", 1, size)
        queue.bring_up()
        queue.put(queue.areas[0], b"".join(queue.entry(Buffer(TEXT, 0, NEXT | queue.mark(0)), 0) for _ in range(size)))
        queue.notify(FAULT)
        queue.story.read(queue.window, STATUS, 0x4f)
        queue.bring_up()
        queue.put(queue.areas[0] + 16 * (size - 1), queue.entry(Buffer(TEXT, 1, queue.mark(0)), 0))
        queue.notify(output=b"\0")
    return story


def backwards(shape):
    """A path may go through its descriptors in any order: here the first, then the last down to the second."""
    story = Story(f"positions_buffers/a_{shape.name}_from_its_last_to_its_first",
                  "Behind the first, members stand in falling order: the text goes out in the path's order.")
    queue = shape.queue(story).bring_up()
    queue.put(TEXT, content())
    plain, inside = shape.plain, 256 - shape.plain
    order = falling(queue, queue.areas[0], plain, TEXT, plain if plain and inside else None)
    order += [plain + at for at in falling(queue, TABLE, inside, TEXT + plain, None)]
    if inside:
        queue.put(queue.areas[0] + 16 * plain, queue.entry(Buffer(TABLE, 16 * inside, INDIRECT, 0), 0))
    queue.offer_head(0)
    queue.notify(output=bytes(order))
    return story


def falling(queue, area, count, text, behind):
    """Writes entries whose path is 0, count - 1, .. 1, and then `behind`; the path."""
    order = ([0] + list(range(count - 1, 0, -1)))[:count]
    follows = dict(zip(order, order[1:] + ([] if behind is None else [behind])))
    entries = [queue.entry(Buffer(text + at, 1, NEXT if at in follows else 0, follows.get(at, 0)), 0) for at in range(count)]
    if entries:
        queue.put(area, b"".join(entries))
    return order


def too_many(length):
    """256 buffers with those of a table, and one more; all of one byte, or all empty but for the last."""
    what = "buffers" if length else "empty_buffers"
    story = Story(f"positions_buffers/plain_descriptors_and_a_table_of_256_{what}_in_all",
                  "k descriptors and a table of 256 - k entries are taken, one entry more is a fault.")
    queue = CHAIN.queue(story).bring_up()
    queue.put(TEXT, content() + b"!")
    table = texts(257) if length else [Buffer(TEXT, 0)] * 255 + texts(2)
    for plain in (1, 2, 3, 127, 128, 129, 254, 255):
        for count in (256 - plain, 257 - plain):
            entries = [queue.entry(dataclasses.replace(one, flags=NEXT), at) for at, one in enumerate(table[:plain])]
            entries.append(queue.entry(Buffer(TABLE, 16 * count, INDIRECT, 0), 0))
            queue.put(queue.areas[0], b"".join(entries))
            rest = table[plain:plain + count]
            queue.put(TABLE,
                      b"".join(queue.entry(dataclasses.replace(one, flags=NEXT if at < count - 1 else 0), at) for at,
                               one in enumerate(rest)))
            queue.offer_head(0)
            if plain + count <= 256:
                queue.notify(output=content() if length else b"\0")
            else:
                queue.notify(FAULT)
                queue.story.read(queue.window, STATUS, 0x4f)
                CHAIN.again(queue)
    return story


def too_long():
    """64 buffers of 2^26 bytes but one are 2^32 - 1: one byte more at any later place is a fault."""
    size = 2 ** 26
    full = [Buffer(BASE, size, WRITE), Buffer(BASE, size)] * 31 + [Buffer(BASE, size, WRITE), Buffer(BASE, size - 1)]
    for shape in (CHAIN, TABLE_OF_256, PACKED_TABLE, LIST):
        plain = full + [Buffer(TEXT, 0, WRITE)] * 192
        story, queue = started(shape, f"one_byte_too_many_in_a_{shape.name}",
                               "64 buffers, every second writable, have 2^32 - 1 bytes: a byte in a later one is a fault.",
                               plain, index=0, slots=(Slot(length=size),))
        story.type(b"")
        for at, place in enumerate([64, 65, 127, 128, 129, 255, 256]):
            if at:
                shape.again(queue)
            change = Buffer(BASE, size) if place == 64 else Buffer(TEXT, 1, WRITE if place % 2 else 0)
            shape.change(queue, place, but(plain, place, change))
            shape.offer(queue, but(plain, place, change))
            story.type(b"x", took=1, told=2)
            queue.story.read(queue.window, STATUS, 0x4f)
            shape.change(queue, place, plain)
        shape.again(queue)
        shape.offer(queue, plain)
        queue.write(0x050, 0, told=1)
        queue.look(BASE, 8, b"x" * 7 + b"\0")
        yield story
