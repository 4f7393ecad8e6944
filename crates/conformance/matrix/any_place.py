"""Places of lists that are no power of two, nor beside one: each place of segments, buffers, entries, chains and slots."""
from .drivers import EVENT_IDX, FAULT, INDIRECT, INDIRECT_DESC, KINDS, SERVED, WRITE, Buffer, Packed, Split, number
from .guests import identity
from .places import HEADER, ROOM, SHAPES, STATUS_BYTE, TABLE, TEXT, shown
from .rounds import serve, wide
from .requests import GET_ID, IN, OUT, WRITE_ZEROES, header
from .segments import IOERR, OK, UNSUPP, segment
from .story import BASE, CHANGED, SECTOR, USED, Slot, Story, plain_image

TITLE = "Each place of a list"
HOW = "All places of a list, not just the powers of two and their neighbours: each is told from each other, and each alone is at fault."
COLUMNS = ("What", "Where")
FOLDERS = {"each_place": "Each place of segments, buffers, entries, chains and slots, one by one."}

TEXT_ORDER = [place * 77 % 256 for place in range(256)]


def stories():
    for what, one, status in (("flag_1", (0, 0, 2), UNSUPP), ("flag_16", (0, 0, 1 << 16), UNSUPP), ("sector", (9, 0, 0), IOERR), ("count", (7, 2, 0), IOERR)):
        yield from shown("a segment that is refused", "each of 32", (refused_segment(kind, what, one, status) for kind in KINDS.values()))
    yield from shown("the sectors of a segment", "each of 32", [zeroed()])
    for shape in SHAPES:
        yield from shown("the bytes of a buffer", "each of 256", [texts(shape), typed(shape)])
    yield from shown("Range of a buffer", "each of 40", [bad_buffer(Split, False), bad_buffer(Packed, True)])
    yield from shown("a table in a table", "each of 40", [nested()])
    yield from shown("a table of more than 256 entries", "257 to 65536", [long_tables()])
    yield from shown("a table's length in bytes", "1 to 4104, no multiple of 16", map(odd_tables, KINDS.values()))
    yield from shown("used_event", "0 to 255, and around 2^15 and 2^16", [events()])
    yield from shown("a head outside", "each of 40 chains", [bad_head()])
    yield from shown("identity, sector, mode, base", "each of 64 slots", [disks()])
    yield from shown("texts, typed bytes, size", "each of 64 slots", [consoles()])


def name_of(kind, what):
    return f"each_place/{'packed' if kind.is_packed else 'split'}_{what}"


def refused_segment(kind, what, one, status):
    """One of 32 segments alone is refused, each in turn."""
    story = Story(name_of(kind, f"bad_{what}_of_each_of_32_segments"), "Each of 32 segments alone has what is refused; without it the request is good.")
    queue = kind(story, "b", 0, 4).bring_up()
    queue.put(HEADER, header(WRITE_ZEROES) + segment(0, 0) * 32)
    for place in [*range(1, 33), 0]:
        if place:
            queue.put(HEADER + 16 * place, segment(*one))
        queue.put(STATUS_BYTE, b"\xff")
        queue.offer([Buffer(HEADER, 16 + 512), Buffer(STATUS_BYTE, 1, WRITE)])
        queue.notify()
        queue.look(STATUS_BYTE, 1, bytes([status if place else OK]))
        if place:
            queue.put(HEADER + 16 * place, segment(0, 0))
    return story


def zeroed():
    """32 segments with a sector each, those of odd places first, then all."""
    story = Story("each_place/sectors_of_32_segments", "Of 32 segments those of odd places have a sector, then all: just these become zero.",
                  [Slot(length=0x20000, count=32)], image=plain_image(32))
    queue = Split(story, "b", 0, 4).bring_up()
    for turn in (0, 1):
        segments = [(place * 7 % 32, 1 if place % 2 or turn else 0) for place in range(32)]
        queue.put(HEADER, header(WRITE_ZEROES) + b"".join(segment(*one) for one in segments))
        queue.offer([Buffer(HEADER, 16 + 512), Buffer(STATUS_BYTE, 1, WRITE)])
        queue.notify()
        queue.put(HEADER, header(IN))
        queue.offer([Buffer(HEADER, 16), Buffer(BASE + 0x10000, 32 * SECTOR, WRITE), Buffer(STATUS_BYTE, 1, WRITE)])
        queue.notify()
        for sector, count in segments:
            queue.look(BASE + 0x10000 + SECTOR * sector, 1, b"\0" if count else bytes([0x10 + sector]))
    return story


# --- buffers

def of_shape(shape, what, about):
    return Story(f"each_place/{what}_of_a_{shape.name}", about)


def texts(shape):
    """Each buffer has a byte of its own; then those of odd places are writable, then the others."""
    story = of_shape(shape, "bytes_put_out", "Each of 256 buffers has a byte of its own; then those of odd places are writable, then the others.")
    queue = shape.queue(story).bring_up()
    queue.put(TEXT, bytes(range(256)))
    for writable in (None, 1, 0):
        buffers = [Buffer(TEXT + at, 1, WRITE if place % 2 == writable else 0) for place, at in enumerate(TEXT_ORDER)]
        shape.write(queue, buffers)
        shape.offer(queue, buffers)
        queue.notify(output=bytes(at for place, at in enumerate(TEXT_ORDER) if place % 2 != writable))
    return story


def typed(shape):
    """Buffers of 1, 0, 2, 1, 0, 2, .. bytes, in another order than their addresses."""
    story = of_shape(shape, "typed_bytes", "Typed bytes fill 256 buffers of 1, 0 and 2 bytes, each at a place of its own.")
    queue = shape.queue(story, index=0).bring_up()
    lengths = [(1, 0, 2)[place % 3] for place in range(256)]
    buffers = [Buffer(TEXT + 2 * at, length, WRITE) for at, length in zip(TEXT_ORDER, lengths)]
    shape.write(queue, buffers)
    shape.offer(queue, buffers)
    content = bytes(1 + at % 251 for at in range(sum(lengths)))
    story.type(content, len(content), told=USED)
    queue.after(SERVED)
    found, at = bytearray(512), 0
    for place, length in zip(TEXT_ORDER, lengths):
        found[2 * place:2 * place + length] = content[at:at + length]
        at += length
    queue.look(TEXT, 512, bytes(found))
    return story


def bad_buffer(kind, in_table):
    """One of 40 buffers lies outside the memory, each in turn."""
    story = Story(name_of(kind, "a_buffer_outside_memory_at_each_of_40_" + ("entries" if in_table else "descriptors")),
                  "Each of 40 buffers alone lies outside the memory: a fault. With none there the text goes out.")
    queue = kind(story, "c", 1, 64, low=INDIRECT_DESC).bring_up()
    queue.put(TEXT, bytes(range(40)))
    good = [Buffer(TEXT + at, 1) for at in range(40)]
    write_all(queue, good, in_table)
    for place in [*range(40), None]:
        if place is None:
            write_first(queue, good, in_table)
            queue.notify(output=bytes(range(40)))
            break
        change(queue, good, place, Buffer(BASE - 1, 1), in_table)
        write_first(queue, good if place else [Buffer(BASE - 1, 1), *good[1:]], in_table)
        queue.notify(FAULT)
        change(queue, good, place, good[place], in_table)
        begin_again(queue)
    return story


def begin_again(queue):
    """The window from a reset on; descriptors stay as they are, but for the first, which isn't on offer any more."""
    if queue.is_packed:
        queue.put(queue.areas[0] + 14, bytes(2))
        queue.clear = lambda: None
    queue.bring_up_again()


def entry_of(queue, buffers, place, one, in_table):
    """A buffer as it stands at a place; of a packed list the first is offered by itself."""
    joins = place < len(buffers) - 1 and not (queue.is_packed and in_table)
    return queue.entry(Buffer(one.address, one.length, one.flags | (1 if joins else 0)), place)


def write_all(queue, buffers, in_table):
    content = b"".join(entry_of(queue, buffers, place, one, in_table) for place, one in enumerate(buffers))
    queue.put(TABLE if in_table else queue.areas[0], content)


def change(queue, buffers, place, one, in_table):
    queue.put((TABLE if in_table else queue.areas[0]) + 16 * place, entry_of(queue, buffers, place, one, in_table))


def write_first(queue, buffers, in_table):
    """Offers the chain: its head, or its first descriptor with the flags that offer it."""
    if in_table:
        queue.offer([Buffer(TABLE, 16 * len(buffers), INDIRECT, 0)])
    elif queue.is_packed:
        queue.put(queue.areas[0], entry_of(queue, buffers, 0, buffers[0], False)[:14] + number(1 | queue.mark(0), 2))
        queue.offered += len(buffers)
    else:
        queue.offer_head(0)


def nested():
    """An entry with INDIRECT at each of 40 places of a table."""
    story = Story("each_place/a_table_at_each_of_40_entries_of_a_table", "Each of 40 entries of a split table alone has INDIRECT: a fault.")
    queue = Split(story, "c", 1, 4, low=INDIRECT_DESC).bring_up()
    queue.put(TEXT, bytes(range(40)))
    good = [Buffer(TEXT + at, 1) for at in range(40)]
    write_all(queue, good, True)
    for place in range(40):
        change(queue, good, place, Buffer(TEXT + place, 16, INDIRECT), True)
        write_first(queue, good, True)
        queue.notify(FAULT)
        change(queue, good, place, good[place], True)
        begin_again(queue)
    write_first(queue, good, True)
    queue.notify(output=bytes(range(40)))
    return story


def long_tables():
    """Lengths above 4096 bytes, of tables whose first entry is all of their chain."""
    story = Story("each_place/split_tables_of_257_to_65536_entries", "A table of 256 entries is taken, a longer one is a fault, whatever its length.",
                  [Slot(length=0x200000)])
    queue = Split(story, "c", 1, 4, low=INDIRECT_DESC).bring_up()
    queue.put(TEXT, b"t")
    queue.put(TABLE, queue.entry(Buffer(TEXT, 1), 0))
    for count in (257, 258, 259, 260, 271, 272, 273, 288, 289, 300, 319, 320, 384, 511, 512, 513, 1000, 1024, 2048, 4096, 65535, 65536):
        queue.offer([Buffer(TABLE, 16 * count, INDIRECT, 0)])
        queue.notify(FAULT)
        queue.bring_up_again()
    queue.offer([Buffer(TABLE, 4096, INDIRECT, 0)])
    queue.notify(output=b"t")
    return story


ODD_LENGTHS = [1, 2, 3, 4, 5, 7, 8, 9, 12, 14, 15, 17, 18, 20, 24, 31, 33, 40, 47, 49, 63, 65, 127, 129, 255, 257, 511, 513, 1023, 1025, 2047, 2049, 4088,
               4095, 4097, 4104]


def odd_tables(kind):
    """Lengths that are no multiple of 16, of tables whose entries are all good."""
    story = Story(name_of(kind, "tables_of_no_whole_entries"), "A table whose length is no multiple of 16 is a fault, whatever its length.")
    queue = kind(story, "c", 1, 4, low=INDIRECT_DESC).bring_up()
    queue.put(TEXT, b"t")
    queue.put(TABLE, queue.entry(Buffer(TEXT, 1), 0) * (256 if kind.is_packed else 2))
    for length in ODD_LENGTHS if kind.is_packed else ODD_LENGTHS[11::4]:
        queue.offer([Buffer(TABLE, length, INDIRECT, 0)])
        queue.notify(FAULT)
        queue.bring_up_again()
    return story


def events():
    """A service of one chain at each place, which used_event names."""
    story = Story("each_place/used_event_at_0_to_255_and_around_2_to_15_and_16", "Each place that is passed alone and named is told: 0 to 255, and those around "
                  "2^15 and 2^16.")
    ring = wide(story, low=EVENT_IDX)
    for first, last in ((0, 256), (32760, 32776), (65528, 65544)):
        while ring.place < first:
            ring.put(ring.areas[1] + 4 + 512, number((ring.place - 1) % 65536, 2))
            serve(ring, min(256, first - ring.place), told=0)
        for place in range(first, last):
            ring.put(ring.areas[1] + 4 + 512, number(place % 65536, 2))
            serve(ring, 1)
            ring.acknowledge()
    return story


def bad_head():
    """A head of 64 behind 0 to 40 good ones."""
    story = Story("each_place/a_head_outside_behind_0_to_40_chains", "Behind 0, 1, .. 40 good chains of a service comes a head that is none: these are used, no more.")
    queue = Split(story, "c", 1, 64).bring_up()
    queue.put(TEXT, b"t")
    queue.put_chain([Buffer(TEXT, 1)])
    for count in range(41):
        queue.put(queue.areas[1] + 4 + 2 * count, number(64, 2))
        queue.put(queue.areas[1] + 2, number(count + 2, 2))
        queue.notify(FAULT, output=b"t" * count, told=CHANGED | (USED if count else 0))
        if count:
            queue.look(queue.areas[2] + 2, 2, number(count, 2))
        queue.put(queue.areas[1] + 4 + 2 * count, bytes(2))
        queue.bring_up_again()
    return story


# --- slots

def base_of(slot):
    return BASE + 0x100000000 * slot


def disks():
    """Each slot has a sector of its own; every third is read-only."""
    slots = [Slot(base=base_of(slot), length=0x8000, start=63 - slot, count=1, mode="rw" if slot % 3 else "ro", identity=identity(slot)) for slot in range(64)]
    story = Story("each_place/the_disks_of_64_slots", "Each of 64 disks has its own sector, identity, mode and base.", slots, image=plain_image(64))
    for slot in range(64):
        base = base_of(slot)
        queue = Split(story, "b", 0, 4, slot=slot, at=base + 0x1000).bring_up()
        queue.put(base + 0x6000, b"\xff")
        for kind, readable, status in ((IN, 16, OK), (GET_ID, 16, OK), (OUT, 16 + SECTOR, OK if slot % 3 else IOERR)):
            queue.put(base + 0x4000, header(kind) + (bytes([slot + 1]) if kind == OUT else b""))
            queue.offer([Buffer(base + 0x4000, readable), Buffer(base + 0x5000, SECTOR, WRITE), Buffer(base + 0x6000, 1, WRITE)])
            queue.notify()
            queue.look(base + 0x6000, 1, bytes([status]))
            if kind != OUT:
                queue.look(base + 0x5000, 20, bytes([(0x10 + 63 - slot) % 256]) * 20 if kind == IN else identity(slot))
    return story


def consoles():
    """Each slot puts out, takes and is resized."""
    slots = [Slot(length=0x8000, start=0, count=0, columns=slot, rows=slot * 3, identity=identity(slot)) for slot in range(64)]
    story = Story("each_place/the_consoles_of_64_slots", "Each of 64 consoles has its own size, output, typed bytes and word.", slots)
    for slot in range(64):
        story.type(bytes([slot + 1, slot + 2]), took=2, slot=slot)
    for slot in range(64):
        story.read("c", 0x100, slot * 3 << 16 | slot, slot=slot)
        story.resize(slot + 1, slot + 2, slot=slot)
        story.write("c", 0x108, slot + 1, output=bytes([slot + 1]), slot=slot)
        queue = Split(story, "c", 0, 4, slot=slot).bring_up()
        queue.offer([Buffer(BASE + 0x5000, 2, WRITE)])
        queue.notify()
        queue.look(BASE + 0x5000, 2, bytes([slot + 1, slot + 2]))
    for slot in range(64):
        story.read("c", 0x100, (slot + 2) << 16 | slot + 1, slot=slot)
        story.read("c", 0x060, USED, slot=slot)
    return story
