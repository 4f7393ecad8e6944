"""Rings and tables of each size: the last member and one more, the last position and the offset behind it."""
from .drivers import AREAS as AREA_REGISTERS
from .drivers import (EVENT_IDX, FAULT, INDIRECT, INDIRECT_DESC, KINDS, NEXT, QUEUE_NUM, QUEUE_READY, USED_FLAG, WRITE, Buffer, Packed,
                      Split, number)
from .places import ROOM, TABLE, TEXT, content, places, shown
from .story import BASE, Slot, Story

TITLE = "Rings and tables of each size"
HOW = ("Split rings have 1, 2, 4, .. 256 descriptors; packed rings, lists and tables each number up to 17, and each power of two up to "
       "256 with its neighbours.")
COLUMNS = ("What", "Where")
FOLDERS = {"positions_sizes": "What holds of a ring's or a table's last member, and not of one more, in those of each size."}

RINGS = [2 ** power for power in range(9)]
SIZES = sorted(set(range(1, 18)) | set(places(256)))
# Room behind 256 descriptors for one more, which lies outside each ring.
AREAS = [BASE + 0x1000, BASE + 0x3000, BASE + 0xe000]
END = BASE + 0x10000
# Sizes that are tried: powers of two and what is near them, and numbers of two bits.
TRIED = sorted({*range(34), *(2 ** power + by for power in range(17) for by in (-2, -1, 0, 1, 2) if 2 ** power + by > 0),
                *(3 * 2 ** power for power in range(15))})
# A ring of 64: each place that a service of one list passes, and doesn't.
NAMED = [*range(5), 6, 7, 8, 9, 14, 15, 16, 17, 30, 31, 32, 33, 47, 62, 63]


def stories():
    yield from shown("sizes that are taken", "0 to 65538", map(sizes_of_rings, KINDS))
    yield from shown("a path of N members, and Loop", "split rings of each size", [ring_paths()])
    yield from shown("a path of N members, and Loop", "split tables of each number of entries", [table_paths()])
    yield from shown("Index of `next`", "N - 1 and N, split rings of each size", [ring_nexts()])
    yield from shown("Index of `next`", "N - 1 and N, split tables of each number of entries", [table_nexts()])
    yield from shown("Index of a head", "N - 1 and N, split rings of each size", [ring_heads()])
    yield from shown("a table as the Nth member", "split rings of each size", [tables_at_the_end()])
    yield from shown("Jump", "N chains and N + 1, split rings of each size", [chains_on_offer()])
    yield from shown("positions of both rings", "two laps, split rings of each size", [heads_in_order()])
    yield from shown("places of used_event and avail_event", "split rings of each size", [event_indices()])
    yield from shown("areas that end with the memory", "rings of each size", map(areas_at_the_end, KINDS))
    yield from shown("tables that end with the memory", "tables of each number of entries", map(tables_that_end, KINDS))
    yield from shown("the id of a list", "the last descriptor of each length", [ids_of_lists()])
    yield from shown("a list across the ring's end", "packed rings of each size", [lists_across_the_end()])
    yield from shown("how many positions a service passes", "N, packed rings of each size", [laps_of_single_lists()])
    yield from shown("how many positions a service passes", "no more than N, packed rings of each size", [laps_that_feed_the_next()])
    yield from shown("a packed event's offset", "N, packed rings of each size", [offsets_of_no_place()])
    yield from shown("a packed event's offset", "N - 1, packed rings of each size", [offsets_of_the_last_place()])
    yield from shown("a packed event's place", "places of a ring of 64, passed alone, and not passed", map(named_places, (0, 64)))


def is_size(kind, size):
    """Whether a ring of this kind may have so many descriptors."""
    return 1 <= size <= 256 and (kind == "packed" or size in RINGS)


def sizes_of_rings(kind):
    """Each size for each queue, in a memory that has room for all."""
    story = Story(f"positions_sizes/sizes_of_{kind}_rings",
                  f"Sizes of {kind} rings from 0 to 65538: a queue is made ready with those alone that are right.", [Slot(length=0x120000)])
    for queue in each_queue(story, kind, [BASE] * 3):
        for size in TRIED:
            queue.write(QUEUE_READY, 0)
            queue.write(QUEUE_NUM, size)
            queue.write(QUEUE_READY, 1)
            story.read(queue.window, QUEUE_READY, int(is_size(kind, size)))
    return story


def each_queue(story, kind, areas):
    """Each queue of a slot, made ready with four descriptors."""
    for window, index in (("b", 0), ("c", 0), ("c", 1)):
        queue = KINDS[kind](story, window, index, 4, areas=list(areas))
        queue.begin()
        queue.make_ready()
        yield queue


def lengths_of_areas(kind, size):
    """The length and the alignment of each area."""
    return [(16 * size, 16), (6 + 2 * size, 2), (6 + 8 * size, 4)] if kind == "split" else [(16 * size, 16), (4, 4), (4, 4)]


def areas_at_the_end(kind):
    """Each area as far behind as it may lie, and one step further."""
    story = Story(f"positions_sizes/areas_of_{kind}_rings_at_the_end_of_the_memory",
                  f"Each area of {kind} rings of each size ends with the memory: ready; one step further it isn't.")
    for queue in each_queue(story, kind, AREAS):
        for size in RINGS if kind == "split" else SIZES:
            queue.write(QUEUE_READY, 0)
            queue.write(QUEUE_NUM, size)
            for offset, area, (length, alignment) in zip(AREA_REGISTERS, AREAS, lengths_of_areas(kind, size)):
                last = (END - length) // alignment * alignment
                for address, is_ready in ((last, 1), (last + alignment, 0)):
                    queue.write(QUEUE_READY, 0)
                    queue.write(offset, address)
                    queue.write(QUEUE_READY, 1)
                    story.read(queue.window, QUEUE_READY, is_ready)
                queue.write(QUEUE_READY, 0)
                queue.write(offset, area)
    return story


# --- split

def split(story, size, low=0):
    """A queue of this size from a reset on; what was offered to one before it is taken back."""
    queue = Split(story, "c", 1, size, low=low, areas=list(AREAS))
    queue.clear()
    return queue.bring_up()


def letters(queue, area, flags):
    """257 descriptors of one byte each, which tells where it stands."""
    queue.put(TEXT, content(256) + b"!")
    queue.put(area, b"".join(queue.entry(Buffer(TEXT + at, 1, flags), at) for at in range(257)))


def letter(queue, area, at, flags=0, link=-1):
    """One of these descriptors written anew."""
    queue.put(area + 16 * at, queue.entry(Buffer(TEXT + at, 1, flags, link), at))


def ring_paths():
    """A path of all descriptors, and one that leads from the last to the first."""
    story = Story("positions_sizes/paths_of_all_members_of_split_rings",
                  "A path of all N descriptors is served in rings of 1, 2, 4, .. 256; one that goes on behind the Nth is a fault.")
    for size in RINGS:
        queue = split(story, size)
        if size == 1:
            letters(queue, AREAS[0], NEXT)
        letter(queue, AREAS[0], size - 1)
        queue.offer_head(0)
        queue.notify(output=content(size))
        queue.look_at_used(0)
        letter(queue, AREAS[0], size - 1, NEXT, 0)
        queue.offer_head(0)
        queue.notify(FAULT)
        letter(queue, AREAS[0], size - 1, NEXT)
    return story


def table_paths():
    """The same in tables."""
    story = Story("positions_sizes/paths_of_all_entries_of_split_tables",
                  "A path of all n entries is served in tables of 1, 2, .. 256; one that goes on behind the nth is a fault.")
    for size in SIZES:
        queue = split(story, 2, INDIRECT_DESC)
        if size == 1:
            letters(queue, TABLE, NEXT)
        queue.put_chain([Buffer(TABLE, 16 * size, INDIRECT, 0)])
        letter(queue, TABLE, size - 1)
        queue.offer_head(0)
        queue.notify(output=content(size))
        letter(queue, TABLE, size - 1, NEXT, 0)
        queue.offer_head(0)
        queue.notify(FAULT)
        letter(queue, TABLE, size - 1, NEXT)
    return story


def nexts(queue, area, size):
    """Descriptor 0 leads to the last, then to one behind it."""
    if size > 1:
        letter(queue, area, 0, NEXT, size - 1)
        queue.offer_head(0)
        queue.notify(output=bytes([0, size - 1]))
    letter(queue, area, 0, NEXT, size)
    queue.offer_head(0)
    queue.notify(FAULT)


def ring_nexts():
    story = Story("positions_sizes/next_at_the_end_of_split_rings",
                  "`next` of N - 1 is followed in rings of 2, 4, .. 256; `next` of N is a fault, though a good descriptor lies there.")
    for size in RINGS:
        queue = split(story, size)
        if size == 1:
            letters(queue, AREAS[0], 0)
        nexts(queue, AREAS[0], size)
    return story


def table_nexts():
    story = Story("positions_sizes/next_at_the_end_of_split_tables",
                  "`next` of n - 1 is followed in tables of 2, 3, .. 256 entries; `next` of n is a fault, though a good descriptor lies there.")
    for size in SIZES:
        queue = split(story, 2, INDIRECT_DESC)
        if size == 1:
            letters(queue, TABLE, 0)
        queue.put_chain([Buffer(TABLE, 16 * size, INDIRECT, 0)])
        nexts(queue, TABLE, size)
    return story


def ring_heads():
    story = Story("positions_sizes/heads_at_the_end_of_split_rings",
                  "A head of N - 1 is served in rings of 1, 2, 4, .. 256; a head of N is a fault, though a good descriptor lies there.")
    for size in RINGS:
        queue = split(story, size)
        if size == 1:
            letters(queue, AREAS[0], 0)
        queue.offer_head(size - 1)
        queue.notify(output=bytes([size - 1]))
        queue.look_at_used(0, head=size - 1)
        queue.offer_head(size)
        queue.notify(FAULT)
    return story


def tables_at_the_end():
    """N - 1 descriptors, and a table that the last names."""
    story = Story("positions_sizes/tables_behind_all_other_members_of_split_rings",
                  "A table that the Nth member of a path names is served in rings of 1, 2, 4, .. 256.")
    for size in RINGS:
        queue = split(story, size, INDIRECT_DESC)
        if size == 1:
            letters(queue, AREAS[0], NEXT)
            queue.put(TABLE, queue.entry(Buffer(TEXT + 256, 1), 0))
        queue.put(AREAS[0] + 16 * (size - 1), queue.entry(Buffer(TABLE, 16, INDIRECT, 0), 0))
        queue.offer_head(0)
        queue.notify(output=content(size - 1) + b"!")
        letter(queue, AREAS[0], size - 1, NEXT)
    return story


def chains_on_offer():
    """One chain again and again, from place 0 and from place N on."""
    story = Story("positions_sizes/chains_on_offer_in_split_rings",
                  "N chains on offer are served in rings of 1, 2, 4, .. 256, and N more; N + 1 at once are a fault, at place 0 as in the next lap.")
    for size in RINGS:
        for laps in (0, 1, 2):
            queue = split(story, size)
            queue.put_chain([Buffer(TEXT, 1)])
            queue.put(AREAS[1] + 4, bytes(2 * size))
            for _ in range(laps):
                offer_more(queue, size)
                queue.notify(output=bytes(size))
                queue.look_at_used(0)
            offer_more(queue, size + 1)
            queue.notify(FAULT)
            queue.look(AREAS[2] + 2, 2, number(laps * size, 2))
            queue.put(AREAS[2] + 2, bytes(2))
    return story


def offer_more(queue, count):
    """The available idx so many chains further."""
    queue.offered = queue.place + count
    queue.put(AREAS[1] + 2, number(queue.offered, 2))


def heads_in_order():
    """N chains of one descriptor, in another order in each lap."""
    story = Story("positions_sizes/two_laps_of_heads_in_split_rings",
                  "N chains in one order and then in another are served and used in that order, in rings of 1, 2, 4, .. 256.")
    for size in RINGS:
        queue = split(story, size)
        if size == 1:
            letters(queue, AREAS[0], 0)
        for lap in range(2):
            heads = [(size - 1 - at + lap) % size for at in range(size)]
            queue.put(AREAS[1] + 4, b"".join(number(head, 2) for head in heads))
            queue.put(AREAS[2] + 4, b"\xee" * 8 * size)
            offer_more(queue, size)
            queue.notify(output=bytes(heads))
            queue.look(AREAS[2] + 4, 8 * size, b"".join(number(head, 8) for head in heads))
    return story


def event_indices():
    """used_event stands behind N heads, avail_event behind N used entries; what stands behind them names no place."""
    story = Story("positions_sizes/event_indices_in_split_rings",
                  "used_event decides, and avail_event is written, where they stand in rings of 1, 2, 4, .. 256.")
    for size in RINGS:
        queue = split(story, size, EVENT_IDX)
        queue.put_chain([Buffer(TEXT, 0)])
        queue.put(AREAS[1] + 4, bytes(2 * size) + b"\x55" * 64)
        for count, event, told in ((1, 0, True), (1, 1, False), (size, size - 1, True), (size, size, False)):
            queue.put(AREAS[1] + 4 + 2 * size, number(queue.place + event, 2))
            offer_more(queue, count)
            queue.notify(told=1 if told else 0)
            queue.look(AREAS[2] + 4 + 8 * size, 4, number(queue.place, 4))
            if told:
                queue.acknowledge()
        queue.put(AREAS[2] + 4 + 8 * size, bytes(2))
    return story


# --- tables

def tables_that_end(kind):
    """A table of each number of entries, which ends with the memory, and one byte further."""
    story = Story(f"positions_sizes/{kind}_tables_at_the_end_of_the_memory",
                  f"A {kind} table of 1, 2, .. 256 entries ends with the memory: it is served; one byte further it is a fault.")
    queue = KINDS[kind](story, "c", 1, 2, low=INDIRECT_DESC, areas=[BASE + 0x1000, BASE + 0x3000, BASE + 0x4000]).bring_up()
    queue.put(TEXT, content())
    entries = b"".join(queue.entry(Buffer(TEXT + at, 1), 0) for at in range(256))
    queue.put(END - 4096, entries)
    for size in SIZES:
        first = END - 16 * size
        if kind == "split" and size > 1:
            queue.put(first, queue.entry(Buffer(TEXT + 256 - size, 1, NEXT, size - 1), 0))
        queue.offer([Buffer(first, 16 * size, INDIRECT)])
        queue.notify(output=bytes([256 - size, 255]) if kind == "split" and size > 1 else content()[256 - size:])
    # All but the last byte of the same entries.
    queue.put(END - 4095, entries[:-1])
    for size in SIZES:
        queue.offer([Buffer(END - 16 * size + 1, 16 * size, INDIRECT)])
        queue.notify(FAULT)
        queue.clear()
        queue.bring_up()
    return story


# --- packed

def ids_of_lists():
    """Lists whose descriptors have an id of their own."""
    story = Story("positions_sizes/ids_of_lists_of_each_length",
                  "Each descriptor of a list of 1, 2, .. 256 has another id: the last one's is told.")
    queue = Packed(story, "c", 1, 256).bring_up()
    for length in SIZES:
        ids = [(length + 257 * at) % 65536 for at in range(1, length + 1)]
        queue.offer([Buffer(TEXT, 0, 0, one) for one in ids])
        queue.notify()
        queue.look_at_used(0, link=ids[-1], wrote=False, count=length)
        queue.acknowledge()
    return story


def lists_across_the_end():
    """A list of N - 1 positions, one of N from the last position on, one more in the next lap, and one of the last position alone."""
    story = Story("positions_sizes/lists_across_the_end_of_packed_rings",
                  "A list of all positions begins at the last in rings of 2, 3, .. 256, in two laps: it goes on at the front, and is used where it began.")
    for size in SIZES[1:]:
        queue = Packed(story, "c", 1, size).bring_up()
        if size == 2:
            queue.put(TEXT, content())
        ring = [Buffer(TEXT + at, 1, 0 if at == size - 2 else NEXT, at) for at in range(size)]
        queue.put(queue.areas[0] + 16, b"".join(queue.entry(one, 0) for one in ring[1:]))
        serve_list(queue, ring[0], size - 1, content(size - 1), size - 2)
        queue.put(queue.areas[0], queue.entry(ring[0], 0))
        for _ in range(2):
            serve_list(queue, ring[-1], size, content(size)[-1:] + content(size - 1), size - 2)
        serve_list(queue, Buffer(TEXT, 1, 0, 7), 1, b"\0", 7)
    return story


def serve_list(queue, first, count, output, link):
    """The first descriptor of a list that stands in the ring is offered: what goes out, and the id that its used entry tells."""
    queue.put_chain([first])
    queue.offered = (queue.offered + count) % (2 * queue.size)
    queue.notify(output=output)
    queue.look_at_used(0, link=link, wrote=False, count=count)


def laps_of_single_lists():
    """As many lists of one descriptor as the ring has positions, in one service."""
    story = Story("positions_sizes/services_of_all_positions_of_packed_rings",
                  "N lists of one descriptor go out in one service in rings of 1, 2, .. 256, and the event at the last position is told.")
    for size in SIZES:
        queue = Packed(story, "c", 1, size, low=EVENT_IDX).bring_up()
        if size == 1:
            queue.put(TEXT, content())
        name(queue, size - 1, True)
        queue.put_chain([Buffer(TEXT + at, 1, 0, at) for at in range(size)])
        queue.offered = size
        queue.notify(output=content(size))
        queue.look_at_used(0, link=size - 1, wrote=False)
    return story


def laps_that_feed_the_next():
    """The last buffer of a lap is the ring's first descriptor, which the typed bytes offer once more."""
    story = Story("positions_sizes/services_that_end_behind_n_positions",
                  "Typed bytes offer position 0 again in a service of N positions, in rings of 2, 3, .. 256: it is left to the next service.")
    for size in SIZES[1:]:
        queue = Packed(story, "c", 0, size).bring_up()
        again = queue.entry(Buffer(ROOM, 1, WRITE | USED_FLAG), 0)
        queue.put_chain([Buffer(TEXT, 1, WRITE)] * (size - 1) + [Buffer(queue.areas[0], 16, WRITE)])
        queue.put(ROOM, b"\xee")
        typed = bytes(size - 1) + again + b"!"
        story.type(typed, len(typed), told=1)
        queue.look(ROOM, 1, b"\xee")
        queue.look(queue.areas[0] + 16 * (size - 1) + 8, 8, number(16, 4) + number(0, 2) + number(0x8082, 2))
        queue.look(queue.areas[0], 16, again)
        story.type(b"", 0, told=1)
        queue.look(ROOM, 1, b"!")
    return story


def name(queue, offset, wrap):
    """The driver's event: an offset and a wrap counter, and flags of 2, so that they count."""
    queue.put(queue.areas[1], number(offset | (0x8000 if wrap else 0), 2) + number(2, 2))


def in_laps(story, size, named):
    """A ring of this size, and services of one list of all its positions, each with an event: `named` has its offset, its wrap counter
    and whether it is told. The laps are of wrap counter 1 and 0 in turn."""
    queue = Packed(story, "c", 1, size, low=EVENT_IDX).bring_up()
    queue.put(queue.areas[0], b"".join(queue.entry(Buffer(TEXT, 0, NEXT if at < size - 1 else 0), 0) for at in range(size)))
    for offset, wrap, told in named:
        name(queue, offset, wrap)
        queue.put_chain([Buffer(TEXT, 0, NEXT if size > 1 else 0)])
        queue.offered = (queue.offered + size) % (2 * size)
        queue.notify(told=1 if told else 0)
        if told:
            queue.acknowledge()


def offsets_of_no_place():
    """Counted on, the offset N with wrap counter 0 would be place 0, and with wrap counter 1 place N."""
    story = Story("positions_sizes/an_offset_of_n_in_packed_rings",
                  "The event's offset N names no place in rings of 1, 2, .. 256: no service is told, with either wrap counter in either lap.")
    for size in SIZES:
        in_laps(story, size, [(size, wrap, False) for wrap in (False, True, True, False)])
    return story


def offsets_of_the_last_place():
    story = Story("positions_sizes/an_offset_of_n_less_1_in_packed_rings",
                  "The event's offset N - 1 is the last place of a lap in rings of 1, 2, .. 256: it is told in the lap of its wrap counter alone.")
    for size in SIZES:
        in_laps(story, size, [(size - 1, True, True), (size - 1, True, False), (size - 1, False, False), (size - 1, False, True)])
    return story


def named_places(lap):
    """In the lap of the place named: the list before it, one descriptor there, and the list behind it. In the other: a list of all."""
    story = Story(f"positions_sizes/places_{lap}_to_{lap + 63}_of_a_packed_ring_of_64",
                  f"An event names a place from {lap} to {lap + 63}: the service that passes it is told, and none before, behind or in the other lap.")
    queue = Packed(story, "c", 1, 64, low=EVENT_IDX).bring_up()
    queue.put(queue.areas[0], b"".join(queue.entry(Buffer(TEXT, 0, NEXT), 0) for _ in range(64)))
    for place in NAMED:
        name(queue, place, lap == 0)
        for first in (0, 64):
            counts = (place, 1, 63 - place) if first == lap else (64,)
            for at, count in enumerate(counts):
                told = len(counts) == 3 and at == 1
                if count:
                    one_list(queue, count, told)
    return story


def one_list(queue, count, told):
    """A list of so many descriptors of a ring in which each has NEXT; afterwards it is so again."""
    first, last = queue.offered, queue.offered + count - 1
    if count > 1:
        plain(queue, last, 0)
    queue.put_chain([Buffer(TEXT, 0, NEXT if count > 1 else 0)])
    queue.offered = (first + count) % 128
    queue.notify(told=1 if told else 0)
    if told:
        queue.acknowledge()
    for place in {first, last}:
        plain(queue, place, NEXT)


def plain(queue, place, flags):
    """An empty descriptor that isn't offered."""
    queue.put(queue.areas[0] + 16 * (place % 64), queue.entry(Buffer(TEXT, 0, flags), 0))
