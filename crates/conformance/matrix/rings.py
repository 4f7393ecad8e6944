"""Each bit of the available ring's idx and flags, of used_event, and of a packed queue's driver event suppression; and of what the
device counts: used idx and avail_event."""
from .drivers import EVENT_IDX, FAULT, KINDS, SERVED, WRITE, Buffer, Packed, Split, number
from .story import BASE, CHANGED, USED, Story

TITLE = "Counters and event suppression"
HOW = ("One chain is offered again and again. The available idx tells how many are served, or is the fault Jump. Of the flags, "
       "used_event, and a packed queue's event area each bit decides whether a notification is told, or doesn't.")
FOLDERS = {"bits_idx": "Each bit of the available idx, and of what the device counts.",
           "bits_events": "Each bit of what a driver says of notifications."}
UNSEEN = [("used entry's len", "18..31", "A read of 2^18 bytes wants an image of 513 sectors or more, and a text as long; "
           "`reads/split_reads_of_128_to_257_sectors` and `reads/packed_reads_of_128_to_257_sectors` show those below."),
          ("used entry's id, split ring", "16..31", "A head is below 256, so they are 0: `bits_links/heads_in_a_ring_of_256_of_disk`.")]

ROOM = BASE + 0x8000
ALL = 0xffff


class Disk:
    """Each chain is one byte for a status: the request has no header."""

    NAME, WINDOW, INDEX, FLAGS = "disk", "b", 0, WRITE

    @staticmethod
    def serve(queue, count, told):
        queue.notify(told=told)


class Transmit:
    """Each chain is a byte of output."""

    NAME, WINDOW, INDEX, FLAGS = "transmit", "c", 1, 0

    @staticmethod
    def serve(queue, count, told):
        queue.notify(output=b"\xee" * count, told=told)


class Receive:
    """Each chain takes a typed byte."""

    NAME, WINDOW, INDEX, FLAGS = "receive", "c", 0, WRITE

    @staticmethod
    def serve(queue, count, told):
        queue.story.type(b"\xee" * count, count, told=told)
        queue.after(SERVED)


VEHICLES = (Disk, Transmit, Receive)


def stories():
    for vehicle in VEHICLES:
        for size in (256, 4):
            yield available_idx(vehicle, size)
    yield counters()
    for vehicle in VEHICLES:
        yield available_flags(vehicle)
        yield available_flags_with_event_idx(vehicle)
        yield used_event(vehicle)
        yield packed_flags(vehicle)
        yield packed_flags_without_event_idx(vehicle)
        for size in (256, 5):
            yield packed_place(vehicle, size)
        yield packed_offsets_of_no_place(vehicle)
        yield split_passed(vehicle)
        yield packed_passed(vehicle)
    for vehicle in VEHICLES:
        yield split_positions(vehicle)
        yield packed_positions(vehicle)
    for kind in KINDS:
        yield used_lens(kind)


def up(story, vehicle, kind, size, low=0):
    """A queue whose every chain is one byte; bytes of ones stand around what the device reads."""
    queue = kind(story, vehicle.WINDOW, vehicle.INDEX, size, low).bring_up()
    queue.put(ROOM, b"\xee")
    if kind is Split:
        queue.put_chain([Buffer(ROOM, 1, vehicle.FLAGS, 0)])
        queue.put(queue.areas[1] + 6 + 2 * size, b"\xff" * 8)
    else:
        queue.put(queue.areas[1] + 4, b"\xff" * 8)
    queue.put(queue.areas[1] - 8, b"\xff" * 8)
    return queue


def offer(queue, vehicle, count=1):
    """So many chains on offer."""
    if queue.is_packed:
        queue.offer([Buffer(ROOM, 1, vehicle.FLAGS)])
    else:
        queue.offered = (queue.offered + count) % 65536
        queue.put(queue.areas[1] + 2, number(queue.offered, 2))


# --- counters

def available_idx(vehicle, size):
    """From place 0 and from a place of its own, each idx that differs in one bit."""
    story = Story(f"bits_idx/available_idx_in_a_ring_of_{size}_of_{vehicle.NAME}",
                  f"each bit of the available idx counts, in a ring of {size}", shows=[("available idx", "0..15")])
    queue = up(story, vehicle, Split, size)
    for start in (0, 0x5a % size):
        for bit in range(16):
            if start:
                offer(queue, vehicle, start)
                vehicle.serve(queue, start, USED)
            count = ((start ^ 1 << bit) - start) % 65536
            offer(queue, vehicle, count)
            if count <= size:
                vehicle.serve(queue, count, USED)
                queue.look(queue.areas[2] + 2, 2, number(start + count, 2))
            else:
                jump(queue, vehicle)
                queue.look(queue.areas[2] + 2, 2, number(start, 2))
            queue.put(queue.areas[2] + 2, bytes(2))
            queue.bring_up_again()
    return story


def jump(queue, vehicle):
    if vehicle is Receive:
        queue.story.type(b"", 0, told=CHANGED)
        queue.after(FAULT)
    else:
        queue.notify(FAULT)


def counters():
    """256 services of 256 chains each."""
    story = Story("bits_idx/used_idx_and_avail_event_over_65536_chains", "each bit of the used idx, of avail_event and of used_event, up to where they wrap",
                  shows=[("used idx", "0..15"), ("avail_event", "0..15"), ("used_event", "0..15")])
    queue = Split(story, "c", 1, 256, EVENT_IDX).bring_up()
    queue.put_chain([Buffer(ROOM, 0, 0, 0)])
    for service in range(256):
        first = 256 * service
        event = (first + 0x5a) ^ (1 << service % 17 & ALL)
        queue.put(queue.areas[1] + 4 + 512, number(event, 2))
        offer(queue, Transmit, 256)
        told = (event - first) % 65536 < 256
        queue.notify(told=USED if told else 0)
        if service & service + 1 == 0 or service in (0x55, 0xaa, 0xfe):
            queue.look(queue.areas[2] + 2, 2, number(first + 256 & ALL, 2))
            queue.look(queue.areas[2] + 4 + 8 * 256, 2, number(first + 256 & ALL, 2))
        if told:
            queue.acknowledge()
    return story


# --- what a driver says of notifications

def one(queue, vehicle, told):
    """A service of one chain, and whether it is told."""
    offer(queue, vehicle)
    vehicle.serve(queue, 1, USED if told else 0)
    if told:
        queue.acknowledge()


def available_flags(vehicle):
    story = Story(f"bits_events/available_flags_of_{vehicle.NAME}", "bit 0 of the available flags decides, and no other bit",
                  shows=[("available ring's flags", "0..15")])
    queue = up(story, vehicle, Split, 4)
    for flags in [0] + [1 << bit for bit in range(16)] + [ALL ^ 1 << bit for bit in range(16)] + [ALL]:
        queue.put(queue.areas[1], number(flags, 2))
        one(queue, vehicle, not flags & 1)
    return story


def available_flags_with_event_idx(vehicle):
    story = Story(f"bits_events/available_flags_of_{vehicle.NAME}_with_event_idx", "with EVENT_IDX no bit of the available flags decides",
                  shows=[("available ring's flags, with EVENT_IDX", "0..15")])
    queue = up(story, vehicle, Split, 4, EVENT_IDX)
    for flags in [0] + [1 << bit for bit in range(16)] + [ALL]:
        queue.put(queue.areas[1], number(flags, 2))
        for event in (queue.place, queue.place + 2):
            queue.put(queue.areas[1] + 12, number(event & ALL, 2))
            one(queue, vehicle, event == queue.place)
    return story


def used_event(vehicle):
    story = Story(f"bits_events/used_event_of_{vehicle.NAME}", "each bit of used_event decides", shows=[("used_event", "0..15")])
    queue = up(story, vehicle, Split, 4, EVENT_IDX)
    for bit in range(16):
        for turned in (1 << bit, 0):
            queue.put(queue.areas[1] + 12, number(queue.place ^ turned, 2))
            one(queue, vehicle, not turned)
    return story


def packed_flags(vehicle):
    story = Story(f"bits_events/packed_flags_of_{vehicle.NAME}", "the low two bits of the packed flags decide, and no other bit",
                  shows=[("event suppression's flags", "0..15")])
    queue = up(story, vehicle, Packed, 5, EVENT_IDX)
    for low in range(4):
        for bit in range(1, 16):
            for is_named in (True, False) if low == 2 else (True,):
                flags = low | (1 << bit & ~3)
                put_event(queue, named(queue, queue.place if is_named else queue.place + 1), flags)
                one(queue, vehicle, {0: True, 1: False, 2: is_named, 3: True}[low])
    return story


def packed_flags_without_event_idx(vehicle):
    story = Story(f"bits_events/packed_flags_of_{vehicle.NAME}_without_event_idx", "without EVENT_IDX flags of 1 alone mean no notification",
                  shows=[("event suppression's flags, without EVENT_IDX", "0..15")])
    queue = up(story, vehicle, Packed, 5)
    for low in range(4):
        for bit in (0, 2, 3, 7, 8, 15):
            put_event(queue, named(queue, queue.place + 1), low | (1 << bit & ~3))
            one(queue, vehicle, low != 1)
    return story


def named(queue, place):
    """The number that names a place."""
    place %= 2 * queue.size
    return place | 0x8000 if place < queue.size else place - queue.size


def put_event(queue, place, flags):
    queue.put(queue.areas[1], number(place, 2) + number(flags, 2))


def packed_place(vehicle, size):
    """The place of each service, and those that differ from it in one bit."""
    story = Story(f"bits_events/packed_place_in_a_ring_of_{size}_of_{vehicle.NAME}",
                  f"each bit of a packed queue's event offset and its wrap decide, in a ring of {size}",
                  shows=[("event suppression's offset", "0..14"), ("event suppression's wrap", "15")])
    queue = up(story, vehicle, Packed, size, EVENT_IDX)
    if size == 256:
        skip(queue, vehicle, 0x5a)
    for bit in range(16):
        for turned in (1 << bit, 0):
            put_event(queue, named(queue, queue.place) ^ turned, 2)
            one(queue, vehicle, not turned)
    for _ in range(2 * size if size == 5 else 4):
        # An offset of N or more whose number would be the place.
        put_event(queue, queue.place | 0x8000 if queue.place >= size else queue.place + size, 2)
        one(queue, vehicle, False)
    return story


def skip(queue, vehicle, count):
    """A list of so many positions, all but the last empty."""
    queue.offer([Buffer(ROOM, 0, vehicle.FLAGS)] * (count - 1) + [Buffer(ROOM, 1, vehicle.FLAGS)])
    vehicle.serve(queue, 1, USED)
    queue.acknowledge()


def packed_offsets_of_no_place(vehicle):
    """Services of place 0 and of place N. With wrap 0 and with wrap 1 the offset N would be these, but it names none."""
    story = Story(f"bits_events/packed_offsets_of_no_place_of_{vehicle.NAME}", "each bit of an offset of N or more counts, in rings of some sizes",
                  shows=[("event suppression's offset", "0..8, of N or more")])
    queue = up(story, vehicle, Packed, 24, EVENT_IDX)
    for size in (24, 96, 192):
        if size > 24:
            queue.clear()
            queue.size = size
            queue.bring_up_again()
        for wrap in (0, 0x8000):
            put_event(queue, size | wrap, 2)
            one(queue, vehicle, False)
            put_event(queue, named(queue, queue.place), 2)
            skip(queue, vehicle, size - 1)
    return story


def split_passed(vehicle):
    """Services of 2^k chains: the last place of each is in it, the one behind it and those 2^k places on aren't."""
    story = Story(f"bits_events/split_places_passed_of_{vehicle.NAME}", "each bit of how many places a split service passes",
                  shows=[("places passed, split", "0..8"), ("used idx", "0..9"), ("avail_event", "0..9")])
    queue = up(story, vehicle, Split, 256, EVENT_IDX)
    for bit in range(9):
        for count, event, told in ((1 << bit, (1 << bit) - 1, True), (1 << bit, 1 << bit, False), (1, 1 << bit, False)):
            queue.put(queue.areas[1] + 4 + 512, number(queue.place + event & ALL, 2))
            offer(queue, vehicle, count)
            vehicle.serve(queue, count, USED if told else 0)
            # The used idx and avail_event.
            queue.look(queue.areas[2] + 2, 2, number(queue.place, 2))
            queue.look(queue.areas[2] + 4 + 8 * 256, 2, number(queue.place, 2))
            if told:
                queue.acknowledge()
    return story


def packed_passed(vehicle):
    """The same with lists of 2^k positions, all but the last empty."""
    story = Story(f"bits_events/packed_places_passed_of_{vehicle.NAME}", "each bit of how many places a packed service passes",
                  shows=[("places passed, packed", "0..8")])
    queue = up(story, vehicle, Packed, 256, EVENT_IDX)
    for bit in range(9):
        for count, event, told in ((1 << bit, (1 << bit) - 1, True), (1 << bit, 1 << bit, False), (1, 1 << bit, False)):
            put_event(queue, named(queue, queue.place + event), 2)
            queue.offer([Buffer(ROOM, 0, vehicle.FLAGS)] * (count - 1) + [Buffer(ROOM, 1, vehicle.FLAGS)])
            vehicle.serve(queue, 1, USED if told else 0)
            if told:
                queue.acknowledge()
    return story


# --- positions in rings

def order(lap):
    """An order of all 256 numbers, another one for each lap."""
    return [(at * 5 + 0x33 + lap) % 256 ^ 0x96 for at in range(256)]


def in_order(queue, vehicle, numbers):
    """What is served in this order is seen in it: the output, or where each typed byte lies, or the used entries alone."""
    if vehicle is Transmit:
        queue.notify(output=bytes(numbers))
    elif vehicle is Receive:
        typed = bytes(range(256))
        queue.story.type(typed, 256, told=USED)
        queue.after(SERVED)
        queue.look(ROOM, 256, bytes(numbers.index(which) for which in range(256)))
    else:
        queue.notify()


def split_positions(vehicle):
    """256 heads in two orders."""
    story = Story(f"bits_idx/positions_of_split_rings_of_{vehicle.NAME}", "each position of both rings of 256 entries is another one",
                  shows=[("position in the available ring", "0..7"), ("position in the used ring", "0..7")])
    queue = Split(story, vehicle.WINDOW, vehicle.INDEX, 256).bring_up()
    queue.put(ROOM, bytes(range(256)))
    queue.put_chain([Buffer(ROOM + which, 1, vehicle.FLAGS, 0) for which in range(256)])
    for lap in range(2):
        heads = order(lap)
        queue.put(queue.areas[1] + 4, b"".join(number(head, 2) for head in heads))
        offer(queue, vehicle, 256)
        in_order(queue, vehicle, heads)
        length = 0 if vehicle is Transmit else 1
        queue.look(queue.areas[2] + 4, 2048, b"".join(number(head, 4) + number(length, 4) for head in heads))
    return story


def packed_positions(vehicle):
    """256 lists of one in two laps, with an id and a byte of their own."""
    story = Story(f"bits_idx/positions_of_a_packed_ring_of_{vehicle.NAME}", "each position of a packed ring of 256 descriptors is another one",
                  shows=[("position in the packed ring", "0..7")])
    queue = Packed(story, vehicle.WINDOW, vehicle.INDEX, 256).bring_up()
    queue.put(ROOM, bytes(range(256)))
    for lap in range(2):
        which = order(lap)
        queue.put_chain([Buffer(ROOM + one, 1, vehicle.FLAGS, one ^ 0x55) for one in which])
        queue.offered = (queue.offered + 256) % 512
        in_order(queue, vehicle, which)
        flags = (0x8080 if lap == 0 else 0) | (0 if vehicle is Transmit else WRITE)
        length = 0 if vehicle is Transmit else 1
        queue.look(queue.areas[0], 4096, b"".join(
            number(ROOM + one, 8) + number(length, 4) + number(one ^ 0x55, 2) + number(flags, 2) for one in which))
    return story


def used_lens(kind):
    """2^k typed bytes come to a buffer that has room for all."""
    story = Story(f"bits_idx/used_len_of_{kind}_input", "each bit of how many typed bytes a buffer took is told", shows=[(f"used entry's len, {kind}", "0..12")])
    queue = KINDS[kind](story, "c", 0, 4).bring_up()
    for count in [1 << bit for bit in range(13)] + [0xfff ^ 1 << bit for bit in range(12)]:
        queue.offer([Buffer(ROOM, 4096, WRITE)])
        story.type(bytes([count % 251]) * count, count, told=USED)
        queue.after(SERVED)
        queue.look_at_used(count)
    return story
