"""Each chain of a service: what one of up to 256 is, a fault at one of them, and the place that is to be told."""
from .drivers import EVENT_IDX, FAULT, KINDS, NEXT, SERVED, STATUS, WRITE, Buffer, Packed, Split, number
from .places import TEXT, but, content, places, shown
from .story import BASE, Story

TITLE = "Chains of a service"
HOW = "One of up to 256 chains that are on offer at once is another, at each place."
COLUMNS = ("What", "Where")
FOLDERS = {"positions_chains": "One of many chains of a service is another, at each place."}

PLACES = places(256)
FEW = places(32)
END = BASE + 0x10000


def stories():
    kinds = KINDS.values()
    yield from shown("a fault", "one of 256 split, of 32 packed", (faults_of_a_split_service(), faults_of_a_packed_service()))
    yield from shown("a head outside", "one of 256", [heads_outside()])
    yield from shown("Jump", "each place of a ring of 8", [jumps()])
    yield from shown("how many chains", "1 to 256", [counts_on_offer(), packed_counts()])
    yield from shown("how large a ring", "each size, two rounds and more", [split_sizes(), packed_sizes()])
    yield from shown("used_event", "each of 256 places, before and behind", [used_events()])
    yield from shown("a packed event", "each of 32 places; each of a list's places",
                     [packed_events(), *packed_lists_and_events()])
    yield from shown("a packed event", "each of 256 places of a list", [events_of_a_list_of_256()])
    yield from shown("a receive chain without room", "one of 32", map(one_without_room, kinds))
    yield from shown("a transmit chain without text", "one of 32", map(one_without_text, kinds))
    yield from shown("a request's status", "one of 32", map(statuses, kinds))
    yield from shown("a request's failed call", "one of 32", map(failing, kinds))
    yield from shown("a chain of three", "one of 30", map(one_longer_list, kinds))


def texts_at(queue, count, first=0):
    """One descriptor for each chain: a text of one byte."""
    return [queue.entry(Buffer(TEXT + at, 1, queue.mark(at) if queue.is_packed else 0, 0), 0)
            for at in range(first, first + count)]


def heads(queue, order):
    queue.put(queue.areas[1] + 4, b"".join(number(head, 2) for head in order))


def offered(queue, count):
    """`count` more chains whose heads are on the ring already."""
    queue.offered = (queue.offered + count) % 65536
    queue.put(queue.areas[1] + 2, number(queue.offered, 2))


def faults_of_a_split_service():
    """256 chains on offer, one of them outside memory: those before it are used."""
    story = Story("positions_chains/a_fault_in_one_of_256_split_chains",
                  "The chains before the one with a fault go out and are used, no other.")
    queue = Split(story, "c", 1, 256, low=EVENT_IDX).bring_up()
    queue.put(TEXT, content())
    queue.put(queue.areas[0], b"".join(texts_at(queue, 256)))
    heads(queue, range(256))
    for at, place in enumerate(PLACES):
        if at:
            queue.clear()
            queue.bring_up()
        queue.put(queue.areas[0] + 16 * (place - 1), queue.entry(Buffer(END, 1), 0))
        offered(queue, 256)
        queue.notify(FAULT, content()[:place - 1], told=3 if place > 1 else 2)
        queue.look(queue.areas[2] + 2, 2, number(place - 1, 2))
        queue.look(queue.areas[2] + 4 + 2048, 2, number(place - 1, 2))
        queue.story.read(queue.window, STATUS, 0x4f)
        queue.put(queue.areas[0] + 16 * (place - 1), texts_at(queue, 1, place - 1)[0])
    return story


def heads_outside():
    """One head of 256 is 256, behind the ring's descriptors, where a good one lies."""
    story = Story("positions_chains/a_head_outside_among_256",
                  "One of 256 heads is 256, where a good descriptor lies: the chains before it go out, no other.")
    queue = Split(story, "c", 1, 256, areas=[BASE + 0x1000, BASE + 0x3000, BASE + 0xe000]).bring_up()
    queue.put(TEXT, content())
    queue.put(queue.areas[0], b"".join(texts_at(queue, 257)))
    heads(queue, range(256))
    for at, place in enumerate(PLACES):
        if at:
            queue.clear()
            queue.bring_up()
        queue.put(queue.areas[1] + 2 + 2 * place, number(256, 2))
        queue.offered = 256
        queue.put(queue.areas[1] + 2, number(256, 2) + (number(256, 2) if place == 1 else b""))
        queue.notify(FAULT, content()[:place - 1], told=3 if place > 1 else 2)
        queue.look(queue.areas[2] + 2, 2, number(place - 1, 2))
        queue.put(queue.areas[1] + 2 + 2 * place, number(place - 1, 2))
    return story


def faults_of_a_packed_service():
    story = Story("positions_chains/a_fault_in_one_of_32_packed_lists",
                  "The lists before the one with a fault go out and are used, no other.")
    queue = Packed(story, "c", 1, 32).bring_up()
    queue.put(TEXT, content(32))
    for at, place in enumerate(FEW):
        if at:
            queue.bring_up()
        entries = but(texts_at(queue, 32), place, queue.entry(Buffer(END, 1, queue.mark(0)), 0))
        queue.put(queue.areas[0], b"".join(entries))
        queue.notify(FAULT, content()[:place - 1], told=3 if place > 1 else 2)
        for one in {max(place - 2, 0), place - 1, min(place, 31)}:
            flags = number(0x8080 if one < place - 1 else 0x80, 2)
            queue.look(queue.areas[0] + 16 * one + 14, 2, flags)
        queue.story.read(queue.window, STATUS, 0x4f)
    return story


def jumps():
    """As many chains on offer as the ring has entries, and one more, at places beyond the first."""
    story = Story("positions_chains/one_chain_too_many_at_each_place",
                  "At each place of a ring of 8: 8 chains on offer are served, 9 are a fault.")
    queue = Split(story, "c", 1, 8)
    for place in range(8):
        for count in (8, 9):
            queue.clear()
            queue.put(queue.areas[2] + 2, bytes(2))
            queue.bring_up()
            queue.put(queue.areas[0], queue.entry(Buffer(TEXT, 1), -1))
            if place:
                offered(queue, place)
                queue.notify(output=bytes(place))
            offered(queue, count)
            queue.notify(*((SERVED, bytes(8)) if count == 8 else (FAULT,)))
            queue.look(queue.areas[2] + 2, 2, number(place + (8 if count == 8 else 0), 2))
    return story


def counts_on_offer():
    """n chains on offer at once in a ring of 256, and none twice."""
    story = Story("positions_chains/services_of_1_to_256_chains", "1, 2, .. 256 chains on offer at once are all used, in order.")
    queue = Split(story, "c", 1, 256).bring_up()
    queue.put(TEXT, content())
    queue.put(queue.areas[0], b"".join(texts_at(queue, 256)))
    heads(queue, range(256))
    for count in PLACES:
        first = queue.offered % 256
        offered(queue, count)
        queue.notify(output=(content() + content())[first:first + count])
        queue.look_at_used(0, head=(first + count - 1) % 256)
        queue.acknowledge()
    return story


def packed_counts():
    """n lists of one descriptor at once in a ring of 256."""
    story = Story("positions_chains/packed_services_of_1_to_256_lists",
                  "1, 2, .. 256 lists on offer at once are all used, in order, and told.")
    queue = Packed(story, "c", 1, 256).bring_up()
    queue.put(TEXT, content())
    for count in PLACES:
        queue.put_chain([Buffer(TEXT + at, 1, 0, at) for at in range(count)])
        queue.offered = (queue.offered + count) % 512
        queue.notify(output=content()[:count])
        queue.look_at_used(0, link=count - 1, wrote=False)
        queue.acknowledge()
    return story


def split_sizes():
    """Two rounds of rings of each size, and one chain."""
    story = Story("positions_chains/two_rounds_of_split_rings_of_each_size",
                  "N chains, N more and one more in rings of 1, 2, 4, .. 256: the used idx counts on.")
    for power in range(9):
        queue = Split(story, "c", 1, 2 ** power)
        queue.clear()
        queue.bring_up()
        queue.put(queue.areas[0], queue.entry(Buffer(TEXT, 1), -1))
        for count in (queue.size, queue.size, 1):
            offered(queue, count)
            queue.notify(output=bytes(count))
            queue.look_at_used(0)
            queue.acknowledge()
    return story


def packed_sizes():
    """Four laps of rings of each size, each of one list, and one chain."""
    story = Story("positions_chains/laps_of_packed_rings_of_each_size",
                  "A list of all positions in four laps of rings of 1, 2, .. 256, and one more: each is used, with its lap's flags.")
    for size in PLACES:
        queue = Packed(story, "c", 1, size)
        queue.bring_up()
        queue.put(queue.areas[0],
                  b"".join(queue.entry(Buffer(TEXT, 0, NEXT if at < size - 1 else 0, 7), 0) for at in range(size)))
        for _ in range(4):
            queue.put_chain([Buffer(TEXT, 0, NEXT if size > 1 else 0, 7)])
            queue.offered = (queue.offered + size) % (2 * size)
            queue.notify()
            queue.look_at_used(0, link=7, wrote=False, count=size)
            queue.acknowledge()
        queue.offer([Buffer(TEXT, 1)], link=9)
        queue.notify(output=b"\0")
        queue.look_at_used(0, link=9, wrote=False)
    return story


def used_events():
    """used_event names each place of a service of 256 chains, the one before and the one behind."""
    story = Story("positions_chains/used_event_at_each_of_256_places",
                  "used_event names one of 256 places passed: told. The place before and behind: not.")
    queue = Split(story, "c", 1, 256, low=EVENT_IDX).bring_up()
    queue.put(queue.areas[0], queue.entry(Buffer(TEXT, 0), -1))
    for place in [0, *PLACES, 257, 32768, 32769, 33024, 33025, 65535]:
        named = (queue.offered + place - 1) % 65536
        queue.put(queue.areas[1] + 4 + 512, number(named, 2))
        offered(queue, 256)
        queue.notify(told=1 if 1 <= place <= 256 else 0)
        queue.look(queue.areas[2] + 4 + 2048, 2, number(queue.place, 2))
        queue.acknowledge()
    return story


def packed_events():
    """The driver area names each place of a service of 32 lists, and each that it didn't pass."""
    story = Story("positions_chains/a_packed_event_at_each_of_32_places",
                  "The driver area names one of 32 places passed: told. One of the other 32: not.")
    queue = Packed(story, "c", 1, 32, low=EVENT_IDX).bring_up()
    for place in FEW:
        for far in (False, True):
            now = queue.offered
            named = (now + place - 1 + (32 if far else 0)) % 64
            queue.put(queue.areas[1], number(named % 32 | (0x8000 if named < 32 else 0), 2) + number(2, 2))
            queue.put(queue.areas[0], b"".join(queue.entry(Buffer(TEXT, 0, queue.mark(now)), 0) for _ in range(32)))
            queue.offered = (now + 32) % 64
            queue.notify(told=0 if far else 1)
            queue.acknowledge()
    return story


def events_of_a_list_of_256():
    """A list of all 256 positions passes each place of its lap, and none of the other."""
    story = Story("positions_chains/a_packed_event_in_a_list_of_256",
                  "A list of 256 positions passes each place of its lap: one is named, then in the next lap the same, which isn't passed.")
    queue = Packed(story, "c", 1, 256, low=EVENT_IDX).bring_up()
    queue.put(queue.areas[0], b"".join(queue.entry(Buffer(TEXT, 0, NEXT if at < 255 else 0), 0) for at in range(256)))
    for place in PLACES:
        lap = queue.offered
        queue.put(queue.areas[1], number(place - 1 | (0x8000 if lap < 256 else 0), 2) + number(2, 2))
        for told in (1, 0):
            queue.put_chain([Buffer(TEXT, 0, NEXT)])
            queue.offered = (queue.offered + 256) % 512
            queue.notify(told=told)
            queue.acknowledge()
    return story


def packed_lists_and_events():
    """One list of each length in rings of 5 and 8: all its places were passed, and no other."""
    for size in (5, 8):
        story = Story(f"positions_chains/each_place_of_a_list_in_a_packed_ring_of_{size}",
                      "A list of 1, 2, .. all positions passes each of its places, the skipped ones too, and no other.")
        queue = Packed(story, "c", 1, size, low=EVENT_IDX).bring_up()
        for length in range(1, size + 1):
            for named in range(2 * size):
                passed = [(queue.offered + at) % (2 * size) for at in range(length)]
                queue.put(queue.areas[1], number(named % size | (0x8000 if named < size else 0), 2) + number(2, 2))
                queue.offer([Buffer(TEXT, 0)] * length)
                queue.notify(told=1 if named in passed else 0)
                queue.acknowledge()
        yield story


def one_without_room(kind):
    """A receive chain without room is used with no byte, and the next is filled."""
    story = Story(f"positions_chains/one_{name(kind)}_chain_without_room",
                  "Of 32 receive chains one has no writable byte: what was typed goes into the others.")
    queue = kind(story, "c", 0, 32).bring_up()
    if not queue.is_packed:
        heads(queue, range(32))
    for place in FEW:
        buffers = [Buffer(TEXT + at, 1, WRITE | (queue.mark(queue.offered) if queue.is_packed else 0), 0) for at in range(32)]
        one = buffers[place - 1]
        buffers[place - 1] = Buffer(one.address, 1, one.flags & ~WRITE, 0)
        queue.put(queue.areas[0], b"".join(queue.entry(each, 0) for each in buffers))
        queue.put(TEXT, b"\xee" * 32)
        if queue.is_packed:
            queue.offered = (queue.offered + 32) % 64
        else:
            offered(queue, 32)
        story.type(content(31), took=31, told=1)
        queue.after(SERVED)
        last = place == 32
        queue.look(TEXT, 32, content(31)[:place - 1] + b"\xee" + content(31)[place - 1:])
        if last and not queue.is_packed:
            queue.look(queue.areas[2] + 2, 2, number(queue.place - 1, 2))
            continue
        if queue.is_packed:
            if not last:
                queue.look(queue.areas[0] + 16 * (place - 1) + 8, 4, bytes(4))
                queue.look(queue.areas[0] + 16 * 31 + 8, 4, number(1, 4))
        else:
            at = queue.areas[2] + 4 + 8 * (place - 1)
            queue.look(at, 8, number(place - 1, 4) + bytes(4))
    return story


def name(kind):
    return "packed" if kind.is_packed else "split"


def one_without_text(kind):
    """A transmit chain without a readable byte puts nothing out, and is used."""
    story = Story(f"positions_chains/one_{name(kind)}_chain_without_text",
                  "Of 32 transmit chains one has no readable byte: the others go out.")
    queue = kind(story, "c", 1, 32).bring_up()
    queue.put(TEXT, content(32))
    if not queue.is_packed:
        heads(queue, range(32))
    for place in FEW:
        entries = [queue.entry(Buffer(TEXT + at, 1,
                                      (WRITE if at == place - 1 else 0) | (queue.mark(queue.offered) if queue.is_packed else 0),
                                      0), 0)
                   for at in range(32)]
        queue.put(queue.areas[0], b"".join(entries))
        if queue.is_packed:
            queue.offered = (queue.offered + 32) % 64
        else:
            offered(queue, 32)
        queue.notify(output=content(32)[:place - 1] + content(32)[place:])
    return story


class Flushes:
    """A block queue of 32 flushes, two descriptors each: chain k has a header of its own and a status of its own."""

    def __init__(self, kind, story):
        self.queue = kind(story, "b", 0, 64).bring_up()
        self.header = [TEXT + 0x400 + 16 * at for at in range(32)]

    def serve(self, types, status):
        """32 requests of these types, and what status each must have."""
        queue = self.queue
        queue.put(self.header[0], b"".join(number(one, 16) for one in types))
        queue.put(TEXT, b"\xff" * 32)
        entries = []
        for at in range(32):
            mark = queue.mark(queue.offered) if queue.is_packed else 0
            entries.append(queue.entry(Buffer(self.header[at], 16, NEXT | mark, 0 if queue.is_packed else 2 * at + 1), 0))
            entries.append(queue.entry(Buffer(TEXT + at, 1, WRITE | mark, at if queue.is_packed else 0), 0))
        if queue.is_packed:
            queue.put(queue.areas[0], b"".join(entries))
            queue.offered = (queue.offered + 64) % 128
        else:
            if queue.offered == 0:
                queue.put(queue.areas[0], b"".join(entries))
                heads(queue, [2 * at for at in range(32)] * 2)
            offered(queue, 32)
        queue.notify()
        queue.look(TEXT, 32, bytes(status))


def statuses(kind):
    story = Story(f"positions_chains/one_unknown_type_of_32_{name(kind)}_requests",
                  "Of 32 requests one has a type that is none: it alone is UNSUPP.")
    flushes = Flushes(kind, story)
    for place in FEW:
        flushes.serve(but([4] * 32, place, 11), but([0] * 32, place, 2))
    return story


def failing(kind):
    """Flush k of a service is image call k - 1 of 32."""
    story = Story(f"positions_chains/one_failed_call_of_32_{name(kind)}_requests", "Of 32 flushes one fails: it alone is IOERR.",
                  fails=[32 * at + place - 1 for at, place in enumerate(FEW)])
    flushes = Flushes(kind, story)
    for place in FEW:
        flushes.serve([4] * 32, but([0] * 32, place, 1))
    return story


def one_longer_list(kind):
    """One chain of three descriptors among 29 of one."""
    story = Story(f"positions_chains/one_{name(kind)}_chain_of_three_among_others",
                  "Of 30 transmit chains one has three descriptors: all go out in order.")
    queue = kind(story, "c", 1, 32).bring_up()
    queue.put(TEXT, content(32))
    for place in [one for one in FEW if one <= 30]:
        entries = []
        mark = queue.mark(queue.offered) if queue.is_packed else 0
        for at in range(32):
            joined = place - 1 <= at <= place
            ident = at + 1 if joined or queue.is_packed else 0
            entries.append(queue.entry(Buffer(TEXT + at, 1, (NEXT if joined else 0) | mark, ident), 0))
        queue.put(queue.areas[0], b"".join(entries))
        if queue.is_packed:
            queue.offered = (queue.offered + 32) % 64
        else:
            firsts = [at for at in range(32) if at not in (place, place + 1)]
            queue.put(queue.areas[1] + 4,
                      b"".join(number(firsts[(at - queue.offered) % 32] if (at - queue.offered) % 32 < 30 else 0, 2)
                               for at in range(32)))
            offered(queue, 30)
        queue.notify(output=content(32))
        if queue.is_packed:
            flags = number(0x8080 if mark == 0x80 else 0, 2)
            queue.look(queue.areas[0] + 16 * (place - 1) + 8, 8, bytes(4) + number(place + 2, 2) + flags)
    return story
