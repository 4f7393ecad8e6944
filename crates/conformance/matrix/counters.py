"""What counts, and what a device may count, 256 and 65,536 times: a counter of 8 or of 16 bits begins again there."""
from .by_hand import written_out
from .drivers import (ACKNOWLEDGE, DRIVER, DRIVER_FEATURES, DRIVER_OK, DRIVER_SEL, EVENT_IDX, FAULT, FEATURES_OK,
                      INDIRECT_DESC, KINDS, QUEUE_NUM, QUEUE_READY, SERVED, STATUS, VERSION_1, WRITE, Buffer, Packed,
                      Split, number)
from .places import HEADER, ROOM, STATUS_BYTE, TEXT, content, shown
from .requests import FLUSH, GET_ID, IN, OUT, header
from .segments import IOERR, OK
from .story import BASE, SECTOR, USED, Slot, Story, plain_image

TITLE = "Counters of 8 and of 16 bits"
HOW = ("Each thing that a device counts, or may count, is done 256 times, where it is quick 65,536 times, and a few times "
       "less and more: what comes of it is each time the same.")
COLUMNS = ("What", "How often")
FOLDERS = {"counters": "The 256th and the 65,536th of each thing, and those beside it."}

BYTE, HALF = 1 << 8, 1 << 16
# A slot of version 2: the gate replays such a trace in that version alone.
SLOT = Slot(identity=b"counted" + bytes(13))


def stories():
    yield from shown("resizes", "256 and 257, by hand", [the_256th_resize()])
    for window in "bc":
        yield from shown("resets of a window", "255, 256, 257", [resets(window)])
    yield from shown("resets of a window", "65,536", [many_resets(), the_last_of_many_resets()])
    yield from shown("resizes", "255 to 257, 65,535 to 65,537", [resizes()])
    yield from shown("services of nothing", "256, 65,536", map(services_of_nothing, KINDS.values()))
    yield from shown("services, chains, inputs and bytes of input", "65,536 and one more, split", [inputs()])
    yield from shown("input that is dropped", "65,536 bytes", [dropped()])
    yield from shown("requests", "65,536 in services of 256", [requests()])
    yield from shown("reads of a kept sector", "256, 65,536", [kept(BYTE), kept(HALF)])
    yield from shown("laps of a packed ring", "256 and more, 65,536 places", map(laps, (2, 3, 255)))
    yield from shown("laps, services, lists, inputs and bytes of input", "65,536 and two more, packed", [laps_of_one()])
    yield from shown("faults", "257", map(faults, KINDS.values()))
    yield from shown("failed calls of the image", "256", [failures()])
    yield from shown("stops of a queue", "255, 256, 257", map(stops, KINDS.values()))
    yield from shown("stops of a queue", "65,536", [many_stops()])
    yield from shown("emergency writes", "65,537", [emergency_writes()])
    yield from shown("chains before a fault", "65,537", [a_fault_across_the_end()])
    yield from shown("used_event of 0", "the first and the second lap of 16 bits", [used_event_of_0()])


def the_256th_resize():
    """255 resizes before DRIVER_OK, which nobody is told of, and two behind it."""
    return written_out("counters/the_256th_resize", "The 256th resize is counted and told as the first one.", """
        sz 0 50 19 > 0 done - 0 0
        r 0 c 0fc 4 > 0 v:00000001 - 0 0
        254 * sz 0 50 19 > 0 done - 0 0
        r 0 c 0fc 4 > 0 v:000000ff - 0 0
        w 0 c 070 4 00000004 > 0 done - 0 0
        sz 0 51 1a > 0 done - 0 2
        r 0 c 0fc 4 > 0 v:00000100 - 0 2
        r 0 c 100 4 > 0 v:001a0051 - 0 2
        w 0 c 064 4 00000002 > 0 done - 0 0
        sz 0 1 2 > 0 done - 0 2
        r 0 c 0fc 4 > 0 v:00000101 - 0 2
        r 0 c 100 4 > 0 v:00020001 - 0 2
        """)


def story_of(name, about, **more):
    return Story(f"counters/{name}", about, [SLOT], **more)


def again(story, count, once):
    """Does something so many times, of which each leaves all as the first did."""
    at = len(story.lines)
    once()
    story.lines += story.lines[at:] * (count - 1)
    story.said += story.said[at:] * (count - 1)


# --- resets

def lived(story, window):
    """A life of a window that leaves nothing as a reset does: features, selectors, addresses, an interrupt, a place."""
    queue = Split(story, window, window == "c", 4, low=INDIRECT_DESC)
    queue.start_over()
    queue.clear()
    queue.write(STATUS, ACKNOWLEDGE)
    queue.write(STATUS, ACKNOWLEDGE | DRIVER)
    queue.write_features()
    queue.write(STATUS, ACKNOWLEDGE | DRIVER | FEATURES_OK)
    queue.make_ready()
    queue.go()
    works(queue)
    queue.write(0x014, 1)
    return queue


def works(queue):
    """A chain is served, and used."""
    if queue.window == "b":
        queue.put(HEADER, header(FLUSH))
        queue.put(STATUS_BYTE, b"\xff")
        queue.offer([Buffer(HEADER, 16), Buffer(STATUS_BYTE, 1, WRITE)])
        queue.notify()
        queue.look(STATUS_BYTE, 1, bytes([OK]))
        queue.look_at_used(1, **({"count": 2} if queue.is_packed else {}))
    else:
        queue.put(TEXT, b"t")
        queue.offer([Buffer(TEXT, 1)])
        queue.notify(output=b"t")
        queue.look_at_used(0, **({"wrote": False} if queue.is_packed else {}))


def is_new(queue):
    """What is read of a window after a reset; a notify does nothing."""
    story, window = queue.story, queue.window
    for offset, found in ((STATUS, 0), (QUEUE_READY, 0), (0x060, 0), (0x034, 256),
                          (0x010, 0x30004244 if window == "b" else 0x30000005)):
        story.read(window, offset, found)
    story.write(window, STATUS, FEATURES_OK)
    story.read(window, STATUS, 0)
    queue.offer_head(0)
    queue.write(0x050, queue.index)
    queue.look(queue.areas[2] + 2, 2, number(1, 2))


def is_empty(queue):
    """Each register that isn't written again is 0: the features, the selectors, the size and the addresses."""
    story, window = queue.story, queue.window
    story.write(window, STATUS, ACKNOWLEDGE | DRIVER | FEATURES_OK)
    story.read(window, STATUS, ACKNOWLEDGE | DRIVER)
    story.write(window, DRIVER_SEL, 1)
    story.write(window, DRIVER_FEATURES, VERSION_1)
    story.write(window, STATUS, FEATURES_OK)
    story.read(window, STATUS, ACKNOWLEDGE | DRIVER | FEATURES_OK)
    queue.write(0x030, queue.index)
    registers = [(QUEUE_NUM, queue.size), *zip((0x080, 0x090, 0x0a0), queue.areas)]
    for offset, value in registers:
        queue.write(QUEUE_READY, 1)
        story.read(window, QUEUE_READY, 0)
        queue.write(offset, value)
    queue.clear()
    queue.start_over()
    queue.write(QUEUE_READY, 1)
    story.read(window, QUEUE_READY, 1)
    queue.write(STATUS, DRIVER_OK)
    works(queue)
    # A table is a fault: INDIRECT_DESC wasn't asked for again.
    queue.offer([queue.table(BASE + 0x8000, [Buffer(TEXT, 1)])])
    queue.notify(FAULT)
    story.read(window, STATUS, 0x4f)


def resets(window):
    story = story_of(f"resets_of_a_{'block' if window == 'b' else 'console'}_window",
                     "After 255, 256 and 257 resets in a row nothing of the life before is left.")
    for count in (BYTE - 1, BYTE, BYTE + 1):
        queue = lived(story, window)
        again(story, count, lambda: queue.write(STATUS, 0))
        is_new(queue)
        is_empty(queue)
        queue.write(STATUS, 0)
    return story


def many_resets():
    """A device that marks what it keeps by the number of resets, of 16 bits, finds the first life's again."""
    story = story_of("resets_65536_behind_a_life", "After 65,536 resets in a row nothing of the life before is left.")
    queue = lived(story, "c")
    again(story, HALF - 1, lambda: queue.write(STATUS, 0))
    is_new(queue)
    queue.write(STATUS, 0)
    is_new(queue)
    is_empty(queue)
    return story


def the_last_of_many_resets():
    """Those from the 254th and from the 65,534th since the board was made."""
    story, done = story_of("resets_65536_with_a_life_before_the_last",
                           "The 256th reset and the 65,536th, and those beside them, clear what every reset clears."), 0
    for most in (BYTE, HALF):
        again(story, most - 3 - done, lambda: story.write("b", STATUS, 0))
        for _ in range(5):
            queue = lived(story, "b")
            queue.write(STATUS, 0)
            is_new(queue)
        done = most + 2
    is_empty(queue)
    return story


# --- resizes and services

def resizes():
    story = story_of("resizes", "Each of 65,537 resizes is told, and counted by the generation; then columns and rows change alone.")
    story.write("c", STATUS, DRIVER_OK)
    done = 0
    for count in (1, BYTE - 1, BYTE, BYTE + 1, HALF - 1, HALF, HALF + 1):
        if count - 1 > done:
            again(story, count - 1 - done, lambda: story.resize(0x50, 0x19, told=2))
        story.write("c", 0x064, 2)
        story.resize(count % HALF, count // BYTE, told=2)
        done = count
        story.read("c", 0x0fc, count)
        story.read("c", 0x100, count // BYTE << 16 | count % HALF)
        story.read("b", 0x0fc, 0)
    for cols, rows in ((7, 8), (7, 9), (6, 9)):
        story.resize(cols, rows, told=2)
        story.read("c", 0x100, rows << 16 | cols)
    story.read("c", 0x100, 6, width=2)
    story.resize(4, 5, told=2)
    story.read("c", 0x102, 5, width=2)
    return story


def services_of_nothing(kind):
    """Notifies of a queue with nothing on offer: each closes the queue, and tells nobody. Those near 256 and 65,536 have
    a chain each."""
    story = story_of(f"{'packed' if kind.is_packed else 'split'}_services_of_nothing",
                     "Chains behind 253 services of nothing, and behind 65,533, are served and told, one by one.")
    done = 0
    queue = kind(story, "c", 1, 4, low=EVENT_IDX).bring_up()
    for most in (BYTE,) if kind.is_packed else (BYTE, HALF):
        again(story, most - 6 - done, lambda: queue.write(0x050, 1))
        for _ in range(3):
            queue.put(queue.areas[2], b"\xee\xee")
            queue.write(0x050, 1)
            queue.look(queue.areas[2], 2, bytes(2))
        for _ in range(5):
            if not kind.is_packed:
                queue.put(queue.areas[1] + 12, number(queue.offered, 2))
            works(queue)
            queue.acknowledge()
        done = most + 2
    return story


def inputs():
    """A byte typed for each chain of a ring of 256: a service, a chain and a used entry each, and 256 rounds."""
    story = story_of("split_inputs",
                     "65,537 bytes are typed one by one, each into a chain of its own: only those at place 0 are told.")
    queue = Split(story, "c", 0, 256, low=EVENT_IDX).bring_up()
    queue.put(queue.areas[0], b"".join(queue.entry(Buffer(TEXT + at, 1, WRITE), at) for at in range(256)))
    queue.put(queue.areas[1] + 4, b"".join(number(head, 2) for head in range(256)))
    for rounds in range(1, 257):
        queue.put(queue.areas[1] + 2, number(256 * rounds % HALF, 2))
        queue.offered = 256 * rounds % HALF
        typed = bytes([rounds % 251])
        if rounds == 1:
            story.type(typed, took=1, told=USED)
            queue.acknowledge()
        again(story, 256 - (rounds == 1), lambda: story.type(typed, took=1))
        queue.after(SERVED)
        if rounds in (1, 2, 128, 255, 256):
            queue.look_at_used(1, head=255)
            queue.look_at_used(1, head=0, back=256)
            queue.look(TEXT, 256, typed * 256)
    # Place 0 again, which used_event still names.
    queue.offered = 1
    queue.put(queue.areas[1] + 2, number(1, 2))
    story.type(b"!", took=1, told=USED)
    queue.after(SERVED)
    queue.look_at_used(1, head=0)
    queue.look(TEXT, 2, b"!" + bytes([256 % 251]))
    return story


def dropped():
    """What finds no room is gone, however much it is; then 65,536 bytes are taken."""
    story = story_of("input_that_is_dropped",
                     "65,536 bytes are typed at once and 65,536 more find no room: 4096 wait. Then 65,536 are taken in "
                     "order.")
    queue = Split(story, "c", 0, 4).bring_up()
    story.type(bytes(at % 251 for at in range(HALF)), took=4096)
    again(story, BYTE, lambda: story.type(b"\xee" * BYTE, took=0))
    waits, count = bytes(at % 251 for at in range(4096)), 4096
    for turn in range(17):
        size = 1 if turn == 0 else 4096 if turn < 16 else 4095
        queue.offer([Buffer(BASE + 0x8000, size, WRITE)])
        queue.notify()
        queue.look_at_used(size)
        queue.look(BASE + 0x8000, size, waits[:size])
        text = bytes((count + at) % 241 for at in range(size))
        story.type(text, took=size)
        waits, count = waits[size:] + text, count + size
    return story


def used_event_of_0():
    """used_event names place 0: it is passed in the first service, and where 16 bits begin again."""
    story = story_of("used_event_of_0",
                     "used_event is 0: the service that passes place 0 is told, in the first and in the second lap, "
                     "and no other.")
    queue = Split(story, "c", 1, 256, low=EVENT_IDX).bring_up()
    queue.put(TEXT, content())
    queue.put(queue.areas[0], b"".join(queue.entry(Buffer(TEXT + at, 1), at) for at in range(256)))
    queue.put(queue.areas[1] + 4, b"".join(number(head, 2) for head in range(256)))
    for count, told in [(1, 1), (1, 0), (254, 0), *[(256, 0)] * 254, (255, 0), (1, 0), (1, 1), (1, 0), (253, 0),
                        *[(256, 0)] * 255, (255, 1)]:
        first, queue.offered = queue.offered % BYTE, (queue.offered + count) % HALF
        queue.put(queue.areas[1] + 2, number(queue.offered, 2))
        queue.notify(told=told, output=(content() * 2)[first:first + count])
        if told:
            queue.acknowledge()
    queue.look(queue.areas[2] + 2, 2, number(254, 2))
    return story


def a_fault_across_the_end():
    """65,534 chains are served. The next service passes places 65,534, 65,535 and 0, and its fourth chain is a fault."""
    story = story_of("a_fault_across_65536",
                     "A service that passes the place behind 65,535 ends in a fault: what it passed is used and told.")
    queue = Split(story, "c", 1, 256, low=EVENT_IDX).bring_up()
    queue.put(TEXT, content())
    queue.put(queue.areas[0], b"".join(queue.entry(Buffer(TEXT + at, 1), at) for at in range(256)))
    queue.put(queue.areas[1] + 4, b"".join(number(head, 2) for head in range(256)))
    for count in (256,) * 255 + (254,):
        first, queue.offered = queue.offered % BYTE, (queue.offered + count) % HALF
        queue.put(queue.areas[1] + 2, number(queue.offered, 2))
        queue.notify(told=int(first == 0 and queue.offered == 256), output=(content() * 2)[first:first + count])
    queue.acknowledge()
    queue.put(queue.areas[1] + 4 + 2, number(256, 2))
    queue.put(queue.areas[1] + 2, number(2, 2))
    queue.notify(FAULT, content()[254:256] + content()[:1], told=3)
    story.read("c", STATUS, 0x4f)
    queue.look(queue.areas[2] + 2, 2, number(1, 2))
    queue.look(queue.areas[2] + 4 + 8 * 256, 2, number(1, 2))
    return story


# --- requests

# Where the four requests of a service lie, and what they say.
CHAINS = {0: (IN, 3), 4: (OUT, 5), 8: (FLUSH, 0), 12: (GET_ID, 0)}


def requests():
    """Services of 256 requests, 64 of each of four types; each has a buffer and a status of its own."""
    story = story_of("requests",
                     "65,536 requests in services of 256: a read, a write, a flush and an identity in turn.",
                     image=plain_image())
    queue = disk(story, CHAINS)
    for turn in range(256):
        marked = bytes([turn % 251 + 1]) * SECTOR
        if turn in (0, 1, 127, 254, 255):
            queue.put(ROOM, b"\xee" * SECTOR + marked + b"\xee" * 20)
            queue.put(STATUS_BYTE, b"\xff" * 16)
        serve(queue, 256)
        if turn in (0, 1, 127, 254, 255):
            queue.look(ROOM, SECTOR, b"\x13" * SECTOR)
            queue.look(ROOM + 2 * SECTOR, 20, SLOT.identity)
            queue.look(STATUS_BYTE, 16, (b"\0" + b"\xff" * 3) * 4)
            for back, head, length in ((4, 0, 513), (3, 4, 1), (2, 8, 1), (1, 12, 21)):
                queue.look_at_used(length, head=head, back=back)
    image = bytearray(plain_image())
    image[5 * SECTOR:6 * SECTOR] = bytes([255 % 251 + 1]) * SECTOR
    story.leaves = (bytes(image), HALF // 2)
    return story


def disk(story, chains):
    """A disk whose ring of 256 offers these chains in turn: their heads, types and sectors."""
    queue = Split(story, "b", 0, 256).bring_up()
    for turn, (head, (kind, sector)) in enumerate(chains.items()):
        queue.put(HEADER + 16 * turn, header(kind, sector))
        data = {IN: [Buffer(ROOM, SECTOR, WRITE)], OUT: [Buffer(ROOM + SECTOR, SECTOR)],
                GET_ID: [Buffer(ROOM + 2 * SECTOR, 20, WRITE)]}.get(kind, [])
        queue.offered = queue.place
        chain = [Buffer(HEADER + 16 * turn, 16), *data, Buffer(STATUS_BYTE + head, 1, WRITE)]
        queue.put(queue.areas[0] + 16 * head,
                  b"".join(queue.entry(Buffer(one.address, one.length, one.flags | (at < len(chain) - 1)), head + at)
                                                       for at, one in enumerate(chain)))
    heads = list(chains)
    queue.put(queue.areas[1] + 4, b"".join(number(heads[at % len(heads)], 2) for at in range(256)))
    return queue


def serve(queue, count):
    """So many more of the chains on the ring, of which the driver is told."""
    queue.offered = (queue.offered + count) % HALF
    queue.put(queue.areas[1] + 2, number(queue.offered, 2))
    queue.acknowledge()
    queue.notify()


def kept(most):
    """Sector 6 is read, then sectors 0 to 5 until a counter of reads has begun again: sector 7 takes 6's room."""
    story = story_of(f"kept_sectors_{most}",
                     f"Of seven kept sectors one is read first, then the others, {most:,} times: it is dropped for "
                     "another one, and read anew by call 8.",
                     cache=7, fails=[8])
    queue, times = disk(story, {0: (IN, 6), 4: (IN, 0), 8: (IN, 7)}), most // 6 + 1
    queue.put(queue.areas[0] + 16 * 5 + 8, number(6 * SECTOR, 4))

    def read(head, count=1):
        queue.put(queue.areas[1] + 4, number(head, 2) * 256)
        for at in range(0, count, 256):
            serve(queue, min(256, count - at))
    read(0)
    read(4, times)
    read(8)
    read(4)
    queue.look(STATUS_BYTE + 4, 1, bytes([OK]))
    queue.look(ROOM + 5 * SECTOR, 2, b"\x15\x15")
    queue.put(STATUS_BYTE, b"\xff")
    read(0)
    queue.look(STATUS_BYTE, 1, bytes([IOERR]))
    return story


def failures():
    """256 flushes fail in one service; what comes behind is tried all the same."""
    story = story_of("failed_flushes",
                     "256 flushes fail, one after another: each request is IOERR, and the next one is tried.",
                     fails=[*range(256), 257])
    queue = disk(story, {8: (FLUSH, 0), 0: (IN, 3)})
    queue.put(queue.areas[1] + 4, number(8, 2) * 256)
    serve(queue, 256)
    queue.look(STATUS_BYTE + 8, 1, bytes([IOERR]))
    for status in (OK, IOERR, OK):
        queue.put(STATUS_BYTE + 8, b"\xff")
        serve(queue, 1)
        queue.look(STATUS_BYTE + 8, 1, bytes([status]))
    queue.put(queue.areas[1] + 4, number(0, 2) * 256)
    serve(queue, 1)
    queue.look(ROOM, 2, b"\x13\x13")
    story.leaves = (plain_image(), 259)
    return story


# --- laps, faults, stops

def laps(size):
    """Lists of a whole ring, whose first descriptor alone is offered anew, in 513 laps: a ring of 255 has 65,536 places
    in 257 of them."""
    story = story_of(f"laps_of_a_packed_ring_of_{size}",
                     "Lists of a whole ring are served in each of many laps: the wrap counter turns with each.")
    queue = Packed(story, "c", 1, size).bring_up()
    queue.put(TEXT, bytes(range(1, 9)))
    queue.put_chain([Buffer(TEXT + at % 8, int(at < 2), int(at < size - 1), 0x700 + at) for at in range(size)])
    for turn in range(513):
        if turn:
            queue.put_chain([Buffer(TEXT, 1, 1)])
        queue.offered = (queue.offered + size) % (2 * size)
        queue.acknowledge()
        queue.notify(output=b"\1\2")
        queue.look_at_used(0, link=0x700 + size - 1, wrote=False, count=size)
    return story


def laps_of_one():
    """A byte typed for each list of a ring of one: a service, a used entry and a lap each, which near 256 and 65,536 are
    looked at one by one."""
    story = story_of("laps_of_a_packed_ring_of_1",
                     "65,538 bytes are typed one by one, each into the one descriptor of a ring, which is a lap each.")
    queue, done = Packed(story, "c", 0, 1).bring_up(), 2

    def two():
        for _ in range(2):
            queue.offer([Buffer(TEXT, 1, WRITE)])
            story.type(b"t", took=1, told=USED)
    two()
    for most in (BYTE, HALF):
        again(story, (most - 4 - done) // 2, two)
        for turn in range(6):
            queue.offer([Buffer(TEXT, 1, WRITE)], link=turn)
            queue.acknowledge()
            story.type(bytes([turn]), took=1, told=USED)
            queue.after(SERVED)
            queue.look_at_used(1, link=turn)
            queue.look(TEXT, 1, bytes([turn]))
        done = most + 2
    return story


def faults(kind):
    story = story_of(f"{'packed' if kind.is_packed else 'split'}_faults",
                     "257 faults, each in another life of the window: each is told, and what stands before it is "
                     "served.")
    queue = kind(story, "c", 1, 4)
    queue.put(TEXT, b"t")
    for turn in range(BYTE + 1):
        queue.start_over()
        queue.clear()
        queue.bring_up()
        queue.offer([Buffer(TEXT, 1)], **({} if kind.is_packed else {"head": 0}))
        queue.offer([Buffer(0, 1)], **({} if kind.is_packed else {"head": 1}))
        queue.notify(FAULT, b"t", told=3)
        story.read("c", STATUS, 0x4f)
    return story


def stops(kind):
    """A queue is stopped and made ready in a row, and near the 256th time between chains."""
    story = story_of(f"{'packed' if kind.is_packed else 'split'}_stops",
                     "A queue is stopped and made ready up to 257 times: it begins at place 0, with its last size and areas.")
    queue = kind(story, "c", 1, 4).bring_up()
    again(story, BYTE - 4, lambda: starts(queue))
    for _ in range(5):
        begins_anew(queue)
    for count in (BYTE - 1, BYTE, BYTE + 1):
        again(story, count - 1, lambda: starts(queue))
        begins_anew(queue)
        queue.write(QUEUE_READY, 0)
        story.read("c", QUEUE_READY, 0)
        queue.offer([Buffer(TEXT, 1)])
        queue.write(0x050, 1)
        queue.size = 8 if queue.size == 4 else 4
        queue.write(QUEUE_NUM, queue.size)
        queue.areas = [at ^ 0x8000 for at in queue.areas]
        for offset, at in zip((0x080, 0x090, 0x0a0), queue.areas):
            queue.write(offset, at)
        queue.clear()
        queue.write(QUEUE_READY, 1)
        queue.start_over()
        for _ in range(9):
            works(queue)
    return story


def many_stops():
    """A device that marks a place by the number of starts, of 16 bits, finds the first one's again."""
    story = story_of("stops_65536", "A queue is stopped and made ready 65,536 times: it begins at place 0.")
    queue = Split(story, "c", 1, 4).bring_up()
    for _ in range(3):
        works(queue)
    again(story, HALF - 1, lambda: starts(queue))
    for _ in range(2):
        begins_anew(queue)
    return story


def starts(queue):
    queue.write(QUEUE_READY, 0)
    queue.write(QUEUE_READY, 1)


def begins_anew(queue):
    """Behind a stop and a start the queue is at place 0."""
    starts(queue)
    queue.clear()
    queue.start_over()
    queue.story.read("c", QUEUE_READY, 1)
    for _ in range(5):
        works(queue)


def emergency_writes():
    story = story_of("emergency_writes", "65,537 bytes go out by emergency writes, one by one.")
    again(story, HALF, lambda: story.write("c", 0x108, 0x61, output=b"a"))
    story.write("c", 0x108, 0x62, output=b"b")
    return story
