"""Sets of features with each request, text and input: none, each, each two, and all but those."""
import itertools

from .by_hand import written_out
from .cuts import LENGTH, SECTORS, Disk, each_type, evenly, pattern
from .drivers import EVENT_IDX, INDIRECT_DESC, KINDS, NOTIFICATION_DATA, NOTIFY, SERVED, WRITE, Buffer, number
from .requests import IN, IOERR, OK, OUT, WRITE_ZEROES, header, segment
from .story import BASE, CHANGED, SECTOR, USED, Slot, Story

TITLE = "Features together"
HOW = ("A driver takes none, one or two of the features that are offered, or all but those. Each type of request, good and refused, stands in few "
       "buffers and in more than SEG_MAX says; texts and typed bytes are as they are with any other features. Over more than 512 chains a driver names "
       "events near and far, in rings of 1 and more.")
COLUMNS = ("What", "With")
FOLDERS = {"together": "Each two features that are offered, taken together and left out together."}

# The low words of what is offered.
SEG_MAX, RO, BLK_SIZE, FLUSH_FEATURE, ZEROES = 1 << 2, 1 << 5, 1 << 6, 1 << 9, 1 << 14
OF_DISK = ["packed", "data", INDIRECT_DESC, EVENT_IDX, SEG_MAX, BLK_SIZE, FLUSH_FEATURE, ZEROES]
OF_CONSOLE = ["packed", "data", INDIRECT_DESC, EVENT_IDX, 1, 4]
ROWS = {"disk": (OF_DISK, "rw"), "read_only_disk": ([*OF_DISK, RO], "ro")}
AREAS = [BASE + 0x1000, BASE + 0x3000, BASE + 0x5000]


def stories():
    yield by_hand()
    for name, (features, mode) in ROWS.items():
        for is_few in (True, False):
            yield shown(f"requests of a {name.replace('_', ' ')}", few(is_few), requests(name, features, mode, is_few))
    for is_few in (True, False):
        yield shown("texts and typed bytes", few(is_few), consoles(is_few))
    for kind, sizes in (("split", (1, 2, 8, 256)), ("packed", (1, 2, 3, 7, 256))):
        yield shown(f"events, {kind}", "520 chains, rings of " + ", ".join(map(str, sizes)), events(kind, sizes))


def shown(what, where, story):
    story.shows = [(what, where)]
    return story


def few(is_few):
    return "none, one, two features" if is_few else "all but none, one, two features"


def sets_of(features, is_few):
    """None of them, each, and each two; or what is left without those."""
    for count in range(3):
        for one in itertools.combinations(features, count):
            yield one if is_few else tuple(feature for feature in features if feature not in one)


def by_hand():
    """A segment with unmap is zeroed for a driver that took WRITE_ZEROES and no FLUSH."""
    return written_out("together/unmap_without_flush_by_hand", "A driver that took WRITE_ZEROES alone has a sector zeroed, with unmap, and reads it.", """
        w 0 b 070 4 00000003 > 0 done - 0 0
        w 0 b 020 4 00004000 > 0 done - 0 0
        w 0 b 024 4 00000001 > 0 done - 0 0
        w 0 b 020 4 00000001 > 0 done - 0 0
        w 0 b 070 4 0000000b > 0 done - 0 0
        w 0 b 038 4 00000004 > 0 done - 0 0
        w 0 b 080 4 80001000 > 0 done - 0 0
        w 0 b 090 4 80002000 > 0 done - 0 0
        w 0 b 0a0 4 80003000 > 0 done - 0 0
        w 0 b 044 4 00000001 > 0 done - 0 0
        w 0 b 070 4 0000000f > 0 done - 0 0
        mw 0 80004000 0d00000000000000000000000000000002000000000000000100000001000000 > 0 done - 0 0
        mw 0 80001000 00400080000000002000000001000100 > 0 done - 0 0
        mw 0 80001010 00600080000000000100000002000000 > 0 done - 0 0
        mw 0 80006000 ff > 0 done - 0 0
        mw 0 80002000 000001000000 > 0 done - 0 0
        w 0 b 050 4 00000000 > 0 done - 1 0
        mr 0 80006000 1 > 0 b:00 - 1 0
        mr 0 80003000 c > 0 b:000001000000000001000000 - 1 0
        mw 0 80004000 00000000000000000200000000000000 > 0 done - 1 0
        mw 0 80005000 eeeeeeee > 0 done - 1 0
        mw 0 80001000 00400080000000001000000001000100 > 0 done - 1 0
        mw 0 80001010 0050008000000000000200000300020000600080000000000100000002000000 > 0 done - 1 0
        mw 0 80002002 02000000 > 0 done - 1 0
        mw 0 80002006 0000 > 0 done - 1 0
        w 0 b 050 4 00000000 > 0 done - 1 0
        mr 0 80006000 1 > 0 b:00 - 1 0
        mr 0 80005000 4 > 0 b:00000000 - 1 0
        """)


# --- queues of drivers that took a set

def words_of(features):
    """The kind of the ring, and the words of the features beside VERSION_1 and RING_PACKED."""
    low = sum(one for one in features if isinstance(one, int))
    return "packed" if "packed" in features else "split", low, 1 | (NOTIFICATION_DATA if "data" in features else 0)


def empties(queue):
    """Nothing is on offer in the areas of a queue."""
    queue.put(queue.areas[1], bytes(4))
    if queue.is_packed:
        queue.clear()


def asks_for_events(queue):
    """With EVENT_IDX in a split ring the next place is the one of which the driver wants to hear."""
    if queue.low & EVENT_IDX and not queue.is_packed:
        queue.put(queue.areas[1] + 4 + 2 * queue.size, number(queue.offered, 2))


def told(queue, comes=SERVED, output=b"", says=USED):
    """A notify, with other bits above the queue's number where NOTIFICATION_DATA says so."""
    queue.write(NOTIFY, queue.index | (0xa5c30000 if queue.high & NOTIFICATION_DATA else 0), told=says, output=output)
    queue.after(comes)


class Chosen(Disk):
    """A disk whose driver took some features; the queue is brought up again for each set."""

    def __init__(self, story, features):
        kind, low, high = words_of(features)
        self.story, self.base, self.turn = story, BASE, 0
        self.queue = KINDS[kind](story, "b", 0, 256, low=low, high=high, areas=list(AREAS))
        empties(self.queue)
        self.queue.bring_up()
        self.queue.notify = lambda: told(self.queue)
        self.room = bytearray(b"\xee" * 0x600)
        self.queue.put(BASE + 0x20000, bytes(self.room))

    def offer(self, buffers, in_table):
        asks_for_events(self.queue)
        return super().offer(buffers, in_table and self.queue.low & INDIRECT_DESC)


def requests(name, features, mode, is_few):
    story = Story(f"together/{name}_with_{'few' if is_few else 'most'}_features", f"Requests of each type, of a driver that took {few(is_few)}.",
                  [Slot(length=LENGTH, mode=mode)], image=b"".join(map(pattern, range(SECTORS))))
    holds = [pattern(sector) for sector in range(SECTORS)]
    for turn, one in enumerate(sets_of(features, is_few)):
        disk = Chosen(story, one)
        disk.holds = holds
        for place, (readable, room, status, fills) in enumerate(each_type(disk)):
            if mode == "ro" and readable[0] in (OUT, WRITE_ZEROES):
                status = IOERR
            disk.request(readable, room, status, fills, in_table=place % 2 == turn % 2)
        # More buffers than SEG_MAX says, and fewer; what a write and unmap leave is read again.
        for count in (126, 127, 129 + turn % 100):
            disk.request(header(IN, turn % 8), SECTOR + 1, OK, holds[turn % 8], room_cuts=evenly(SECTOR + 1, count), in_table=count % 2 == 0)
        content = pattern(turn + 41)
        disk.request(header(OUT, 4) + content, 1, OK if mode == "rw" else IOERR, b"", evenly(16 + SECTOR, 128 + turn % 100), in_table=turn % 2 == 0)
        holds[4] = content if mode == "rw" else holds[4]
        disk.request(header(WRITE_ZEROES) + segment(turn % 4, 1, turn % 2), 1, OK if mode == "rw" else IOERR)
        holds[turn % 4] = bytes(SECTOR) if mode == "rw" else holds[turn % 4]
        disk.request(header(IN, 4), SECTOR + 1, OK, holds[4])
        disk.request(header(IN, turn % 4), SECTOR + 1, OK, holds[turn % 4])
    return story


# --- consoles

def consoles(is_few):
    story = Story(f"together/console_with_{'few' if is_few else 'most'}_features", f"Texts, typed bytes, sizes and emergency bytes, of a driver that took {few(is_few)}.")
    for turn, one in enumerate(sets_of(OF_CONSOLE, is_few)):
        kind, low, high = words_of(one)
        queues = [KINDS[kind](story, "c", index, 8, low, high=high, areas=[BASE + 0x2000 * index + at for at in (0x1000, 0x1400, 0x1800)]) for index in (0, 1)]
        for queue in queues:
            empties(queue)
        queues[0].begin()
        for queue in queues:
            queue.make_ready()
        queues[0].go()
        for place in range(3):
            says(story, queues[1], bytes([0x41 + (turn + at) % 26 for at in range(3 + place)]), place % 2 == 0)
            is_typed(story, queues[0], bytes([0x61 + (turn + at) % 26 for at in range(2 + place)]), place % 2 == 1)
        story.resize(turn + 1, 0x200 + turn, told=CHANGED)
        story.read("c", 0x100, (0x200 + turn) << 16 | turn + 1)
        queues[0].acknowledge()
        for width in (1, 2, 4):
            story.write("c", 0x108, 0x30 + turn, output=bytes([0x30 + turn]), width=width)
    return story


def chain_of(queue, buffers, in_table):
    asks_for_events(queue)
    queue.offer([queue.table(BASE + 0x6000, buffers)] if in_table and queue.low & INDIRECT_DESC else buffers)


def says(story, queue, content, in_table):
    story.put(BASE + 0x8000, content)
    chain_of(queue, [Buffer(BASE + 0x8000, 1), Buffer(BASE + 0x8001, len(content) - 1)], in_table)
    told(queue, output=content)
    queue.acknowledge()


def is_typed(story, queue, content, in_table):
    chain_of(queue, [Buffer(BASE + 0x9000, 1, WRITE), Buffer(BASE + 0x9002, 8, WRITE)], in_table)
    story.type(content, len(content), told=USED)
    queue.after(SERVED)
    story.look(BASE + 0x9002, len(content) - 1, content[1:])
    queue.acknowledge()


# --- events over many chains

def events(kind, sizes):
    story = Story(f"together/{kind}_events_over_520_chains", "A driver that took EVENT_IDX names the place of the next chain, or one near or far from it, for 520 chains.",
                  [Slot(length=LENGTH, identity=b"events" + bytes(14))])
    story.put(BASE + 0x8000, b"t")
    for size in sizes:
        queue = KINDS[kind](story, "c", 1, size, EVENT_IDX, areas=list(AREAS))
        empties(queue)
        queue.bring_up()
        if not queue.is_packed:
            queue.put_chain([Buffer(BASE + 0x8000, 1)])
        for turn in range(520):
            is_next = names_event(queue, turn)
            if queue.is_packed:
                queue.offer([Buffer(BASE + 0x8000, 1)])
            else:
                queue.offer_head(0)
            told(queue, output=b"t", says=USED if is_next else 0)
            if is_next:
                queue.acknowledge()
    return story


def names_event(queue, turn):
    """Whether the event that the driver names is that of the next place: near the multiples of 256 always."""
    away = 0 if (turn + 2) % 256 < 5 else (0, 1, 0, -1, 255, 256, 0, -256, 0x8000, 0, 2)[turn % 11]
    if not queue.is_packed:
        queue.put(queue.areas[1] + 4 + 2 * queue.size, number((queue.place + away) % 65536, 2))
        return away == 0
    place = (queue.place + away) % (2 * queue.size)
    queue.put(queue.areas[1], number(place % queue.size | (0x8000 if place < queue.size else 0), 2) + number(2, 2))
    return place == queue.place
