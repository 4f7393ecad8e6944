"""What a disk and a console do, in each context: boards, drivers and histories that differ in one thing from a plain one."""
import dataclasses
import typing

import trace_text

from .drivers import (DRIVER_FEATURES, DRIVER_SEL, EVENT_IDX, INDIRECT, INDIRECT_DESC, KINDS, NEXT, NOTIFICATION_DATA, NOTIFY, QUEUE_READY, QUEUE_SEL,
                      STATUS, VERSION_1, WRITE, Buffer, Comes, number)
from .requests import FLUSH, GET_ID, IDENTITY, IN, OUT, WRITE_ZEROES, header, segment
from .story import BASE, CHANGED, SECTOR, USED, Slot, Story, plain_image

TITLE = "Each context"
HOW = ("Requests that are good and that are refused, texts, typed bytes, faults, wanted and unwanted notifications, and registers, each in contexts that differ in one "
       "thing from a plain one: the slot, the features, the ring, how chains stand, what happened before. In each a rule holds as in any other.")
COLUMNS = ("What", "Context")
FOLDERS = {"contexts_requests": "Requests, good and refused, in each context.",
           "contexts_console": "Texts and typed bytes in each context.",
           "contexts_faults": "Faults of chains and rings in each context.",
           "contexts_events": "Wanted and unwanted notifications in each context.",
           "contexts_registers": "Registers, features, status and queues' setup in each context."}

OK, IOERR, UNSUPP = 0, 1, 2
OUTSIDE = 0x30000
HEADER, DATA, ROOM, DONE, TABLE = 0x20000, 0x20800, 0x28000, 0x22000, 0x23000
QUEUES = {("b", 0): 0x1000, ("c", 0): 0x8000, ("c", 1): 0x10000}
SERVED, FAULT, NOTHING = Comes.SERVED, Comes.FAULT, Comes.NOTHING


@dataclasses.dataclass(frozen=True)
class Context:
    """One context: its name, the slot's fields that differ, the driver's choices, and what comes before."""

    name: str
    slot: dict = dataclasses.field(default_factory=dict)
    place: int = 0
    slots: int = 1
    cache: int = 8
    sectors: int = 8
    low: dict = dataclasses.field(default_factory=dict)
    high: int = VERSION_1
    size: int = 8
    form: str = "ring"
    head: int = 0
    falling: bool = False
    before: typing.Optional[typing.Callable] = None
    kinds: tuple = ("split", "packed")
    fails: typing.Optional[list] = None
    acknowledges: bool = True
    windows: str = "bc"
    parts: tuple = ("requests", "console", "faults", "events", "registers")

    @property
    def words(self):
        return self.name.replace("_", " ")


class Guest:
    """The disk and the console of a context, each queue ready; `holds` has a byte for each sector."""

    def __init__(self, story, context, kind):
        self.story, self.context, self.kind = story, context, KINDS[kind]
        self.slot, self.line = context.place, story.slots[context.place]
        self.base, self.may_write = self.line.base, self.line.mode == "rw"
        self.holds = [(0x10 + self.line.start + sector) % 256 for sector in range(self.line.count)]
        self.queues, self.turn, self.lives = {}, 0, dict.fromkeys("bc", 0)
        for (window, index), at in QUEUES.items():
            areas = [self.base + at + more for more in (0, 0x2000, 0x4000)]
            areas = areas[::-1] if context.falling else areas
            low = context.low.get(window, 0) | (INDIRECT_DESC if context.form != "ring" else 0)
            self.queues[window, index] = self.kind(story, window, index, context.size, low, slot=self.slot, areas=areas, high=context.high)
        self.bring_up()

    # --- a driver's steps

    def bring_up(self):
        for window in self.context.windows:
            self.bring_up_window(window)
        if self.context.before:
            self.context.before(self)

    def bring_up_window(self, window):
        queues = [queue for (where, _), queue in self.queues.items() if where == window]
        for queue in queues:
            queue.start_over()
            if self.lives[window]:
                self.take_back(queue)
        self.lives[window] += 1
        queues[0].begin()
        for queue in queues:
            queue.make_ready()
        queues[0].go()

    def take_back(self, queue):
        """What the driver and the device wrote into a queue's areas, but for descriptors that nothing offers."""
        queue.put(queue.areas[1], bytes(4))
        if queue.is_packed:
            queue.clear()
        else:
            queue.put(queue.areas[1] + 4 + 2 * queue.size, bytes(2))
            queue.put(queue.areas[2], bytes(4))

    def chain(self, queue, buffers):
        """Offers a chain as the context has it: in the ring, in a table, or both; how many descriptors of the ring it takes."""
        form = self.context.form
        at = self.base + TABLE + 0x400 * (self.turn % 4)
        if form == "table" or form == "both" and (queue.is_packed or len(buffers) == 1):
            buffers = [self.named(queue.table(at, buffers))]
        elif form == "both":
            buffers = [buffers[0], queue.table(at, buffers[1:])]
        self.turn += 1
        self.wants(queue)
        self.put_chain(queue, buffers)
        return len(buffers)

    def named(self, table):
        """The descriptor of a table, with the id of its chain."""
        return dataclasses.replace(table, link=-1)

    def put_chain(self, queue, buffers):
        if queue.is_packed:
            queue.offer(buffers, link=0x100 + self.turn % 4)
        else:
            queue.offer(buffers, head=self.head(queue, len(buffers)))

    def head(self, queue, count):
        """A head: one that goes round where its chain fits, or the context's."""
        return self.context.head or (queue.offered % queue.size if queue.offered % queue.size + count <= queue.size else 0)

    def wants(self, queue):
        """With EVENT_IDX in a split ring the event is at the place that comes."""
        if not queue.is_packed and queue.low & EVENT_IDX:
            queue.put(queue.areas[1] + 4 + 2 * queue.size, number(queue.offered, 2))

    def notify(self, queue, comes=SERVED, output=b"", told=None):
        if told is None:
            told = {SERVED: USED, FAULT: CHANGED, NOTHING: 0}[comes]
        above = 0xa5c30000 if queue.high & NOTIFICATION_DATA else 0
        queue.write(NOTIFY, above | queue.index, told=told, output=output)
        queue.after(comes)

    def done(self, queue):
        if self.context.acknowledges:
            queue.acknowledge()

    def used(self, queue, length, count, wrote, head=None):
        if queue.is_packed:
            queue.look_at_used(length, link=0x100 + self.turn % 4, wrote=wrote, count=count)
        else:
            queue.look_at_used(length, head=self.last_head(queue, count) if head is None else head)

    def last_head(self, queue, count):
        place = (queue.place - 1) % 65536
        return self.context.head or (place % queue.size if place % queue.size + count <= queue.size else 0)

    def put(self, at, content):
        self.story.put(self.base + at, content, slot=self.slot)

    def look(self, at, content):
        self.story.look(self.base + at, len(content), content, slot=self.slot)

    # --- requests

    def request(self, readable, room, status, fills=b"", cuts=(), first=False):
        """A request of these readable bytes with so much room before its status. `fills` is what is written from the front on: all of it, or its first and
        last bytes where it is long. `cuts` are where the readable bytes are cut; `first` has the status before them."""
        queue, length = self.queues["b", 0], len(fills)
        self.put(HEADER, readable)
        if room and room < 64:
            self.put(ROOM, b"\xee" * room)
        self.put(DONE, b"\xff")
        ends = [0, *cuts, len(readable)]
        buffers = [Buffer(self.base + HEADER + at, end - at) for at, end in zip(ends, ends[1:])]
        there = ([Buffer(self.base + ROOM, room, WRITE)] if room else []) + [Buffer(self.base + DONE, 1, WRITE)]
        count = self.chain(queue, there + buffers if first else buffers + there)
        self.notify(queue)
        self.look(DONE, bytes([status]))
        self.used(queue, room + 1 if length == room else length, count, True)
        if 0 < room < 64:
            self.look(ROOM, fills + b"\xee" * (room - length))
        elif length:
            self.look(ROOM, fills[:4])
            self.look(ROOM + length - 4, fills[-4:])
        self.done(queue)

    def disk(self):
        """Requests of each type, good and refused; then all sectors are read."""
        count, writes = len(self.holds), OK if self.may_write else IOERR
        sector = lambda first, number=1: b"".join(bytes([byte]) * SECTOR for byte in self.holds[first:first + number])
        if count:
            self.request(header(IN), SECTOR, OK, sector(0))
            self.request(header(IN, count - 1, 0x01020304), SECTOR, OK, sector(count - 1), cuts=(1, 15))
            self.request(header(IN, count - 1), 2 * SECTOR, IOERR)
        if count > 2:
            self.request(header(IN, 1), 2 * SECTOR, OK, sector(1, 2), first=True)
        self.request(header(IN, count), 0, OK)
        self.request(header(IN, count + 1), 0, IOERR)
        self.request(header(IN, 1 << 55), SECTOR, IOERR)
        self.request(header(IN), 31, IOERR)
        self.outs(count, writes)
        self.request(header(FLUSH, 1 << 63) + b"more", 0, OK, first=True)
        self.request(header(FLUSH), 24, OK)
        for room in (19, 20, 21):
            self.request(header(GET_ID, 1 << 40), room, IOERR if room < 20 else OK, b"" if room < 20 else self.line.identity or IDENTITY)
        self.zeroes(count, writes)
        for kind in (2, 5, 9, 12, 1 << 31):
            self.request(header(kind, 1 << 63) + b"data", 24, UNSUPP)
        self.request(header(11)[:15], 0, IOERR)
        self.request(header(FLUSH)[:15], 24, IOERR)
        self.no_room()
        if count:
            self.request(header(IN), SECTOR * count, OK, sector(0, count))
        for one in range(count):
            self.look(ROOM + SECTOR * one, bytes([self.holds[one]] * 2))

    def outs(self, count, writes):
        """Writes; a disk that may only be read refuses them all."""
        marks = bytes([0xa0 + self.slot % 16]) * SECTOR
        if count:
            self.request(header(OUT, count - 1) + marks, 0, writes, cuts=(16,))
            self.request(header(OUT, count) + marks, 0, IOERR)
            self.holds[-1] = marks[0] if writes == OK else self.holds[-1]
        self.request(header(OUT, count), 24, writes)
        self.request(header(OUT, count + 1), 0, IOERR)
        self.request(header(OUT) + marks[:31], 0, IOERR)

    def zeroes(self, count, writes):
        """Segments."""
        if count > 1:
            self.request(header(WRITE_ZEROES, 1 << 63) + segment(count - 2, 1, 1) + segment(count, 0), 0, writes, cuts=(16, 24))
            self.holds[-2] = 0 if writes == OK else self.holds[-2]
        self.request(header(WRITE_ZEROES) + segment(count, 0), 24, writes)
        self.request(header(WRITE_ZEROES) + segment(0, 0) + segment(0, 0, 2), 0, UNSUPP if writes == OK else IOERR)
        for data in (b"", segment(0, 0)[:15], segment(0, 0) + b"\0", segment(0, count + 1), segment(count + 1, 0)):
            self.request(header(WRITE_ZEROES) + data, 0, IOERR)

    def no_room(self):
        """Requests without a writable byte: nothing is done."""
        queue = self.queues["b", 0]
        for readable in (header(FLUSH), header(OUT) + b"\xbb" * SECTOR, header(WRITE_ZEROES) + segment(0, 1), b"?"):
            self.put(HEADER, readable)
            count = self.chain(queue, [Buffer(self.base + HEADER, len(readable))])
            self.notify(queue)
            self.used(queue, 0, count, False)
            self.done(queue)

    # --- the console

    def texts(self):
        """Texts in buffers of each kind."""
        queue = self.queues["c", 1]
        self.put(DATA, b"abcdefgh" + b"\xee" * 8)
        for buffers, output in (([(0, 1, 0)], b"a"), ([(0, 3, 0), (3, 0, 0), (5, 2, 0)], b"abcfg"), ([(2, 0, 0)], b""), ([(8, 4, WRITE)], b""),
                                ([(8, 4, WRITE), (4, 4, 0)], b"efgh"), ([(7, 1, 0), (9, 2, WRITE), (0, 8, 0)], b"habcdefgh")):
            count = self.chain(queue, [Buffer(self.base + DATA + at, length, flags) for at, length, flags in buffers])
            self.notify(queue, output=output)
            self.used(queue, 0, count, False)
            self.done(queue)
        self.look(DATA, b"abcdefgh" + b"\xee" * 8)
        for at in (0, 3) if self.context.size > 1 else ():
            self.chain(queue, [Buffer(self.base + DATA + at, 2)])
        if self.context.size > 1:
            if not queue.is_packed and queue.low & EVENT_IDX:
                queue.put(queue.areas[1] + 4 + 2 * queue.size, number(queue.place, 2))
            self.notify(queue, output=b"dede" if self.context.head and not queue.is_packed and self.context.form == "ring" else b"abde")
            self.done(queue)

    def typed(self):
        """Typed bytes in chains that wait, and chains for bytes that wait."""
        queue, story = self.queues["c", 0], self.story
        self.notify(queue, NOTHING)
        for buffers, typed, waits in (([(0, 4, WRITE)], b"pq", 0), ([(0, 1, WRITE), (1, 0, WRITE), (3, 2, WRITE)], b"rstu", 1)):
            self.put(ROOM, b"\xee" * 8)
            count = self.chain(queue, [Buffer(self.base + ROOM + at, length, flags) for at, length, flags in buffers])
            story.type(typed, len(typed), told=USED, slot=self.slot)
            queue.after(SERVED)
            self.used(queue, len(typed) - waits, count, True)
            self.look(ROOM, b"pq\xee\xee\xee\xee\xee\xee" if not waits else b"r\xee\xeest\xee\xee\xee")
            self.done(queue)
        for buffers, length, found in (([(8, 4, 0)], 0, b"\xee"), ([(0, 0, WRITE)], 0, b"\xee"), ([(8, 4, 0), (0, 3, WRITE)], 1, b"u")):
            self.put(ROOM, b"\xee")
            count = self.chain(queue, [Buffer(self.base + ROOM + at, one, flags) for at, one, flags in buffers])
            self.notify(queue)
            self.used(queue, length, count, length > 0)
            self.look(ROOM, found)
            self.done(queue)
        self.notify(queue, NOTHING)
        story.type(b"", 0, slot=self.slot)

    def console(self):
        self.texts()
        self.typed()
        for width in (1, 2, 4):
            self.story.write("c", 0x108, 0x21, output=b"!", width=width, slot=self.slot)
        for offset in (0x109, 0x10a, 0x10b):
            self.story.write("c", offset, 0x21, width=1, slot=self.slot)
        self.texts()

    # --- faults

    def fault(self, window, index, make):
        """A good chain, one with a fault, and a good one: the first alone is served, and the window needs a reset."""
        queue, story = self.queues[window, index], self.story
        if self.context.size > 2:
            self.good(queue)
        before = queue.offered
        self.wants(queue)
        make(self, queue)
        if queue.is_packed:
            queue.offered = (before + 1) % (2 * queue.size)
        served = self.context.size > 2
        if served and not queue.is_packed and queue.low & EVENT_IDX:
            queue.put(queue.areas[1] + 4 + 2 * queue.size, number(queue.place, 2))
        if window == "c" and index == 0:
            story.type(b"xy", 2, told=CHANGED | (USED if served else 0), slot=self.slot)
        else:
            self.notify(queue, FAULT, output=b"g" if served and window == "c" else b"", told=CHANGED | (USED if served else 0))
        if not queue.is_packed:
            queue.look(queue.areas[2] + 2, 2, number(before, 2))
        story.read(window, STATUS, 0x4f, slot=self.slot)
        self.notify(queue, NOTHING)
        story.read("c" if window == "b" else "b", STATUS, 0xf, slot=self.slot)
        if window == "c":
            story.write("c", 0x108, 0x65, output=b"e", slot=self.slot)
        self.bring_up_window(window)
        if window == "c" and index == 0:
            self.take_all(queue, 1 if served else 2)
        if self.context.before:
            self.context.before(self)

    def good(self, queue):
        """A chain of one descriptor that any queue serves."""
        self.put(DATA, b"g")
        self.wants(queue)
        flags = WRITE if (queue.window, queue.index) != ("c", 1) else 0
        self.put_chain(queue, [Buffer(self.base + (ROOM if flags else DATA), 1, flags)])

    def take_all(self, queue, count):
        """What waits is taken."""
        self.wants(queue)
        self.put_chain(queue, [Buffer(self.base + ROOM, 16, WRITE)])
        self.notify(queue)
        self.look(ROOM, b"xy"[2 - count:])
        self.done(queue)

    def faults(self):
        """Each fault that the driver can make, in a queue of each kind by turns."""
        is_packed, has_tables = self.kind.is_packed, self.queues["b", 0].low & INDIRECT_DESC
        made = [range_of(1), range_of(0)]
        if has_tables:
            made += [table_of(length) for length in (0, 8, 24, 4112)] + [table_outside, joined, later_table if is_packed else nested]
        else:
            made += [table_of(16)]
        if not is_packed:
            made += [loop, head_outside, next_outside]
        for turn, make in enumerate(made):
            self.fault(*list(QUEUES)[turn % 3], make)
        if not is_packed:
            self.jump(self.queues["c", 1])

    def jump(self, queue):
        """One chain too many: none is served."""
        self.good(queue)
        queue.put(queue.areas[1] + 2, number((queue.place + queue.size + 1) % 65536, 2))
        self.notify(queue, FAULT)
        queue.look(queue.areas[2] + 2, 2, number(queue.place, 2))
        self.story.read("c", STATUS, 0x4f, slot=self.slot)

    # --- registers

    def registers(self):
        """What a live window's registers tell and take, then those of one that is set up anew."""
        for window in self.context.windows:
            queue = self.queues["b", 0] if window == "b" else self.queues["c", 1]
            self.tells(window, 0xf)
            self.is_fixed(queue)
            self.is_judged(queue)
            self.fails(queue)
            self.begins_anew(queue)

    def write(self, window, offset, value, **said):
        self.story.write(window, offset, value, slot=self.slot, **said)

    def read(self, window, offset, found, **said):
        self.story.read(window, offset, found, slot=self.slot, **said)

    def offered(self, window):
        return 0x30000005 if window == "c" else 0x30004244 if self.may_write else 0x30004264

    def tells(self, window, status):
        """All that a window tells."""
        words, resizes = self.story.words[self.slot, window], sum(line.startswith(f"sz {self.slot:x} ") for line in self.story.lines)
        found = {0x000: 0x74726976, 0x004: 2, 0x008: 2 if window == "b" else 3, 0x00c: 0x4f424d56, 0x020: 0, 0x030: 0, 0x038: 0, 0x050: 0, 0x060: words,
                 0x064: 0, 0x070: status, 0x080: 0, 0x0ac: 0, 0x0b0: 0xffffffff, 0x0b4: 0xffffffff, 0x0b8: 0xffffffff, 0x0bc: 0xffffffff,
                 0x0c0: 0, 0x0fc: resizes if window == "c" else 0}
        for offset, value in found.items():
            self.read(window, offset, value)
        for width in (1, 2):
            self.read(window, 0x070, 0, width=width)
        for select, value in ((2, 0), (0, self.offered(window)), (1, 0x45)):
            self.write(window, 0x014, select)
            self.read(window, 0x010, value)
        for select in (2, 1, 0):
            self.write(window, QUEUE_SEL, select)
            self.read(window, 0x034, 256 if select < (1 if window == "b" else 2) else 0)
        for offset, value in self.configuration(window).items():
            self.write(window, offset, 0xa5a5a5a5)
            self.read(window, offset, value)
            self.read(window, offset, value & 0xffff, width=2)
            self.read(window, offset + 3, value >> 24, width=1)

    def configuration(self, window):
        if window == "b":
            return {0x100: len(self.holds), 0x104: 0, 0x10c: 126, 0x114: 512, 0x130: 65536, 0x134: 32}
        sizes = [line for line in self.story.lines if line.startswith(f"sz {self.slot:x} ")]
        last = trace_text.Line(trace_text.words_of(sizes[-1])) if sizes else None
        columns, rows = (last["columns"], last["rows"]) if last else (self.line.columns, self.line.rows)
        return {0x100: rows << 16 | columns, 0x104: 0, 0x10c: 0}

    def is_fixed(self, queue):
        """Nothing of a ready queue, of a settled driver, or of Status is changed by these."""
        window = queue.window
        self.write(window, QUEUE_SEL, queue.index)
        for offset, value in ((0x038, 2), (0x080, 0), (0x094, 1), (0x0a0, 4), (QUEUE_READY, 1), (QUEUE_READY, 2), (QUEUE_READY, 0x80000000), (DRIVER_SEL, 0),
                              (DRIVER_FEATURES, 0), (STATUS, 0x70), (STATUS, 0x100), (STATUS, 0xffffff00)):
            self.write(window, offset, value)
        self.write(window, STATUS, 0, width=1)
        self.write(window, 0x064, 3, width=2)
        self.read(window, QUEUE_READY, 1)
        self.read(window, STATUS, 0xf)
        self.serves_one(queue)

    def serves_one(self, queue):
        self.good(queue)
        self.notify(queue, output=b"g" if queue.window == "c" else b"")
        self.done(queue)

    def is_judged(self, queue):
        """A stopped queue isn't served, and is made ready with what its kind of ring takes alone."""
        window, (first, second, third) = queue.window, queue.areas
        self.write(window, QUEUE_READY, 0)
        self.read(window, QUEUE_READY, 0)
        self.take_back(queue)
        queue.start_over()
        self.good(queue)
        self.notify(queue, NOTHING)
        end = self.base + OUTSIDE
        for offset, wrong, right in ((0x038, 0, queue.size), (0x038, 257, queue.size), (0x038, 0x10000 + queue.size, queue.size), (0x080, first + 8, first),
                                     (0x080, end - 8, first), (0x090, second + 1, second), (0x090, end, second), (0x0a0, third + 2, third), (0x0a0, end, third)):
            self.write(window, offset, wrong % (1 << 32))
            self.write(window, QUEUE_READY, 1)
            self.read(window, QUEUE_READY, 0)
            self.write(window, offset, right % (1 << 32))
        self.write(window, 0x038, 3)
        self.write(window, QUEUE_READY, 1)
        self.read(window, QUEUE_READY, int(queue.is_packed))
        self.write(window, QUEUE_READY, 0)
        self.write(window, 0x038, queue.size)
        self.write(window, QUEUE_READY, 1)
        self.read(window, QUEUE_READY, 1)
        self.notify(queue, output=b"g" if window == "c" else b"")
        self.done(queue)

    def fails(self, queue):
        """A failed driver's queue isn't served, and no write but 0 takes that back."""
        window = queue.window
        self.write(window, STATUS, 0x80)
        self.write(window, STATUS, 0xf)
        self.read(window, STATUS, 0x8f)
        self.good(queue)
        self.notify(queue, NOTHING)
        queue.offered = queue.place

    def begins_anew(self, queue):
        """A reset forgets all but the size and the generation; then features are refused and taken."""
        window = queue.window
        for offset, value in ((DRIVER_SEL, 1), (0x014, 1), (QUEUE_SEL, queue.index or 7), (STATUS, 0)):
            self.write(window, offset, value)
        self.read(window, 0x010, self.offered(window))
        self.read(window, 0x034, 256)
        self.write(window, QUEUE_SEL, queue.index)
        self.read(window, QUEUE_READY, 0)
        self.notify(queue, NOTHING)
        for low, high, taken in ((None, None, False), (0, 0, False), (8, 1, False), (0, 3, False), (self.offered(window), 0x45, True)):
            self.write(window, STATUS, 0)
            if low is not None:
                self.write(window, DRIVER_FEATURES, low)
                self.write(window, DRIVER_SEL, 1)
                self.write(window, DRIVER_FEATURES, high)
                self.write(window, DRIVER_SEL, 2)
                self.write(window, DRIVER_FEATURES, 0xffffffff)
            self.write(window, STATUS, 0xb)
            self.read(window, STATUS, 0xb if taken else 3)
        self.write(window, QUEUE_SEL, queue.index)
        self.write(window, QUEUE_READY, 1)
        self.read(window, QUEUE_READY, 0)
        self.bring_up_window(window)
        self.serves_one(queue)

    # --- notifications

    def events(self):
        """Wanted and unwanted notifications of the transmit queue, and of a service of nothing."""
        queue = self.queues["c", 1]
        for told, name in (packed_events if queue.is_packed else split_events)(queue):
            name(queue)
            queue.put(queue.areas[2], b"\xee\xee")
            self.empty(queue)
            self.notify(queue, told=told)
            queue.look(queue.areas[2], 2, bytes(2))
            self.closing(queue)
            self.done(queue)
        queue.put(queue.areas[2], b"\xee\xee")
        self.notify(queue, NOTHING)
        queue.look(queue.areas[2], 2, bytes(2))

    def empty(self, queue):
        """A chain of one empty buffer."""
        self.turn += 1
        self.put_chain(queue, [Buffer(self.base + DATA, 0)])

    def closing(self, queue):
        if not queue.is_packed and queue.low & EVENT_IDX:
            queue.look(queue.areas[2] + 4 + 8 * queue.size, 2, number(queue.place, 2))


def split_events(queue):
    """Whether a notification comes, and what the driver writes before."""
    def flags(value):
        return lambda queue: queue.put(queue.areas[1], number(value, 2))

    def event(away, value=0):
        def write(queue):
            queue.put(queue.areas[1], number(value, 2))
            queue.put(queue.areas[1] + 4 + 2 * queue.size, number((queue.place + away) % 65536, 2))
        return write

    if queue.low & EVENT_IDX:
        return [(USED, event(0)), (0, event(1)), (0, event(-1)), (USED, event(0, 1)), (0, event(queue.size)), (0, event(1, 0xfffe)), (0, event(0x8000)),
                (USED, event(0, 0xffff))]
    return [(USED, flags(0)), (0, flags(1)), (USED, flags(2)), (USED, flags(0xfffe)), (0, flags(0xffff)), (0, flags(3)), (USED, flags(0))]


def packed_events(queue):
    def event(away, value, beyond=0):
        def write(queue):
            place = (queue.place + away) % (2 * queue.size)
            named = place % queue.size + beyond | (0x8000 if place < queue.size else 0)
            queue.put(queue.areas[1], number(named, 2) + number(value, 2))
        return write

    exact = [(USED, event(0, 2)), (0, event(1, 2)) if queue.size > 1 else (USED, event(0, 0xfffe)), (0, event(queue.size, 2)), (0, event(-1, 0xfffe)),
             (0, event(0, 2, queue.size)), (0, event(0, 2, 0x4000))]
    if not queue.low & EVENT_IDX:
        exact = [(USED, write) for _, write in exact]
    return [(USED, event(0, 0)), (0, event(0, 1)), *exact, (USED, event(1, 3)), (USED, event(1, 0xfffc)), (0, event(0, 0xfffd)), (USED, event(1, 0))]


# --- chains with a fault

def range_of(length):
    def make(guest, queue):
        guest.put_chain(queue, [Buffer((guest.base - 1 if length else guest.base + OUTSIDE + 1) % (1 << 64), length, WRITE)])
    return make


def table_of(length):
    def make(guest, queue):
        guest.put(TABLE, queue.entry(Buffer(guest.base + DATA, 1, 0), 0) * 2)
        guest.put_chain(queue, [Buffer(guest.base + TABLE, length, INDIRECT)])
    return make


def table_outside(guest, queue):
    guest.put_chain(queue, [Buffer(guest.base + OUTSIDE - 8, 16, INDIRECT)])


def joined(guest, queue):
    guest.put(TABLE, queue.entry(Buffer(guest.base + DATA, 1, 0, 0), 0))
    guest.put_chain(queue, [Buffer(guest.base + TABLE, 16, INDIRECT | NEXT, 0)])


def nested(guest, queue):
    guest.put(TABLE, queue.entry(Buffer(guest.base + TABLE + 16, 16, INDIRECT), 0) + queue.entry(Buffer(guest.base + DATA, 1), 0))
    guest.put_chain(queue, [Buffer(guest.base + TABLE, 16, INDIRECT)])


def later_table(guest, queue):
    """In a packed ring a table behind a plain descriptor."""
    guest.put(TABLE, queue.entry(Buffer(guest.base + DATA, 1, 0, 0), 0))
    if queue.size > 2:
        guest.put_chain(queue, [Buffer(guest.base + DATA, 1), Buffer(guest.base + TABLE, 16, INDIRECT, 0)])
    else:
        guest.put_chain(queue, [Buffer(guest.base + TABLE, 16, INDIRECT | NEXT, 0)])


def loop(guest, queue):
    """A chain that comes back to its head."""
    guest.put_chain(queue, [Buffer(guest.base, 0, NEXT, guest.head(queue, 1))])


def head_outside(guest, queue):
    queue.offer_head(queue.size)


def next_outside(guest, queue):
    guest.put_chain(queue, [Buffer(guest.base, 0, NEXT, queue.size)])


# --- what comes before

def serve_some(count):
    """That many chains of each queue."""
    def before(guest):
        for window, index in guest.queues:
            queue = guest.queues[window, index]
            for _ in range(count if window in guest.context.windows else 0):
                guest.good(queue)
                if index == 0 and window == "c":
                    guest.story.type(b"k", 1, told=USED, slot=guest.slot)
                    queue.after(SERVED)
                else:
                    guest.notify(queue, output=b"g" if window == "c" else b"")
            guest.done(queue)
    return before


def serve_many(count):
    """So many chains of split rings of 256, all of descriptor 0, 256 at once; what is typed waits until a last chain takes it."""
    def before(guest):
        guest.story.type(b"k", 1, slot=guest.slot)
        for queue in guest.queues.values():
            queue.put(queue.areas[0], queue.entry(Buffer(guest.base + DATA, 0), 0))
            for served in range(0, count, 256):
                queue.offered = (queue.offered + min(256, count - served)) % 65536
                queue.put(queue.areas[1] + 2, number(queue.offered, 2))
                if queue.low & EVENT_IDX:
                    queue.put(queue.areas[1] + 4 + 512, number((queue.offered - 1) % 65536, 2))
                guest.notify(queue)
        queue = guest.queues["c", 0]
        guest.good(queue)
        guest.notify(queue)
        for queue in guest.queues.values():
            guest.done(queue)
    return before


def again(times):
    """Reset and brought up so often."""
    def before(guest):
        for _ in range(times):
            for window in guest.context.windows:
                guest.bring_up_window(window)
    return before


def after_faults(guest):
    for (window, index), queue in guest.queues.items():
        if index == len(guest.queues) - 2 or window == "b":
            range_of(1)(guest, queue)
            guest.notify(queue, FAULT)
    again(1)(guest)


def after_failed(guest):
    for window in "bc":
        guest.story.write(window, STATUS, 0x80, slot=guest.slot)
    again(1)(guest)


def stopped(guest):
    """Each queue serves some, is stopped and made ready again."""
    serve_some(3)(guest)
    for queue in guest.queues.values():
        queue.clear()
        if not queue.is_packed:
            queue.put(queue.areas[2], bytes(4))
        queue.write(QUEUE_SEL, queue.index)
        queue.write(QUEUE_READY, 0)
        queue.write(QUEUE_READY, 1)
        queue.start_over()


def both_words(guest):
    """A used buffer of the disk and of the console, and a resize, of which nothing is acknowledged."""
    serve_some(1)(guest)
    guest.story.resize(1, 1, told=CHANGED, slot=guest.slot)


def writes(*pairs):
    """Registers of both windows are written while they are live."""
    def before(guest):
        for window in "bc":
            for offset, value in pairs:
                guest.story.write(window, offset, value, slot=guest.slot)
    return before


def resized(guest):
    guest.story.resize(0x8001, 0x7fff, told=CHANGED, slot=guest.slot)
    guest.done(guest.queues["c", 0])


def emergency(guest):
    guest.story.write("c", 0x108, 0x7e, output=b"~", slot=guest.slot)


def missing(guest):
    for line in ("read", "type"):
        guest.story.read("b", 0x070, slot=200) if line == "read" else guest.story.type(b"no", slot=200)


def failed_read(guest):
    """A read whose image call fails."""
    guest.request(header(IN), SECTOR, IOERR)
    guest.request(header(IN), SECTOR, OK, bytes([guest.holds[0]]) * SECTOR)


def pending(count):
    def before(guest):
        guest.story.type(b"w" * count, count, slot=guest.slot)
    return before


def memory_refused(guest):
    guest.story.look(guest.base + OUTSIDE, 1, "badrange", slot=guest.slot)
    guest.story.put(guest.base + OUTSIDE - 1, b"no", "badrange", slot=guest.slot)


# --- the contexts

ALL = {"b": 0x30004244, "c": 0x30000005}
NO_FAULTS, NO_CONSOLE = ("requests", "console", "events", "registers"), ("requests", "events", "registers")
BOTH_TABLES = INDIRECT_DESC | EVENT_IDX


def both(bits):
    return {"b": bits, "c": bits}


CONTEXTS = [
    Context("plain"),
    # the slot
    Context("slot_1_of_2", place=1, slots=2), Context("slot_17_of_20", place=17, slots=20, slot={"identity": bytes(range(20))}),
    Context("slot_33_of_40", place=33, slots=40, slot={"identity": bytes(range(20, 40))}, parts=("requests", "events")),
    Context("the_last_slot_of_64", place=63, slots=64, slot={"identity": bytes(range(100, 120))}, parts=NO_FAULTS),
    Context("slot_0_of_3", slots=3, parts=NO_FAULTS),
    Context("a_read_only_slot", slot={"mode": "ro"}), Context("an_empty_disk", slot={"count": 0}), Context("a_disk_of_1_sector", slot={"count": 1}),
    Context("a_disk_of_3_sectors_from_5_on", slot={"count": 3, "start": 5}), Context("a_disk_of_17_sectors_from_3_on", slot={"count": 17, "start": 3}, sectors=21),
    Context("a_base_of_0", slot={"base": 0}), Context("a_base_above_2_to_32", slot={"base": 0x123456789a000}),
    Context("a_memory_up_to_2_to_64", slot={"base": (1 << 64) - OUTSIDE}), Context("a_size_of_0", slot={"columns": 0, "rows": 0}, parts=("console",)),
    Context("a_cache_of_1", cache=1), Context("a_cache_of_3", cache=3, parts=("requests",)),
    # the features
    Context("tables_that_may_be_used", low=both(INDIRECT_DESC)), Context("event_idx", low=both(EVENT_IDX)),
    Context("event_idx_and_tables", low=both(BOTH_TABLES), form="table"), Context("notification_data", high=VERSION_1 | NOTIFICATION_DATA),
    Context("notification_data_and_event_idx", low=both(EVENT_IDX), high=VERSION_1 | NOTIFICATION_DATA, parts=("requests", "console", "events")),
    Context("all_features", low=ALL, high=VERSION_1 | NOTIFICATION_DATA),
    Context("all_features_of_a_read_only_slot", slot={"mode": "ro"}, low={"b": 0x30004264, "c": 0x30000005}, high=VERSION_1 | NOTIFICATION_DATA),
    Context("disk_features_alone", low={"b": 0x4244, "c": 0}, parts=("requests",)), Context("size_negotiated", low={"b": 0, "c": 1}, parts=("console",)),
    Context("emergency_write_negotiated", low={"b": 0, "c": 4}, parts=("console",)),
    # how chains stand
    Context("tables", form="table", parts=("requests", "console", "faults", "events")), Context("plain_descriptors_and_tables", form="both", kinds=("split",), parts=("requests", "console", "faults")),
    Context("a_ring_of_1", size=1, form="table"), Context("a_ring_of_2", size=2, form="table"), Context("a_ring_of_3", size=3, form="table", kinds=("packed",)),
    Context("a_ring_of_7", size=7, kinds=("packed",)), Context("a_ring_of_16", size=16, parts=("events", "registers")), Context("a_ring_of_128", size=128, parts=NO_FAULTS), Context("a_ring_of_256", size=256),
    Context("a_ring_of_255", size=255, kinds=("packed",), parts=NO_CONSOLE), Context("heads_from_200_on", size=256, head=200, kinds=("split",), parts=NO_FAULTS),
    Context("areas_in_falling_order", falling=True, parts=NO_FAULTS),
    # what comes before
    Context("the_second_round", before=serve_some(9)), Context("the_third_round", before=serve_some(18), parts=("requests", "console", "events")),
    Context("the_second_round_with_event_idx", low=both(EVENT_IDX), before=serve_some(9), parts=("requests", "console", "events")),
    Context("the_last_positions_of_a_ring_of_64", size=64, before=serve_some(62), parts=("events", "console"), kinds=("packed",)),
    Context("places_from_250_on", size=256, before=serve_many(250), parts=("requests", "console", "events"), kinds=("split",)),
    Context("places_from_32760_on", size=256, before=serve_many(32760), parts=("events",), kinds=("split",)),
    Context("places_from_65530_on", size=256, before=serve_many(65530), parts=("requests", "events"), kinds=("split",)),
    Context("places_from_65530_on_with_event_idx", size=256, low=both(EVENT_IDX), before=serve_many(65530), parts=("events",), kinds=("split",)),
    Context("a_second_life", before=again(1)), Context("a_fourth_life", before=again(3), parts=("events", "registers")), Context("a_life_after_faults", before=after_faults),
    Context("a_life_after_failed", before=after_failed, parts=("events", "registers")), Context("queues_that_were_stopped", before=stopped), Context("queue_1_selected", before=writes((0x030, 1))),
    Context("no_queue_selected", before=writes((0x030, 7))), Context("selectors_at_1", before=writes((0x014, 1), (0x024, 1))),
    Context("shm_selected", before=writes((0x0ac, 0xffffffff)), parts=("events", "registers")),
    Context("a_console_that_was_resized", before=resized), Context("emergency_bytes_before", before=emergency, parts=("console", "registers")),
    Context("events_of_a_missing_slot_before", before=missing), Context("a_memory_event_that_was_refused", before=memory_refused, parts=("requests", "console")),
    Context("a_failed_image_call_before", before=failed_read, fails=[0], parts=("requests", "events")),
    Context("typed_bytes_that_wait", before=pending(300), parts=NO_CONSOLE), Context("input_that_is_full", before=pending(4096), parts=NO_CONSOLE),
    Context("interrupts_that_are_never_acknowledged", acknowledges=False),
    Context("words_of_both_windows_set", before=both_words, acknowledges=False, parts=NO_CONSOLE), Context("a_disk_alone", windows="b", parts=("requests",)),
    Context("a_console_alone", windows="c", parts=("console", "events")),
]


# Contexts in which all parts have rings of both kinds; in the others all but notifications have them by turns.
IN_BOTH = {"plain", "all_features", "the_second_round"}


def stories():
    for at, context in enumerate(CONTEXTS):
        for part in context.parts:
            for kind in context.kinds if part == "events" or context.name in IN_BOTH else [context.kinds[at % len(context.kinds)]]:
                yield of_context(context, kind, part)


PARTS = {"requests": ("Requests, good and refused", Guest.disk), "console": ("Texts and typed bytes", Guest.console),
         "faults": ("Faults of chains", Guest.faults), "events": ("Wanted and unwanted notifications", Guest.events),
         "registers": ("Registers, features, status and queues' setup", Guest.registers)}


def of_context(context, kind, part):
    about, work = PARTS[part]
    others = dict(length=0x1000, start=0, count=0) | ({"identity": bytes(20)} if "identity" in context.slot else {})
    slots = [Slot(**{"length": OUTSIDE} | context.slot) if place == context.place else Slot(**others) for place in range(context.slots)]
    image = plain_image(context.sectors) if context.sectors != 8 else None
    story = Story(f"contexts_{part}/{kind}_{context.name}", f"{about}: {context.words}.", slots, context.cache, image, context.fails, shows=[(part, context.words)])
    work(Guest(story, context, kind))
    return story
