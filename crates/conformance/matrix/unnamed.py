"""Offsets that name no register to write: in each stage of a driver's work they are written, and nothing comes of it."""
from .drivers import (ACKNOWLEDGE, AREAS, DEVICE_SEL, DRIVER, DRIVER_FEATURES, DRIVER_OK, DRIVER_SEL, EVENT_IDX, FEATURES_OK, KINDS,
                      QUEUE_NUM, QUEUE_READY, QUEUE_SEL, SERVED, STATUS, WRITE, Buffer, number)
from .registers import ALL, OFFERED, QUEUES, WINDOWS, WRITABLE
from .story import BASE, CHANGED, USED, Story

TITLE = "Offsets without a register to write"
HOW = ("A driver's work stands still before FEATURES_OK, before QueueReady, or while the window is live. Each control offset that can't be "
       "written is written, each with values in which any register that it stood for would show; or each is written in another width, or "
       "all are read. Then the registers are as before, and what the driver wrote still holds: features, numbers, areas, places.")
COLUMNS = ("What", "Where")
FOLDERS = {"bits_unnamed": "Offsets that name no register to write, in each stage of a driver's work."}

ROOM, NOT_YET = BASE + 0xe000, b"\xee"
# 0 resets and selects; 1 to 3 select, acknowledge and notify; 8 is a number of another ring; 80 fails; then an area inside memory.
VALUES = [0, 1, 2, 3, 8, 0x80, 0x80008000, ALL]
STAGES = ("before_features_ok", "before_queue_ready", "while_live")
CONTROL = range(0, 0x100, 4)
# Written without effect, and the one byte of a configuration that has one.
SHM_SEL, EMERG_WR = 0x0ac, 0x108


def stories():
    for window in WINDOWS:
        for kind in KINDS:
            for stage in STAGES:
                yield unnamed(window, kind, stage)
        for stage in STAGES:
            yield widths(window, stage)
            yield reads(window, stage)


def story_of(what, name, window, stage, about):
    return Story(f"bits_unnamed/{name}_{stage}_of_a_{WINDOWS[window]}_window", about, shows=[(what, stage.replace("_", " "))])


def unnamed(window, kind, stage):
    """One value at all offsets, and then a look; each value in turn."""
    story = story_of("control offsets that can't be written", f"offsets_written_{kind}", window, stage,
                     "a control offset that can't be written says nothing")
    for value in VALUES:
        for takes_back in (False, True) if stage == STAGES[0] else (False,):
            at_work = Stage(story, window, kind, stage, takes_back)
            for offset in CONTROL:
                if offset not in WRITABLE or offset == SHM_SEL:
                    story.write(window, offset, value)
            at_work.goes_on()
    return story


def widths(window, stage):
    """All control offsets in widths 1 and 2, and those between in width 4; the configuration in each width."""
    story = story_of("control offsets of another width, and between; the configuration", "widths", window, stage,
                     "no control offset is written in another width, or beside it, and no configuration")
    for value in (0, 1, 0xff):
        at_work = Stage(story, window, "split", stage, False)
        for offset in range(0x140):
            for width in (1, 2, 4):
                if (width < 4 or offset % 4 or offset >= 0x100) and (window, offset) != ("c", EMERG_WR):
                    story.write(window, offset, value << 8 * (width - 1) | value, width=width)
        at_work.goes_on()
    return story


def reads(window, stage):
    """All offsets are read, which changes nothing."""
    story = story_of("offsets that are read", "reads", window, stage, "no read changes anything")
    at_work = Stage(story, window, "packed", stage, False)
    for offset in range(0x140):
        for width in (1, 2, 4):
            story.read(window, offset, width=width)
    at_work.goes_on()
    return story


class Stage:
    """A driver that stands at a stage, with the device and the driver selectors at 1 and its last queue selected. `takes_back` is one
    that has taken a bit too much, and writes that word of its features once more under the selector that still stands."""

    def __init__(self, story, window, kind, stage, takes_back=False):
        self.story, self.window, self.stage, self.takes_back = story, window, stage, takes_back
        self.queues = [KINDS[kind](story, window, index, 4, EVENT_IDX, at=BASE + 0x1000 + 0x4000 * index)
                       for index in range(QUEUES[window])]
        self.last, self.status = self.queues[-1], ACKNOWLEDGE | DRIVER
        self.set_up()
        if stage != STAGES[0]:
            self.features_ok()
        if stage == STAGES[2]:
            self.go()
            self.serve(self.last, acknowledged=False)
            if window == "c":
                story.resize(0x50, 0x19, told=CHANGED)
            self.offer(self.last)
        self.seen()

    def write(self, offset, value, **said):
        self.story.write(self.window, offset, value, **said)

    def set_up(self):
        """All but what FEATURES_OK and QueueReady do."""
        for value in (0, ACKNOWLEDGE, ACKNOWLEDGE | DRIVER):
            self.write(STATUS, value)
        self.write(DEVICE_SEL, 1)
        self.write(DRIVER_FEATURES, EVENT_IDX)
        self.write(DRIVER_SEL, 1)
        self.write(DRIVER_FEATURES, self.last.high | (1 << 31 if self.takes_back else 0))
        for queue in self.queues:
            for area, length in zip(queue.areas, (64, 16, 48)):
                self.story.put(area, bytes(length))
            self.write(QUEUE_SEL, queue.index)
            self.write(QUEUE_NUM, queue.size)
            for offset, area in zip(AREAS, queue.areas):
                self.write(offset, area)

    def features_ok(self):
        if self.takes_back:
            self.write(DRIVER_FEATURES, self.last.high)
        self.status |= FEATURES_OK
        self.write(STATUS, self.status)
        self.story.read(self.window, STATUS, self.status)

    def go(self):
        """The selected queue is made ready, then the other, and the selector is put back; then the window is live."""
        for queue in reversed(self.queues):
            if queue is not self.last:
                self.write(QUEUE_SEL, queue.index)
            self.write(QUEUE_READY, 1)
            self.story.read(self.window, QUEUE_READY, 1)
        self.write(QUEUE_SEL, self.last.index)
        self.status |= DRIVER_OK
        self.write(STATUS, self.status)

    def seen(self):
        """All that a register shows."""
        story, window = self.story, self.window
        resizes = sum(line.startswith("sz ") for line in story.lines)
        found = {0x000: 0x74726976, 0x004: 2, 0x008: 2 if window == "b" else 3, 0x00c: 0x4f424d56, 0x010: OFFERED[window][1],
                 0x034: 256, 0x044: int(self.stage == STAGES[2]), 0x060: story.words[0, window], 0x070: self.status, 0x0b0: ALL,
                 0x0b4: ALL, 0x0b8: ALL, 0x0bc: ALL, 0x0fc: resizes, 0x100: 8 if window == "b" else 0x190050}
        for offset, value in found.items():
            story.read(window, offset, value)

    def offer(self, queue):
        """One byte, and the event at its place."""
        is_text, place = self.window == "c" and queue.index == 1, queue.place
        if queue.is_packed:
            queue.put(queue.areas[1], number(place % 4 | (0x8000 if place < 4 else 0), 2) + number(2, 2))
        else:
            queue.put(queue.areas[1] + 12, number(place, 2))
        queue.put(ROOM, b"!" if is_text else NOT_YET)
        queue.offer([Buffer(ROOM, 1, 0 if is_text else WRITE)])

    def served(self, queue, acknowledged=True):
        """What was offered is served: a text, what is typed, or a request without a header."""
        if self.window == "c" and queue.index == 0:
            self.story.type(b"?", took=1, told=USED)
            queue.after(SERVED)
        else:
            queue.notify(output=b"!" if self.window == "c" else b"")
        length = 0 if self.window == "c" and queue.index else 1
        queue.look_at_used(length, **({"wrote": length > 0} if queue.is_packed else {}))
        if not queue.is_packed:
            queue.look(queue.areas[2] + 36, 2, number(queue.place, 2))
        if acknowledged:
            queue.acknowledge()

    def serve(self, queue, **said):
        self.offer(queue)
        self.served(queue, **said)

    def goes_on(self):
        """The rest of the work, as if nothing had been written; each ring goes round."""
        self.seen()
        if self.stage == STAGES[2]:
            self.story.look(ROOM, 1, b"!" if self.window == "c" else NOT_YET)
            self.served(self.last)
        else:
            if self.stage == STAGES[0]:
                self.features_ok()
            self.go()
        for queue in self.queues:
            for _ in range(5):
                self.serve(queue)
        self.story.read(self.window, STATUS, self.status)
