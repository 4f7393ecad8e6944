"""Features beside one another: each that changes what the device does acts where it was negotiated, whatever else was."""
import itertools

from .drivers import FAULT, NOTHING, NOTIFY, SERVED, WRITE, Buffer, Packed, Split, number
from .story import BASE, USED, Slot, Story

TITLE = "Features beside one another"
HOW = ("A driver negotiates each of INDIRECT_DESC, EVENT_IDX, RING_PACKED and NOTIFICATION_DATA with and without each other feature, all "
       "of the others, and none. The kind of ring, a notify with its upper half set, an event at a place that isn't passed, and a table "
       "tell which of the four the device serves.")
COLUMNS = ("What", "Where")
FOLDERS = {"bits_features": "Features that are negotiated beside one another."}

ROOM, TABLE = BASE + 0x8000, BASE + 0x9000
INDIRECT_DESC, EVENT_IDX, VERSION_1, RING_PACKED, NOTIFICATION_DATA = 28, 29, 32, 34, 38
ACTING = [INDIRECT_DESC, EVENT_IDX, RING_PACKED, NOTIFICATION_DATA]
SEG_MAX, RO, BLK_SIZE, FLUSH, WRITE_ZEROES, SIZE, EMERG_WRITE = 2, 5, 6, 9, 14, 0, 2
OTHERS = {"disk": [SEG_MAX, BLK_SIZE, FLUSH, WRITE_ZEROES], "read_only_disk": [SEG_MAX, RO, BLK_SIZE, FLUSH, WRITE_ZEROES],
          "console": [SIZE, EMERG_WRITE]}


def stories():
    for device in OTHERS:
        yield features(device)


def sets(others):
    """Which features are negotiated: of the four each set, with none and with all of the others; each pair; all but one."""
    every = ACTING + others
    fours = [four for count in range(5) for four in itertools.combinations(ACTING, count)]
    found = fours + [(*four, *others) for four in fours] + [(one,) for one in others]
    found += [(four, one) for four in ACTING for one in others] + [tuple(set(every) - {one}) for one in every]
    return list(dict.fromkeys(tuple(sorted(one)) for one in found))


def features(device):
    """A driver for each set."""
    slot = Slot(mode="ro" if device == "read_only_disk" else "rw")
    story = Story(f"bits_features/features_of_a_{device}_beside_one_another",
                  "INDIRECT_DESC, EVENT_IDX, RING_PACKED and NOTIFICATION_DATA act where they are negotiated, whatever else is.", [slot],
                  shows=[("a feature with and without each other", device.replace("_", " "))])
    story.put(ROOM, b"!")
    for chosen in sets(OTHERS[device]):
        Driver(story, device, chosen).work()
    return story


class Driver:
    """A driver with these features, of a block window's queue or of a console's transmit queue."""

    def __init__(self, story, device, chosen):
        kind = Packed if RING_PACKED in chosen else Split
        window, index = ("c", 1) if device == "console" else ("b", 0)
        bits = sum(1 << one for one in chosen) | 1 << VERSION_1
        self.queue = kind(story, window, index, 4, low=bits & 0xffffffff, high=bits >> 32)
        self.chosen, self.is_console = chosen, device == "console"
        # One byte of a text, or one for a status: a request without a header.
        self.buffer = Buffer(ROOM, 1, 0 if self.is_console else WRITE)
        self.output = b"!" if self.is_console else b""

    def work(self):
        queue = self.queue
        queue.put(queue.areas[0], bytes(64))
        queue.put(queue.areas[1], bytes(4))
        queue.bring_up()
        self.notify_with_data()
        self.event_elsewhere()
        self.table()

    def name(self, place):
        """The event at a place; a packed one counts where EVENT_IDX was negotiated."""
        queue = self.queue
        if queue.is_packed:
            queue.put(queue.areas[1], number(place % 4 | (0x8000 if place < 4 else 0), 2) + number(2, 2))
        else:
            queue.put(queue.areas[1] + 12, number(place, 2))

    def offer(self, buffers):
        if not self.is_console:
            self.queue.put(ROOM, b"!")
        self.queue.offer(buffers)

    def notify_with_data(self):
        """The upper half of QueueNotify says nothing with NOTIFICATION_DATA; without it the value names no queue."""
        queue, has = self.queue, NOTIFICATION_DATA in self.chosen
        self.name(queue.place)
        self.offer([self.buffer])
        queue.write(NOTIFY, queue.index | 0x10000, told=USED if has else 0, output=self.output if has else b"")
        if has:
            queue.after(SERVED)
            queue.notify(NOTHING)
        else:
            queue.notify(output=self.output)
        queue.acknowledge()

    def event_elsewhere(self):
        """A place that isn't passed is named: not told with EVENT_IDX, else told."""
        self.name(self.queue.place + 2)
        self.offer([self.buffer])
        self.queue.notify(output=self.output, told=0 if EVENT_IDX in self.chosen else USED)
        self.queue.acknowledge()

    def table(self):
        """A table with the buffer: served with INDIRECT_DESC, else a fault."""
        queue, has = self.queue, INDIRECT_DESC in self.chosen
        self.name(queue.place)
        self.offer([queue.table(TABLE, [self.buffer])])
        if has:
            queue.notify(output=self.output)
        else:
            queue.notify(FAULT)
