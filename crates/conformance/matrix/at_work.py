"""All that a guest does, with each set of features, on slots of each kind, and once more after a reset."""
import itertools

from .beside import LENGTH, SECTORS, Guest
from .drivers import FAULT, QUEUE_READY, QUEUE_SEL, Buffer, number
from .pairs import ACTING, EVENT_IDX, INDIRECT_DESC, NOTIFICATION_DATA, OTHERS, RING_PACKED
from .story import Slot, Story, plain_image

TITLE = "A guest at work"
HOW = ("A guest puts out and takes texts, resizes, and has a disk read, written, flushed, named and zeroed: with each set of the features that "
       "change what a device does, without and with all others, on slots that differ, and once more after a reset, a fault, or a stop.")
COLUMNS = ("What", "Where")
FOLDERS = {"at_work": "All that a guest does, with each set of features, on slots of each kind, and once more after a reset."}

LENGTHS = [1, 17, 257, 4096]
TABLE = 0x17000


def stories():
    for has_others in (False, True):
        for count in range(len(ACTING) + 1):
            for chosen in itertools.combinations(ACTING, count):
                yield with_features(chosen, has_others)
    for name, slot in SLOTS.items():
        for packed in (False, True):
            yield on_a_slot(name, slot, packed)
    for packed in (False, True):
        yield once_more(packed)


NAMES = {INDIRECT_DESC: "tables", EVENT_IDX: "events", RING_PACKED: "packed_rings", NOTIFICATION_DATA: "notification_data"}


class Worker(Guest):
    """A guest with these of the features; its chains stand in tables, and it names the event, where it may."""

    def __init__(self, story, chosen, has_others=False):
        self.chosen = chosen
        low = sum(1 << one for one in chosen if one < 32)
        others = {window: sum(1 << one for one in OTHERS[device] if has_others) for window, device in (("b", "disk"), ("c", "console"))}
        self.LOW = {window: low | more for window, more in others.items()}
        self.HIGH = 1 | (1 << NOTIFICATION_DATA - 32 if NOTIFICATION_DATA in chosen else 0)
        super().__init__(story, 0, "packed" if RING_PACKED in chosen else "split")

    def offer(self, queue, buffers):
        place = queue.place
        if EVENT_IDX in self.chosen and queue.is_packed:
            queue.put(queue.areas[1], number(place % 4 | (0x8000 if place < 4 else 0), 2) + number(2, 2))
        elif EVENT_IDX in self.chosen:
            queue.put(queue.areas[1] + 12, number(place, 2))
        queue.offer([queue.table(self.base + TABLE, buffers)] if INDIRECT_DESC in self.chosen else buffers)

    def again(self, how):
        """Behind a reset, a fault or a stop of each queue, over rings that are new."""
        for where in (("b", 0), ("c", 1)) if how == "fault" else ():
            self.queues[where].offer([Buffer(self.base - 1, 1)])
            self.queues[where].notify(FAULT)
        for queue in self.queues.values():
            queue.clear()
        if how == "stop":
            self.stop()
        else:
            self.bring_up("bc")
        self.work(LENGTHS[:3])

    def stop(self):
        """Each queue is stopped and made ready again, in its window that stays live."""
        for queue in self.queues.values():
            queue.write(QUEUE_SEL, queue.index)
            queue.write(QUEUE_READY, 0)
            queue.write(QUEUE_READY, 1)
            queue.start_over()


def board(**more):
    return [Slot(**{"length": LENGTH, "count": SECTORS} | more)]


def with_features(chosen, has_others):
    name = "_and_".join(NAMES[one] for one in chosen) or "none"
    others = "all_others" if has_others else "no_others"
    story = Story(f"at_work/with_{name}_and_{others}" if chosen else f"at_work/with_{others}",
                  f"A guest works with {name.replace('_', ' ')} of the four, and {others.replace('_', ' ')}: each record is as with none.", board(),
                  shows=[("a guest's work with each set of four features", others.replace("_", " "))])
    Worker(story, chosen, has_others).work(LENGTHS)
    return story


SLOTS = {"read_only": {"mode": "ro"}, "base_0": {"base": 0}, "base_at_the_end": {"base": (1 << 64) - LENGTH},
         "of_version_2": {"identity": b"vreplay-block" + bytes(7)}, "size_0": {"columns": 0, "rows": 0},
         "largest_size": {"columns": 0xffff, "rows": 0xffff}, "cache_of_1": {}, "last_sectors": {"start": 3}}


def on_a_slot(name, changes, packed):
    story = Story(f"at_work/on_a_slot_{name}_{'packed' if packed else 'split'}", f"A guest works on a slot: {name.replace('_', ' ')}.", board(**changes),
                  cache=1 if name == "cache_of_1" else 8, image=plain_image(SECTORS + 3) if "start" in changes else None,
                  shows=[("a guest's work on a slot", name.replace("_", " "))])
    Worker(story, (RING_PACKED,) if packed else ()).work(LENGTHS)
    return story


def once_more(packed):
    """Its work, a reset of both windows, its work again; the same behind a fault, and behind queues that are stopped."""
    story = Story(f"at_work/once_more_{'packed' if packed else 'split'}", "A guest works as before after a reset, after a fault and a reset, "
                  "and with queues that were stopped.", board(), shows=[("a guest's work once more", "after a reset, a fault, a stop")])
    guest = Worker(story, (RING_PACKED,) if packed else ())
    guest.work(LENGTHS[:3])
    for how in ("reset", "fault", "stop"):
        guest.again(how)
    return story
