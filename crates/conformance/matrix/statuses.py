"""Each status of a window: what two writes make of it, and what it lets the device do."""
import itertools

from .drivers import (ACKNOWLEDGE, DRIVER, DRIVER_FEATURES, DRIVER_OK, DRIVER_SEL, FAILED, FEATURES_OK, NOTHING, QUEUE_READY, SERVED, STATUS,
                      VERSION_1, WRITE, Buffer, Packed, Split)
from .story import BASE, CHANGED, USED, Story

TITLE = "Each status"
HOW = ("The driver's five bits of Status make 32 values. Each is written behind each, and each is a window's status while a queue is made "
       "ready, notified and typed to, and while the console is resized.")
COLUMNS = ("What", "Where")
FOLDERS = {"bits_statuses": "Each status that a driver can write."}

BITS = (ACKNOWLEDGE, DRIVER, DRIVER_OK, FEATURES_OK, FAILED)
EACH = sorted(sum(bits) for count in range(6) for bits in itertools.combinations(BITS, count))
NAMES = {"b": "block", "c": "console"}
ROOM = BASE + 0x8000


def stories():
    for window in NAMES:
        yield written_values(window)
        yield written_twice(window)
        for kind in (Split, Packed):
            yield lets_happen(window, kind)


def story_of(name, window, about, what):
    return Story(f"bits_statuses/{name}_of_a_{NAMES[window]}_window", about, shows=[(what, f"{NAMES[window]} window")])


def written_values(window):
    """All values of a byte, without VERSION_1 and with it."""
    story = story_of("values", window, "each value of a byte is written from a reset on: the driver's bits are kept, FEATURES_OK with "
                     "VERSION_1 alone", "Status written, 1 to 255")
    for has_version in (False, True):
        for value in range(1, 256):
            story.write(window, STATUS, 0)
            if has_version:
                story.write(window, DRIVER_SEL, 1)
                story.write(window, DRIVER_FEATURES, VERSION_1)
            story.write(window, STATUS, value)
            story.read(window, STATUS, value & (0x8f if has_version else 0x87))
    return story


def written_twice(window):
    """Each of the 32, and behind it each but 0: the bits of both stand."""
    story = story_of("pairs", window, "each status is written behind each: the bits of both stand",
                     "Status written twice, each pair of 32 values")
    for first in EACH:
        for second in EACH[1:]:
            story.write(window, STATUS, 0)
            story.write(window, DRIVER_SEL, 1)
            story.write(window, DRIVER_FEATURES, VERSION_1)
            if first:
                story.write(window, STATUS, first)
            story.write(window, STATUS, second)
            story.read(window, STATUS, first | second)
    return story


def lets_happen(window, kind):
    """Each of the 32 in a window whose queues the driver sets up and notifies all the same."""
    name = "packed" if kind.is_packed else "split"
    story = story_of(f"{name}_queues_in_each_status", window,
                     "a queue is made ready with FEATURES_OK, served in a live window, and a resize is told with DRIVER_OK",
                     f"{name} queues in each status")
    story.put(ROOM, b"!")
    for status in EACH:
        queues = [kind(story, window, index, 4, at=BASE + 0x1000 + 0x3000 * index) for index in range(1 if window == "b" else 2)]
        for queue in queues:
            queue.put(queue.areas[0], bytes(64))
            queue.put(queue.areas[1], bytes(4))
        story.write(window, STATUS, 0)
        queues[0].write_features()
        if status:
            story.write(window, STATUS, status)
        for queue in queues:
            queue.make_ready()
            story.read(window, QUEUE_READY, int(bool(status & FEATURES_OK)))
        work(story, window, queues, status)
        story.read(window, STATUS, status)
    return story


def work(story, window, queues, status):
    """What a driver asks for, and what comes of it."""
    is_live = status & (DRIVER_OK | FEATURES_OK | FAILED) == DRIVER_OK | FEATURES_OK
    comes = SERVED if is_live else NOTHING
    queues[-1].offer([Buffer(ROOM, 1, WRITE if window == "b" else 0)])
    queues[-1].notify(comes, output=b"!" if is_live and window == "c" else b"")
    queues[-1].acknowledge()
    if window == "b":
        return
    queues[0].offer([Buffer(ROOM + 16, 4096, WRITE)])
    # What was typed to the windows before waits, until a live one takes it.
    story.type(b"?", told=USED if is_live else 0)
    queues[0].after(comes)
    queues[0].notify(NOTHING)
    queues[0].acknowledge()
    story.resize(0x50, 0x19, told=CHANGED if status & DRIVER_OK else 0)
    queues[0].acknowledge()
    story.write("c", 0x108, 0x2e, output=b".")
