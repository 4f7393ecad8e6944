"""Rules that meet in one event, where a device may keep the one and lose the other."""
from .drivers import (
    ACKNOWLEDGE, DRIVER, DRIVER_FEATURES, DRIVER_OK, DRIVER_SEL, EVENT_IDX, FAILED, FAULT, FEATURES_OK, INDIRECT_DESC, KINDS, STATUS,
    VERSION_1, WRITE, Buffer, Split, number,
)
from .story import BASE, USED, Slot, Story
from .sums import AREAS, BASE as LARGE, HEADER, LAST, LENGTH, SLOT
from .vehicles import FLUSH

TITLE = "Rules that meet"
HOW = "Two rules hold of one event at once."
FOLDERS = {"meetings": "Two rules at once."}
COLUMNS = ("What meets", "Shown of it")

# Bits of Status that no write sets.
UNSET = (16, 32, 64, 1 << 8, 1 << 16, 1 << 31)


def stories():
    for window in "bc":
        yield bits_that_are_not_set(window)
    for kind in KINDS:
        yield used_area_before_a_service(kind)
    for more in (0, 1):
        yield buffers_before_a_table(more)
    for size in (1, 4, 8):
        for place in range(2):
            yield used_event_off_four(size, place)
    yield used_event_elsewhere()
    for kind in KINDS:
        yield last_byte_at_each_place(kind)


def bits_that_are_not_set(window):
    """Each ignored bit of Status beside one that the write sets."""
    story = Story(f"meetings/status_bits_of_{'block' if window == 'b' else 'console'}", "a bit that a write doesn't set keeps none of the others from it",
                  shows=[("an ignored bit of Status, and one that is set", f"each, of {'a block' if window == 'b' else 'a console'} window")])
    for ignored in UNSET:
        story.write(window, STATUS, 0)
        status = 0
        for bit in (ACKNOWLEDGE, DRIVER, FEATURES_OK, DRIVER_OK, FAILED):
            if bit == FEATURES_OK:
                story.write(window, DRIVER_SEL, 1)
                story.write(window, DRIVER_FEATURES, VERSION_1)
            status |= bit
            story.write(window, STATUS, ignored | bit)
            story.read(window, STATUS, status)
    return story


def used_area_before_a_service(kind):
    """What stands in the device's area when its queue becomes ready stays there until a service."""
    story = Story(f"meetings/{kind}_area_of_a_new_queue", "a queue that becomes ready, or is stopped, writes nothing",
                  shows=[("a queue becomes ready", f"its device area stays, {kind}")])
    queue = KINDS[kind](story)
    content = bytes(range(1, 7)) + b"\xff" * 34 if kind == "split" else bytes(range(1, 5)) + b"\xff" * 4
    story.put(queue.areas[2], content)
    queue.start_over()
    queue.begin()
    queue.make_ready()
    story.look(queue.areas[2], len(content), content)
    queue.go()
    story.look(queue.areas[2], len(content), content)
    story.write("b", 0x044, 0)
    story.look(queue.areas[2], len(content), content)
    story.write("b", 0x044, 1)
    story.look(queue.areas[2], len(content), content)
    return story


def buffers_before_a_table(more):
    """Plain buffers and those of a split table behind them are too long together alone."""
    story = Story(f"meetings/a_split_table_behind_long_buffers_{'one_byte_too_many' if more else 'all_bytes'}",
                  "the bytes of plain buffers count with those of the table behind them", [SLOT],
                  shows=[("bytes of a chain", f"plain buffers and a table, 2^32 {'bytes' if more else '- 1 bytes'}")])
    queue = Split(story, "b", 0, 32, low=INDIRECT_DESC, areas=AREAS).bring_up()
    queue.put(HEADER, FLUSH)
    queue.put(LAST, b"\xee")
    plain = [Buffer(HEADER, 16)] + [Buffer(LARGE, LENGTH, WRITE)] * 14
    left = (1 << 32) - 1 - 16 - 14 * LENGTH
    entries = [Buffer(LARGE, LENGTH, WRITE), Buffer(LARGE, left - 1 - LENGTH, WRITE), Buffer(LAST, 1, WRITE)]
    table = queue.table(LARGE + 0x2000, entries + [Buffer(LARGE, 1, WRITE)] * more)
    queue.offer([*plain, table])
    if more:
        queue.notify(FAULT)
        story.read("b", STATUS, ACKNOWLEDGE | DRIVER | FEATURES_OK | DRIVER_OK | 64)
    else:
        queue.notify()
        story.read("b", STATUS, ACKNOWLEDGE | DRIVER | FEATURES_OK | DRIVER_OK)
    story.look(LAST, 1, b"\xee" if more else b"\0")
    return story


def used_event_off_four(size, place):
    """used_event of an available ring that begins two bytes off a multiple of four, or not, beside other numbers."""
    areas = [BASE + 0x1000, BASE + 0x2000 + 2 * place, BASE + 0x3000]
    story = Story(f"meetings/used_event_of_{size}_from_{2 * place}", "used_event stands behind the ring, whatever stands around it and however it is aligned",
                  [Slot()], shows=[("used_event", f"a ring of {size} from {2 * place} bytes behind a multiple of 4 on")])
    queue = Split(story, "b", 0, size, low=EVENT_IDX, areas=areas).bring_up()
    at = areas[1] + 4 + 2 * size
    queue.put(BASE + 0x4000, FLUSH)
    chain = [Buffer(BASE + 0x4000, 16), Buffer(BASE + 0x5000, 1, WRITE)] if size > 1 else [Buffer(BASE + 0x5000, 1, WRITE)]
    for turn in range(3):
        for named in (True, False):
            wanted, other = (queue.offered, queue.offered + 9) if named else (queue.offered + 9, queue.offered)
            queue.offer(chain)
            # The numbers before and behind say the other thing, but where the one before is the head on offer.
            if queue.offered % size:
                queue.put(at - 2, number(other % 65536, 2))
            queue.put(at, number(wanted % 65536, 2) + number(other % 65536, 2))
            queue.notify(told=USED if named else 0)
            queue.acknowledge()
    return story


def used_event_elsewhere():
    """used_event names places that a service doesn't pass."""
    story = Story("meetings/used_event_names_another_place", "a service that doesn't pass the named place isn't told", [Slot()],
                  shows=[("used_event", "each power of two and its neighbours, where it is no place of the service")])
    queue = Split(story, "b", 0, 4, low=EVENT_IDX).bring_up()
    queue.put(BASE + 0x4000, FLUSH)
    for named in sorted({at for power in range(4, 16) for at in (2 ** power - 2, 2 ** power - 1, 2 ** power)} | {65534, 65535}):
        if named == queue.offered:
            continue
        queue.offer([Buffer(BASE + 0x4000, 16), Buffer(BASE + 0x5000, 1, WRITE)])
        queue.put(queue.areas[1] + 12, number(named, 2))
        queue.notify(told=0)
    return story


# Which buffer, counted from 0, takes a chain's bytes to 2^32 - 1 or past it.
LAST_PLACES = (16, 17, 30, 31, 32, 33, 62, 63, 64, 65, 126, 127, 128, 129, 253, 254, 255)


def last_byte_at_each_place(kind):
    """The buffer at a place takes the chain to 2^32 - 1 bytes, or a byte further. Those before it are empty, or the whole memory."""
    story = Story(f"meetings/{kind}_bytes_at_each_place", "the bytes of a chain are judged at each of its buffers", [SLOT],
                  shows=[(f"bytes of a chain, {kind}", f"2^32 - 1 and one more, by the buffer at {', '.join(map(str, LAST_PLACES))}")])
    queue = KINDS[kind](story, "b", 0, 256, areas=[LARGE + 0x1000, LARGE + 0x3000, LARGE + 0x5000]).bring_up()
    for place in LAST_PLACES:
        front = [Buffer(HEADER, 16)] + [Buffer(LARGE, 0, WRITE)] * (place - 16) + [Buffer(LARGE, LENGTH, WRITE)] * 15
        for more in (0, 1):
            size = LENGTH - 17 + more
            queue.put(HEADER, FLUSH)
            queue.put(LARGE + size - 1, b"\xee")
            queue.offer([*front, Buffer(LARGE, size, WRITE)])
            if more:
                queue.notify(FAULT)
                queue.bring_up_again()
            else:
                queue.notify()
            story.look(LARGE + size - 1, 1, b"\xee" if more else b"\0")
    return story
