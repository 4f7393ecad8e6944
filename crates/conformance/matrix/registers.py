"""Each bit of a value that is written to a register, and of a register's offset."""
from .drivers import (ACKNOWLEDGE, AREAS, DEVICE_SEL, DRIVER, DRIVER_FEATURES, DRIVER_OK, DRIVER_SEL, EVENT_IDX, FAILED, FAULT,
                      FEATURES_OK, INTERRUPT_ACK, KINDS, NEEDS_RESET, NOTIFICATION_DATA, NOTIFY, NOTHING, QUEUE_NUM, QUEUE_READY, QUEUE_SEL,
                      SERVED, STATUS, WRITE, Buffer, Packed, Split, number)
from .story import BASE, CHANGED, USED, Slot, Story

TITLE = "Registers"
HOW = "A value is written that differs from a right one in one bit, and what the register does is seen or isn't."
FOLDERS = {"bits_registers": "Each bit of the values of registers, and of their offsets.",
           "bits_areas": "Each bit of the addresses of a queue's areas."}
UNSEEN = [("ConfigGeneration", "17..31", "So many resizes make too long a trace; `console_size/65537_resizes` shows those below."),
          ("SHMSel", "0..31", "It has no effect; `registers/shm_sel_is_no_queue_sel` and `registers/shared_memory_is_not_there` show that."),
          ("value of a width below 4", "above its width", "A trace has the digits of the width alone.")]

WINDOWS = {"b": "block", "c": "console"}
QUEUES = {"b": 1, "c": 2}
OFFERED = {"b": (0x30004244, 0x45), "c": (0x30000005, 0x45)}
BITS = range(32)
ALL = 0xffffffff
ROOM = BASE + 0x8000


def stories():
    for window in WINDOWS:
        yield device_features_sel(window)
        yield driver_features_sel(window)
        yield driver_features(window)
        yield queue_sel(window)
        yield queue_ready(window)
        yield status(window)
        yield interrupt_ack(window)
        for has_data in (False, True):
            yield queue_notify(window, has_data)
        yield offsets_read(window)
        yield offsets_written(window)
        yield offsets_of_widths(window)
    yield emergency()
    for window, index in (("b", 0), ("c", 0), ("c", 1)):
        yield split_sizes(window, index)
        yield packed_sizes(window, index)
    for kind in KINDS:
        for name, index in (("desc", 0), ("driver", 1), ("device", 2)):
            for window, queue in (("b", 0), ("c", 1)):
                yield area(kind, name, index, window, queue)


def story_of(name, window, about, field, bits="0..31", **more):
    return Story(f"bits_registers/{name}_of_a_{WINDOWS[window]}_window", f"{about}, in a {WINDOWS[window]} window", shows=[(field, bits)], **more)


def turned(right):
    """What differs from a value in one bit, and then what is right."""
    return [right ^ 1 << bit for bit in BITS] + [right]


# --- selectors and features

def device_features_sel(window):
    story = story_of("device_features_sel", window, "each bit of DeviceFeaturesSel counts", "DeviceFeaturesSel")
    for right in (0, 1):
        for selector in turned(right):
            story.write(window, DEVICE_SEL, selector)
            story.read(window, 0x010, OFFERED[window][selector] if selector < 2 else 0)
    return story


def accepted(story, window, is_accepted):
    """FEATURES_OK is asked for, and stands or doesn't."""
    story.write(window, STATUS, ACKNOWLEDGE | DRIVER | FEATURES_OK)
    story.read(window, STATUS, ACKNOWLEDGE | DRIVER | (FEATURES_OK if is_accepted else 0))
    story.write(window, STATUS, 0)


def driver_features_sel(window):
    """VERSION_1 is written to a word that may not be the high one; a bit that isn't offered to one that may not be the low one."""
    story = story_of("driver_features_sel", window, "each bit of DriverFeaturesSel counts", "DriverFeaturesSel")
    for selector in turned(1):
        story.write(window, DRIVER_SEL, selector)
        story.write(window, DRIVER_FEATURES, 1)
        if selector == 0:
            story.write(window, DRIVER_FEATURES, 0)
        accepted(story, window, selector == 1)
    for selector in turned(0):
        story.write(window, DRIVER_SEL, 1)
        story.write(window, DRIVER_FEATURES, 1)
        story.write(window, DRIVER_SEL, selector)
        story.write(window, DRIVER_FEATURES, 0x80000001 if selector == 1 else 0x80000000)
        accepted(story, window, selector > 1)
    return story


def driver_features(window):
    """Each bit beside VERSION_1: accepted where it is offered; and without VERSION_1 never."""
    story = story_of("driver_features", window, "each bit of the driver's features counts", "DriverFeatures", "0..31 of both words")
    for word in (0, 1):
        for bit in BITS:
            features = [0, 1]
            features[word] ^= 1 << bit
            for selector in (0, 1):
                story.write(window, DRIVER_SEL, selector)
                story.write(window, DRIVER_FEATURES, features[selector])
            accepted(story, window, bool(features[1] & 1) and not any(one & ~offered for one, offered in zip(features, OFFERED[window])))
    return story


def queue_sel(window):
    story = story_of("queue_sel", window, "each bit of QueueSel counts", "QueueSel")
    for right in range(QUEUES[window]):
        for selector in turned(right):
            story.write(window, QUEUE_SEL, selector)
            story.read(window, 0x034, 256 if selector < QUEUES[window] else 0)
    return story


def queue_ready(window):
    """A queue that may be made ready, and one that is."""
    story = story_of("queue_ready", window, "each bit of QueueReady counts", "QueueReady")
    queue = Split(story, window, QUEUES[window] - 1)
    queue.begin()
    queue.make_ready()
    for value in turned(1):
        story.write(window, QUEUE_READY, 0)
        story.write(window, QUEUE_READY, value)
        story.read(window, QUEUE_READY, int(value == 1))
    for value in turned(0) + turned(1):
        story.write(window, QUEUE_READY, 1)
        story.write(window, QUEUE_READY, value)
        story.read(window, QUEUE_READY, int(value != 0))
    return story


# --- status, interrupts, notifications

def status(window):
    """Each bit alone from a reset on, with VERSION_1 taken; and each beside those of a live window."""
    story = story_of("status", window, "each bit of Status counts", "Status")
    kept = ACKNOWLEDGE | DRIVER | DRIVER_OK | FEATURES_OK | FAILED
    for before in (0, ACKNOWLEDGE | DRIVER, ACKNOWLEDGE | DRIVER | FEATURES_OK | DRIVER_OK):
        for bit in BITS:
            story.write(window, STATUS, 0)
            story.write(window, DRIVER_SEL, 1)
            story.write(window, DRIVER_FEATURES, 1)
            if before:
                story.write(window, STATUS, before)
            story.write(window, STATUS, 1 << bit)
            story.read(window, STATUS, before | 1 << bit & kept)
    story.write(window, STATUS, 0)
    story.read(window, STATUS, 0)
    return story


def interrupt_ack(window):
    """Both bits stand: one by a fault, one by the chain before it."""
    story = story_of("interrupt_ack", window, "each bit of InterruptACK clears itself alone", "InterruptACK")
    queue = Split(story, window, QUEUES[window] - 1).bring_up()
    both(queue)
    for value in [1 << bit for bit in range(2, 32)] + [ALL & ~3, 0]:
        queue.write(INTERRUPT_ACK, value)
        story.read(window, 0x060, 3)
    for value, left in ((1, 2), (2, 0)):
        queue.write(INTERRUPT_ACK, value)
        story.read(window, 0x060, left)
    queue.bring_up_again()
    both(queue)
    for value, left in ((2, 1), (1, 0)):
        queue.write(INTERRUPT_ACK, value)
        story.read(window, 0x060, left)
    return story


def both(queue):
    """A service that sets both bits: a chain, and a head past the ring."""
    queue.put(ROOM, b"\xee")
    queue.put_chain([Buffer(ROOM, 1, WRITE, 0)])
    queue.put(queue.areas[1] + 2, number(2, 2) + number(0, 2) + number(4, 2))
    queue.notify(FAULT, told=USED | CHANGED)


def queue_notify(window, has_data):
    """One chain waits; a notify of another index leaves it there."""
    name = "queue_notify_with_notification_data" if has_data else "queue_notify"
    about = "each bit of the low half of QueueNotify names the queue, and none of the high half" if has_data else "each bit of QueueNotify names the queue"
    story = story_of(name, window, about, "QueueNotify, with NOTIFICATION_DATA" if has_data else "QueueNotify")
    right = QUEUES[window] - 1
    queue = Split(story, window, right, high=1 | (NOTIFICATION_DATA if has_data else 0)).bring_up()
    queue.put(ROOM, b"\xee")
    queue.put_chain([Buffer(ROOM, 1, WRITE, 0)])
    for value in turned(right):
        queue.offer_head(0)
        is_named = (value & 0xffff if has_data else value) == right
        queue.write(NOTIFY, value, told=USED if is_named else 0)
        queue.after(SERVED if is_named else NOTHING)
        if is_named:
            queue.acknowledge()
    return story


def emergency():
    """The low byte goes out, in each width."""
    story = Story("bits_registers/emerg_wr", "each bit of the low byte of emerg_wr goes out, and none of the others", shows=[("emerg_wr", "0..31")])
    for width in (1, 2, 4):
        for bit in range(8 * width):
            for value in (1 << bit, (1 << 8 * width) - 1 ^ 1 << bit):
                story.write("c", 0x108, value, width=width, output=bytes([value & 0xff]))
    return story


# --- offsets

def named_values(window):
    """What each readable register of a window after `live` has."""
    found = {0x000: 0x74726976, 0x004: 2, 0x008: 2 if window == "b" else 3, 0x00c: 0x4f424d56, 0x010: OFFERED[window][1], 0x034: 256,
             0x044: 1, 0x060: USED, 0x070: 0x0f, 0x0b0: ALL, 0x0b4: ALL, 0x0b8: ALL, 0x0bc: ALL}
    if window == "b":
        found.update({0x100: 8, 0x10c: 126, 0x114: 512, 0x130: 65536, 0x134: 32})
    else:
        found.update({0x060: USED | CHANGED, 0x0fc: 1, 0x100: 0x19 << 16 | 0x50})
    return found


def live(story, window):
    """A live window whose registers all have something to show."""
    queue = Split(story, window, QUEUES[window] - 1).bring_up()
    story.write(window, DEVICE_SEL, 1)
    queue.put(ROOM, b"\xee")
    queue.put_chain([Buffer(ROOM, 1, WRITE, 0)])
    queue.offer_head(0)
    queue.notify()
    if window == "c":
        story.resize(0x50, 0x19, told=CHANGED)
    return queue


def offsets_read(window):
    """All multiples of 4."""
    story = story_of("offsets_that_are_read", window, "each bit of an offset that is read counts", "offset, read", "2..11")
    live(story, window)
    values = named_values(window)
    for offset in range(0, 0x1000, 4):
        story.read(window, offset, values.get(offset, 0))
    return story


WRITABLE = {0x014, 0x020, 0x024, 0x030, 0x038, 0x044, 0x050, 0x064, 0x070, 0x080, 0x084, 0x090, 0x094, 0x0a0, 0x0a4, 0x0ac}


def offsets_written(window):
    """All multiples of 4 that are no writable register: nothing that can be read changes, and a chain is served as before."""
    story = story_of("offsets_that_are_written", window, "each bit of an offset that is written counts", "offset, written", "2..11")
    queue = live(story, window)
    for value in (0, 1):
        for offset in range(0, 0x1000, 4):
            if offset not in WRITABLE and (window, offset) != ("c", 0x108):
                story.write(window, offset, value)
        for offset, found in named_values(window).items():
            story.read(window, offset, found)
    queue.acknowledge()
    queue.offer_head(0)
    queue.notify()
    return story


def offsets_of_widths(window):
    """Accesses that a register doesn't answer: of a width below 4, and at an offset that is no multiple of 4."""
    story = story_of("offsets_and_widths", window, "no register answers an access of another width or beside it", "offset", "0..1")
    queue = live(story, window)
    values = named_values(window)
    registers = sorted({offset for offset in values if offset < 0x100} | WRITABLE)
    for offset in registers:
        for more, width in ((0, 1), (0, 2), (1, 1), (1, 4), (2, 2), (2, 4), (3, 4)):
            story.read(window, offset + more, 0, width=width)
    for offset in registers:
        for more, width in ((0, 1), (0, 2), (1, 4), (2, 4), (3, 4)):
            story.write(window, offset + more, 0, width=width)
    for offset, found in values.items():
        story.read(window, offset, found)
    queue.acknowledge()
    queue.offer_head(0)
    queue.notify()
    return story


# --- a queue's number and areas

def split_sizes(window, index):
    """Each number that differs in one bit from 4: none is a power of two, but for 0 and 4 itself. And each power of two, whose
    avail_event is behind just so many entries."""
    story = Story(f"bits_registers/queue_num_of_split_queue_{index}_of_a_{WINDOWS[window]}_window",
                  f"each bit of QueueNum counts, of a split queue {index} of a {WINDOWS[window]} window", shows=[("QueueNum, split", "0..31")])
    queue = Split(story, window, index, 4, EVENT_IDX)
    queue.begin()
    queue.make_ready()
    for size in turned(4):
        story.write(window, QUEUE_READY, 0)
        story.write(window, QUEUE_NUM, size)
        story.write(window, QUEUE_READY, 1)
        story.read(window, QUEUE_READY, int(size == 4))
    queue.go()
    for bit in range(9):
        size = 1 << bit
        story.write(window, QUEUE_READY, 0)
        story.write(window, QUEUE_NUM, size)
        story.write(window, QUEUE_READY, 1)
        queue.put(queue.areas[2] + 4 + 8 * size - 2, b"\xee" * 6)
        queue.write(NOTIFY, index)
        queue.look(queue.areas[2] + 4 + 8 * size - 2, 6, b"\xee\xee\0\0\xee\xee")
    for bit in range(9, 32):
        story.write(window, QUEUE_READY, 0)
        story.write(window, QUEUE_NUM, 1 << bit)
        story.write(window, QUEUE_READY, 1)
        story.read(window, QUEUE_READY, 0)
    return story


def packed_sizes(window, index):
    """A list of as many positions as a number says is served, and the position behind it is the first one."""
    story = Story(f"bits_registers/queue_num_of_packed_queue_{index}_of_a_{WINDOWS[window]}_window",
                  f"each bit of QueueNum counts, of a packed queue {index} of a {WINDOWS[window]} window", shows=[("QueueNum, packed", "0..31")])
    queue = Packed(story, window, index, 5).bring_up()
    queue.put(ROOM, b"\xee")
    sizes = [1 << bit for bit in range(9)] + [0x55 ^ 1 << bit for bit in range(8)]
    for size in sizes:
        story.write(window, QUEUE_READY, 0)
        story.write(window, QUEUE_NUM, size)
        story.write(window, QUEUE_READY, 1)
        story.read(window, QUEUE_READY, 1)
        queue.size = size
        queue.start_over()
        for count in (size, 1):
            queue.offer([Buffer(ROOM, 0, WRITE)] * (count - 1) + [Buffer(ROOM, 1, WRITE, count)])
            length = served(queue, b"\xee" if count == size else b"\xdd")
            queue.look_at_used(length, count, wrote=(window, index) != ("c", 1), count=count)
    for bit in range(9, 32):
        for size in (1 << bit, 5 | 1 << bit):
            story.write(window, QUEUE_READY, 0)
            story.write(window, QUEUE_NUM, size)
            story.write(window, QUEUE_READY, 1)
            story.read(window, QUEUE_READY, 0)
    return story


def served(queue, typed):
    """A service of one chain with one writable byte; the used len. A transmit queue writes nothing."""
    if (queue.window, queue.index) == ("c", 0):
        queue.story.type(typed, 1, told=USED)
        queue.after(SERVED)
        return 1
    queue.notify()
    return int(queue.window == "b")


def area(kind, name, which, window, index):
    """An address of an area, and those that differ in one bit of 64: outside memory or not aligned, or another place inside it."""
    base = 0x5555555555550000 if kind == "split" else 0xaaaaaaaaaaaa0000
    story = Story(f"bits_areas/{kind}_{name}_area_of_a_{WINDOWS[window]}_window",
                  f"each bit of the address of a {kind} {name} area, of a {WINDOWS[window]} window", [Slot(base)],
                  shows=[(f"address of the {name} area, {kind}", "0..63")])
    # No area comes to lie over another one by one bit.
    queue = KINDS[kind](story, window, index, 4, areas=[base + 0x5000, base + 0x6300, base + 0x9600])
    length, alignment = ([(64, 16), (14, 2), (38, 4)] if kind == "split" else [(64, 16), (4, 4), (4, 4)])[which]
    right = queue.areas[which]
    queue.bring_up()
    queue.put(base + 0x8000, bytes(range(1, 65)))
    for bit, address in enumerate([right ^ 1 << bit for bit in range(64)] + [right]):
        story.write(window, QUEUE_READY, 0)
        story.write(window, AREAS[which] + 4 * (bit // 32 % 2), address >> 32 * (bit // 32 % 2) & ALL)
        is_good = address % alignment == 0 and base <= address and address + length <= base + 0x10000
        story.write(window, QUEUE_READY, 1)
        story.read(window, QUEUE_READY, int(is_good))
        if is_good:
            queue.areas[which] = address
            at_the_place(queue, base + 0x8000 + bit % 64, 1 + bit % 64)
            queue.areas[which] = right
        if bit < 64:
            story.write(window, AREAS[which] + 4 * (bit // 32), right >> 32 * (bit // 32) & ALL)
    return story


def at_the_place(queue, at, mark):
    """A service of a chain of one byte with the areas where they are now."""
    queue.start_over()
    queue.clear()
    # No notification is wanted there, and where no driver area is it would be.
    flags_at = queue.areas[1] + (2 if queue.is_packed else 0)
    queue.put(flags_at, number(1, 2))
    queue.put(queue.areas[2], b"\xee" * 4)
    text = queue.window == "c"
    queue.offer([Buffer(at, 1, 0 if text else WRITE)])
    queue.notify(told=0, output=bytes([mark]) if text else b"")
    queue.put(flags_at, bytes(2))
    queue.look_at_used(0 if text else 1, **(dict(wrote=not text) if queue.is_packed else {}))
    if queue.is_packed:
        queue.look(queue.areas[2], 4, bytes(4))
    else:
        queue.look(queue.areas[2], 2, bytes(2))
    if not text:
        queue.look(at, 1, b"\1")
    # What was served lies there no more.
    queue.clear()
