"""A live window that is written again: each register of a ready queue, features, Status; then it is used, stopped, made again."""
from .actions import reads_registers, serves, serves_each
from .first_rows import of_written_again
from .drivers import DEVICE_SEL, DRIVER_FEATURES, DRIVER_SEL, NOTIFY, QUEUE_NUM, QUEUE_READY, QUEUE_SEL, STATUS, Packed, Split
from .follows import Guest, Life, Setup
from .story import BASE, Slot, Story

TITLE = "Live windows that are written again"
HOW = ("A register of a live window is written once more. A ready queue goes on where it was; once it is stopped and made ready as "
       "it stands, it has the size and the areas that it had. A queue that is stopped takes another size and other areas, and "
       "begins there at its first place.")
COLUMNS = ("What is written", "Queue")
FOLDERS = {"written_again": "Registers of a live window written again, and its queues used, stopped and made again."}

QUEUES = {("b", 0): "disk", ("c", 0): "receive", ("c", 1): "transmit"}
ALL = 0xffffffff
# Of a ready queue: the register, and values that would do harm.
OF_QUEUE = {"queue_num": (QUEUE_NUM, (2, 8, 0, 257)), "queue_ready": (QUEUE_READY, (1, 2, 0x80000001, ALL)),
            "queue_desc_low": (0x080, (0, None, ALL)), "queue_desc_high": (0x084, (1, ALL)),
            "queue_driver_low": (0x090, (0, None, ALL)), "queue_driver_high": (0x094, (1, ALL)),
            "queue_device_low": (0x0a0, (0, None, ALL)), "queue_device_high": (0x0a4, (1, ALL))}
# Of a live window.
OF_WINDOW = {"driver_features_low": [(DRIVER_SEL, 0), (DRIVER_FEATURES, 0), (DRIVER_FEATURES, ALL)],
             "driver_features_high": [(DRIVER_SEL, 1), (DRIVER_FEATURES, 0), (DRIVER_FEATURES, 5), (DRIVER_FEATURES, 1)],
             "features_ok": [(STATUS, 8), (STATUS, 0xb)], "driver_ok": [(STATUS, 4), (STATUS, 0xf)],
             "acknowledge": [(STATUS, 1), (STATUS, 3)], "bits_that_are_ignored": [(STATUS, 0x70), (STATUS, 0xffffff00), (STATUS, 0x40)],
             "features_and_features_ok": [(DRIVER_SEL, 0), (DRIVER_FEATURES, 0), (DRIVER_SEL, 1), (DRIVER_FEATURES, 1), (STATUS, 8)],
             "selectors": [(DRIVER_SEL, 7), (DEVICE_SEL, 7), (QUEUE_SEL, 7), (0x0ac, 7)]}


def stories():
    yield of_written_again()
    for turn, (name, (offset, values)) in enumerate(OF_QUEUE.items()):
        for more, (window, index) in enumerate(QUEUES):
            yield of_queue(name, offset, values, window, index, (turn + more) % 2 == 0)
    for turn, (name, writes) in enumerate(OF_WINDOW.items()):
        for window, index in (("b", 0), ("c", 1)):
            for is_rich in (False, True):
                yield of_window(name, writes, window, index, is_rich, (turn + is_rich) % 2 == 0)
    for window, index in QUEUES:
        for is_packed in (False, True):
            yield ready_at_each_place(window, index, is_packed)
            yield made_elsewhere(window, index, is_packed)
            yield stopped_while_offers_stand(window, index, is_packed)
        yield judged_anew(window, index)


# Length and alignment of each area of a queue of so many descriptors (2.7, 2.8).
FORMS = {Split: lambda size: ((16 * size, 16), (6 + 2 * size, 2), (6 + 8 * size, 4)),
         Packed: lambda size: ((16 * size, 16), (4, 4), (4, 4))}
LENGTH = 0x10000


def judged_anew(window, index):
    """An area lies as far up as one life's queue allows; the next life's, of another kind or size, is ready only where it allows it."""
    story = Story(f"written_again/areas_judged_anew_of_the_{QUEUES[window, index]}_queue",
                  "An area that one life's queue may have is judged anew for the next, of another kind or size.",
                  [Slot(length=LENGTH, identity=b"judged anew" + bytes(9))], shows=[("each area of a queue of another kind or size", QUEUES[window, index])])
    lives = [(kind, size) for kind in FORMS for size in (4, 8)]
    for first in lives:
        for area in range(3):
            length, alignment = FORMS[first[0]](first[1])[area]
            at = BASE + (LENGTH - length) // alignment * alignment
            for life in [first, *lives]:
                length, alignment = FORMS[life[0]](life[1])[area]
                areas = [BASE + 0x1000, BASE + 0x2000, BASE + 0x3000]
                areas[area] = at
                queue = life[0](story, window, index, life[1], areas=areas)
                queue.begin()
                queue.make_ready()
                story.read(window, QUEUE_READY, at % alignment == 0 and at + length <= BASE + LENGTH)
    return story


def kind_of(is_packed):
    return "packed" if is_packed else "split"


def written(guest, window, index, offset, value):
    """A register of a queue; the low half of another place's area where no value is given."""
    if value is None:
        value = guest.areas(window, index, 1)[(offset - 0x080) // 16] % 2**32
    guest.write(window, offset, value)


def of_queue(name, offset, values, window, index, is_packed):
    def script(life):
        guest = Guest(life)
        for is_rich in (True, False):
            guest.bring_up(window, Setup(is_rich, is_packed, 4, 0))
            serves(guest, window, index)
            for value in values:
                guest.write(window, QUEUE_SEL, index)
                written(guest, window, index, offset, value)
                guest.read(window, QUEUE_READY)
                serves(guest, window, index)
            guest.write(window, QUEUE_SEL, index)
            starts_as_it_stands(guest, window, index)

    words = name.replace("_", " ").capitalize()
    return Life(f"written_again/{kind_of(is_packed)}_{name}_of_a_ready_{QUEUES[window, index]}_queue",
                f"{words} of a ready queue is written: nothing changes, also once it is stopped and made ready.", script,
                [Slot(base=0x480000000)], shows=[(name.replace("_", " "), QUEUES[window, index])])


def starts_as_it_stands(guest, window, index):
    """The queue is stopped, and made ready with the registers that it has."""
    guest.write(window, QUEUE_READY, 0)
    guest.read(window, QUEUE_READY)
    emptied(guest, window, index)
    guest.write(window, QUEUE_READY, 1)
    guest.read(window, QUEUE_READY)
    for _ in range(2):
        serves(guest, window, index)


def emptied(guest, window, index):
    """The driver's part of the areas, as new."""
    ring = guest.ring(window, index)
    guest.put(ring.areas[1], bytes(4))
    if ring.is_packed:
        guest.put(ring.areas[0], bytes(16 * ring.number))


def of_window(name, writes, window, index, is_rich, is_packed):
    def script(life):
        guest = Guest(life)
        if window == "c":
            guest.resize(0x40, 0x20)
        guest.bring_up(window, Setup(is_rich, is_packed, 4, 0))
        serves_each(guest, window)
        for offset, value in ((DEVICE_SEL, 1), (DRIVER_SEL, 1), (QUEUE_SEL, index or 7)):
            guest.write(window, offset, value)
        for offset, value in writes:
            guest.write(window, offset, value)
            for shown in (STATUS, 0x010, 0x034):
                guest.read(window, shown)
            serves(guest, window, index)
        guest.write(window, QUEUE_SEL, index)
        starts_as_it_stands(guest, window, index)
        for in_table in (False, True):
            serves(guest, window, index, in_table)
        reads_registers(guest, window, None)
        guest.reset(window)
        guest.write(window, STATUS, 0xb)
        guest.read(window, STATUS)

    device, features = "disk" if window == "b" else "console", "all_features" if is_rich else "no_feature"
    words = name.replace("_", " ").capitalize()
    return Life(f"written_again/{kind_of(is_packed)}_{name}_of_a_live_{device}_with_{features}",
                f"{words} written in a live window, which goes on as it was negotiated.", script,
                shows=[(name.replace("_", " "), device)])


def ready_at_each_place(window, index, is_packed):
    """QueueReady is written 1 at each place of two rounds, and other registers with it."""
    def script(life):
        guest = Guest(life)
        guest.bring_up(window, Setup(False, is_packed, 4, 0))
        guest.write(window, QUEUE_SEL, index)
        for turn in range(9):
            for offset, value in ((QUEUE_NUM, 4 + turn), (0x080, 0), (QUEUE_READY, 1), (STATUS, 0xf)):
                guest.write(window, offset, value)
            serves(guest, window, index)

    return Life(f"written_again/{kind_of(is_packed)}_{QUEUES[window, index]}_queue_made_ready_at_each_place",
                "QueueReady 1 and DRIVER_OK are written at each place of two rounds: the queue goes on.", script,
                shows=[("QueueReady at each place", QUEUES[window, index])])


def made_elsewhere(window, index, is_packed):
    """Stopped and made ready again: all moved, one area moved, another size; what lies at the place before stays."""
    def script(life):
        guest = Guest(life)
        guest.bring_up(window, Setup(True, is_packed, 4, 0))
        for moved, size in ((0, 4), ((0, 1, 2), 4), ((1,), 4), ((0, 2), 8), ((), 2), ((0, 1, 2), 1)):
            if moved != 0:
                moves(guest, window, index, moved, size)
            for _ in range(3):
                serves(guest, window, index)
            for home in (0, 1):
                desc, _, device = guest.areas(window, index, home)
                guest.look(desc if is_packed else device, 16)

    return Life(f"written_again/{kind_of(is_packed)}_{QUEUES[window, index]}_queue_made_elsewhere",
                "A queue is stopped and made ready with other areas and sizes; what it left behind stays.", script,
                shows=[("size and areas of a stopped queue", QUEUES[window, index])])


def moves(guest, window, index, moved, size):
    """Stops the queue, and makes it ready with those areas at the other place that are moved."""
    areas = list(guest.queue(window, index).areas)
    there = guest.areas(window, index, 0), guest.areas(window, index, 1)
    guest.write(window, QUEUE_SEL, index)
    guest.write(window, QUEUE_READY, 0)
    guest.write(window, NOTIFY, index)
    for area in moved:
        areas[area] = there[1][area] if areas[area] == there[0][area] else there[0][area]
        guest.write(window, 0x080 + 16 * area, areas[area] % 2**32)
    guest.write(window, QUEUE_NUM, size)
    emptied(guest, window, index)
    guest.write(window, QUEUE_READY, 1)
    guest.read(window, QUEUE_READY)


def stopped_while_offers_stand(window, index, is_packed):
    """Chains stand on offer while the queue is stopped; made ready again it begins at its first place."""
    def script(life):
        guest = Guest(life)
        guest.bring_up(window, Setup(False, is_packed, 4, 0))
        for count in (1, 3, 4, 6):
            for _ in range(count):
                serves(guest, window, index)
            guest.write(window, QUEUE_SEL, index)
            guest.write(window, QUEUE_READY, 0)
            serves(guest, window, index)
            guest.write(window, QUEUE_READY, 1)
            guest.notify(window, index)
            guest.ends(window, index)
            if (window, index) == ("c", 0):
                guest.type(b"")
            guest.read(window, STATUS)
            guest.bring_up(window, Setup(False, is_packed, 4, 0))

    return Life(f"written_again/{kind_of(is_packed)}_{QUEUES[window, index]}_queue_stopped_with_chains_on_offer",
                "Chains stand on offer while the queue is stopped and made ready again, at each of four places.", script,
                shows=[("QueueReady with chains on offer", QUEUES[window, index])])
