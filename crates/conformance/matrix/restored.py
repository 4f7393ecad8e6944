"""What a restore brings back: after each history a slot is saved and restored, and each register is used as it stands."""
import dataclasses

from .actions import (acknowledges, goes_on, is_resized, notifies_by_other_values, reads_a_sector, reads_by_selectors,
                      reads_registers, serves,
                      serves_each, stops_and_starts, types_nothing, wants_one_at_a_place)
from .first_rows import of_restored
from .drivers import DRIVER_FEATURES, QUEUE_NUM, QUEUE_READY, QUEUE_SEL, STATUS, WRITE, Buffer
from .follows import INDICES, TEXT, Guest, Life, Setup, Wide
from .histories import LIVES, a_life, failed, faulty, nothing
from .saved import restore, saved

TITLE = "What a restore brings back"
HOW = ("After each history a slot is saved; other histories come, and the snapshot brings it back each time. Then each register is "
       "used without being written, in a memory of one region or of three, whose second and third have the areas and the data.")
COLUMNS = ("What is used", "Saved after")
FOLDERS = {"restored": "A restored window whose registers are used without being written.",
           "restored_fields": "Each field of a snapshot has another value; it is refused, or used without being written."}

# Three regions: below 2^32, across it, and above.
THREE = Wide(0x80000000, 0x8000, others=((0xffffc000, 0x8000), (0x300000000, 0x8000)))
ONE = Wide(0x80000000, 0x10000)
BETWEEN = [nothing, a_life, failed, lambda guest, window, setup: faulty("a_buffer_outside", guest, window, setup),
           lambda guest, window, setup: guest.reset(window)]


def stories():
    yield of_restored()
    for turn, (name, history) in enumerate(LIVES.items()):
        for other, window in enumerate("bc"):
            yield after(turn + other, name, history, window)
    for window in "bc":
        for is_packed in (False, True):
            for name, changes in FIELDS.items():
                yield field(name, changes, window, is_packed)


def guest_of(life, turn):
    """A driver whose areas and data lie in one region, or each in another one."""
    guest = Guest(life)
    if life.slots[0].others:
        regions = [base for base, _ in life.slots[0].others]
        guest.base, guest.room, guest.done = regions[turn % 2], regions[1 - turn % 2], 0x80000000 + 0x100
    return guest


def features_without_selector(guest, window, setup):
    """DriverFeatures and Status are written as the selector stands."""
    guest.write(window, DRIVER_FEATURES, 1)
    guest.write(window, STATUS, 0xb)
    guest.read(window, STATUS)
    serves(guest, window, 0, in_table=True)


def queue_without_selector(guest, window, setup):
    """The selected queue is stopped and made ready as its registers stand."""
    for value in (0, 1):
        guest.write(window, QUEUE_READY, value)
        guest.read(window, QUEUE_READY)
    serves_each(guest, window)


def each_in_a_table(guest, window, setup):
    """A chain of each queue stands in a table."""
    for index in INDICES[window]:
        serves(guest, window, index, in_table=True)


USES = [reads_registers, goes_on, reads_by_selectors, features_without_selector, stops_and_starts,
        queue_without_selector, each_in_a_table,
        wants_one_at_a_place, notifies_by_other_values, acknowledges]
OWN = {"b": [reads_a_sector], "c": [types_nothing, is_resized]}


def after(turn, name, history, window):
    setup = Setup(turn % 2 == 0, turn // 2 % 2 == 0, 4, turn % 2)

    def script(life):
        guest = guest_of(life, turn)
        guest.acknowledges = False
        history(guest, window, setup)
        snapshot = saved(guest)
        for number, use in enumerate(USES + OWN[window]):
            guest.acknowledges = False
            other = Setup(not setup.rich, not setup.packed, (8, 4)[number // 2 % 2], 1 - setup.home)
            BETWEEN[(turn + number) % len(BETWEEN)](guest, window, other)
            guest.acknowledges, guest.setup = True, setup
            restore(guest, snapshot)
            use(guest, window, setup)
            serves_each(guest, window)

    device, regions = ("disk" if window == "b" else "console"), "one" if turn % 3 == 0 else "three"
    return Life(f"restored/{device}_in_{regions}_regions_after_{name}",
                f"{history.__doc__} Then a restore, and each register is used as it stands.", script,
                [ONE if turn % 3 == 0 else THREE], shows=[("each register", name.replace("_", " "))])


# --- fields

def of_window(name, *values):
    """Changes of a field of a window."""
    return [lambda snapshot, window, value=value: setattr(snapshot.windows[window], name, value) for value in values]


def of_selector(which, *values):
    def change(snapshot, window, value):
        snapshot.windows[window].selectors[which] = value
    return [lambda snapshot, window, value=value: change(snapshot, window, value) for value in values]


def of_queue(name, *values):
    """Changes of a field of a window's last queue, and that it isn't ready where `values` are for one that isn't."""
    def change(snapshot, window, value, ready):
        queue = snapshot.windows[window].queues[INDICES[window][-1]]
        setattr(queue, name, value)
        queue.ready = ready
    return [lambda snapshot, window, value=value, ready=ready: change(snapshot, window, value, ready) for value,
            ready in values]


def of_area(which, more):
    """An area lies somewhere else, of a queue that is ready and of one that isn't."""
    def change(snapshot, window, ready):
        queue = snapshot.windows[window].queues[INDICES[window][-1]]
        queue.areas[which] += more
        queue.ready = ready
    return [lambda snapshot, window, ready=ready: change(snapshot, window, ready) for ready in (True, False)]


def of_slot(name, *values):
    return [lambda snapshot, window, value=value: setattr(snapshot, name, value) for value in values]


def begun_with_selector(value):
    """A driver has begun, and its features' selector stands at a word."""
    def change(snapshot, window):
        snapshot.windows[window].status, snapshot.windows[window].accepted = 3, 0
        snapshot.windows[window].selectors[1] = value
        none_ready(snapshot, window)
    return change


def second_queue_of_a_disk(snapshot, window):
    """The disk's window has a ready queue 1, which no register shows."""
    first, _ = snapshot.windows["b"].queues
    snapshot.windows["b"].queues[1] = dataclasses.replace(first, areas=list(first.areas))


def none_ready(snapshot, window):
    for queue in snapshot.windows[window].queues:
        queue.ready = False


FIELDS = {
    "status": of_window("status", 0x4f, 0x8f, 0x0b, 0x0e),
    "device_features_sel": of_selector(0, 1, 2), "driver_features_sel": of_selector(1, 0, 1, 2),
    "queue_sel": of_selector(2, 1, 2), "shm_sel": of_selector(3, 1, 0xffffffff),
    "number": of_queue("number", (2, True), (8, True), (2, False), (8, False), (300, False)),
    "place": of_queue("place", (1, True), (3, True), (4, True), (7, True), (0x8002, True), (0xffff, True)),
    "left": of_queue("left", (1, True), (2, True)), "passed": of_queue("passed", (1, True), (2, True)),
    "ahead": of_queue("ahead", (1, True), (2, True), (4, True), (7, True)),
    "selector_of_a_new_driver": [begun_with_selector(value) for value in (0, 1, 2, 3)],
    "second_queue_of_the_disk": [second_queue_of_a_disk],
    "ready": [none_ready, *of_queue("ready", (False, False))],
    "descriptor_area": of_area(0, 0x100), "driver_area": of_area(1, 0x80), "device_area": of_area(2, 0x80),
    "interrupts": of_window("interrupts", 1, 2, 3), "generation": of_window("generation", 0x80000001, 0xffffffff),
    "size": of_slot("size", [0x1234, 0xffff], [0, 1]), "pending_input": of_slot("pending", b"abc", b"p" * 4096),
}


def field(name, changes, window, is_packed):
    def script(life):
        guest, setup = guest_of(life, 1), Setup(is_packed, is_packed, 4, 0)
        a_life(guest, window, setup)
        snapshot = saved(guest)
        for change in changes:
            other = snapshot.but(lambda copied, change=change: change(copied, window))
            for use in (two_at_once, wants_one_at_a_place, reads_registers, goes_on, features_without_selector,
                        queue_without_selector, notifies_by_other_values, is_resized, made_with_half):
                guest.setup = setup
                restore(guest, other)
                use(guest, window, setup)
            serves_each(guest, window)

    device, kind = "disk" if window == "b" else "console", "packed" if is_packed else "split"
    return Life(f"restored_fields/{kind}_{name}_of_a_{device}",
                f"The field {name.replace('_', ' ')} of a {device}'s snapshot has each of several values.", script,
                [THREE if is_packed else ONE], shows=[(name.replace("_", " "), "a window at work")])


def two_at_once(guest, window, setup):
    """Two chains of the last queue by one notify, and what is seen of them."""
    index = INDICES[window][-1]
    for at in (0, 1):
        guest.put(guest.room + TEXT + at, b"tu"[at:at + 1])
        guest.offer(window, index, [Buffer(guest.room + TEXT + at, 1, WRITE if window == "b" else 0)])
    guest.notify(window, index)
    guest.ends(window, index)


def made_with_half(guest, window, setup):
    """The last queue is stopped, and made ready with its size alone written."""
    guest.write(window, QUEUE_SEL, INDICES[window][-1])
    guest.write(window, QUEUE_READY, 0)
    guest.write(window, QUEUE_NUM, 4)
    guest.write(window, QUEUE_READY, 1)
    guest.read(window, QUEUE_READY)
    serves(guest, window, INDICES[window][-1])
