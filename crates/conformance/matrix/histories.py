"""What happened before: short histories of a window, each with what it leaves.

A history works on a window of a guest of follows.py, whatever state it is in; `setup` is how the window is brought up in it.
Those of RESETS end in a reset, those of LIVES as they end, and those of AGAIN in a window that is up again.
"""
import functools

from .actions import event_at, serves, serves_each
from .drivers import (ACKNOWLEDGE, DEVICE_SEL, DRIVER, DRIVER_FEATURES, DRIVER_OK, DRIVER_SEL, FAILED, FEATURES_OK,
                      INDIRECT, NEXT, QUEUE_NUM,
                      QUEUE_READY, QUEUE_SEL, STATUS, WRITE, Buffer, number)
from .follows import INDICES, ROOM, TABLE, TEXT, Setup

LEGS = {"b": ("c", 1), "c": ("b", 0)}


# --- what a fault's chain is

def jump(guest, window, index):
    ring = guest.ring(window, index)
    guest.put(ring.areas[1] + 2, number((ring.place + ring.number + 1) % 65536, 2))


def head_outside(guest, window, index):
    ring = guest.ring(window, index)
    ring.offer_head(ring.number)


def loop(guest, window, index):
    ring = guest.ring(window, index)
    if ring.is_packed:
        ring.offer_list([Buffer(guest.base, 0, NEXT)] * ring.number, ring.place)
    else:
        start = (ring.place + ring.ahead()) % ring.number
        ring.put_round(start, [ring.entry(Buffer(guest.base, 0, NEXT, start), 0)])
        ring.offer_head(start)


def outside(guest, window, index):
    guest.offer(window, index, [Buffer((guest.base - 1) % 2**64, 1)])


def bad_table(guest, window, index):
    guest.offer(window, index, [Buffer(guest.room + TABLE, 8, INDIRECT)])


def joined_table(guest, window, index):
    guest.offer(window, index, [Buffer(guest.room + TABLE, 16, INDIRECT | NEXT)])


def nested_table(guest, window, index):
    ring = guest.ring(window, index)
    guest.put(guest.room + TABLE, ring.entry(Buffer(guest.room + TABLE, 16, INDIRECT), 0))
    guest.offer(window, index, [Buffer(guest.room + TABLE, 16, INDIRECT)])


# By its name: the chain, and whether the setup must have tables, and which rings know it.
FAULTS = {"jump": (jump, False, "split"), "a_head_outside": (head_outside, False, "split"), "a_loop": (loop, False, ""),
          "a_buffer_outside": (outside, False, ""), "a_bad_table": (bad_table, False, ""),
          "a_joined_table": (joined_table, True, ""), "a_nested_table": (nested_table, True, "split")}


def faulty(name, guest, window, setup):
    """A chain is served, and the next one is a fault of its queue."""
    make, wants_rich, kind = FAULTS[name]
    is_packed = setup.packed and kind != "split"
    guest.bring_up(window, Setup(setup.rich or wants_rich, is_packed, setup.size, setup.home))
    index = INDICES[window][-1] if guest.turn % 2 else 0
    serves(guest, window, index)
    make(guest, window, index)
    if (window, index) == ("c", 0):
        guest.type(b"f")
    else:
        guest.notify(window, index)


# --- histories without their reset

def nothing(guest, window, setup):
    """A window as it stands."""


def a_life(guest, window, setup):
    """Three chains of each queue."""
    guest.bring_up(window, setup)
    for _ in range(3):
        serves_each(guest, window)


def two_lives(guest, window, setup):
    """A life with the other kind of ring and other features, then one."""
    a_life(guest, window, Setup(not setup.rich, not setup.packed, 2 * setup.size, 1 - setup.home))
    a_life(guest, window, setup)


def failed(guest, window, setup):
    """FAILED, in a live window."""
    guest.bring_up(window, setup)
    serves_each(guest, window)
    guest.write(window, STATUS, FAILED)
    guest.notify(window, 0)


def failed_early(guest, window, setup):
    """FAILED, before the features are accepted; all else is written behind it."""
    guest.reset(window)
    guest.write(window, STATUS, ACKNOWLEDGE | FAILED)
    guest.begin(window, setup)
    serves_each(guest, window)


def failed_at_once(guest, window, setup):
    """FAILED, and nothing else."""
    guest.reset(window)
    guest.write(window, STATUS, ACKNOWLEDGE | FAILED)


def never_driver_ok(guest, window, setup):
    """Queues are ready, and DRIVER_OK never comes."""
    guest.reset(window)
    guest.begin(window, setup, "driver_ok")
    serves_each(guest, window)


def no_queue_ready(guest, window, setup):
    """DRIVER_OK with no queue ready."""
    guest.reset(window)
    guest.accept(window, setup)
    guest.go(window)
    guest.notify(window, INDICES[window][-1])


def no_acknowledge(guest, window, setup):
    """A live window whose driver never set ACKNOWLEDGE."""
    guest.reset(window)
    guest.setup = setup
    guest.clear(window, setup)
    for selector, value in ((0, guest.low(window, setup)), (1, setup.high())):
        guest.write(window, DRIVER_SEL, selector)
        guest.write(window, DRIVER_FEATURES, value)
    guest.write(window, STATUS, DRIVER | FEATURES_OK)
    for index in INDICES[window]:
        guest.make_ready(window, index, setup)
    guest.write(window, STATUS, DRIVER_OK)
    serves_each(guest, window)


def features_refused(guest, window, setup):
    """Features that aren't offered: FEATURES_OK is refused, and DRIVER_OK written all the same."""
    guest.reset(window)
    guest.write(window, STATUS, ACKNOWLEDGE | DRIVER)
    for selector, value in ((1, 0x41), (0, 0xffffffff)):
        guest.write(window, DRIVER_SEL, selector)
        guest.write(window, DRIVER_FEATURES, value)
    guest.write(window, STATUS, 0xf)
    guest.make_ready(window, INDICES[window][-1], setup)


def half_of_the_features(guest, window, setup):
    """The high word of the features, whose selector stays, and no FEATURES_OK."""
    guest.reset(window)
    guest.write(window, STATUS, ACKNOWLEDGE | DRIVER)
    guest.write(window, DRIVER_SEL, 1)
    guest.write(window, DRIVER_FEATURES, 0x41)


def queue_refused(guest, window, setup):
    """Queues of a bad size, whose areas are good."""
    guest.reset(window)
    guest.accept(window, setup)
    for index in INDICES[window]:
        guest.make_ready(window, index, Setup(setup.rich, setup.packed, 300, setup.home))
    guest.go(window)


def halves_written(guest, window, setup):
    """The high halves of each area's address, and nothing else."""
    guest.reset(window)
    guest.accept(window, setup)
    for index in INDICES[window]:
        guest.write(window, QUEUE_SEL, index)
        for offset in (0x084, 0x094, 0x0a4):
            guest.write(window, offset, 5)
    guest.go(window)


def selectors_away(guest, window, setup):
    """A life, and then selectors that name nothing."""
    guest.bring_up(window, setup)
    serves_each(guest, window)
    for offset, value in ((DEVICE_SEL, 2), (DRIVER_SEL, 2), (QUEUE_SEL, 7), (0x0ac, 0xffffffff)):
        guest.write(window, offset, value)


def interrupts_stand(guest, window, setup):
    """Both bits of InterruptStatus stand: a chain before one with a fault."""
    guest.bring_up(window, setup)
    index = INDICES[window][-1]
    guest.offer(window, index, [Buffer(guest.room + TEXT, 1, WRITE if window == "b" else 0)])
    outside(guest, window, index)
    guest.notify(window, index)


def stopped(guest, window, setup):
    """Queues that were stopped in a live window, at their second place."""
    guest.bring_up(window, setup)
    serves_each(guest, window)
    for index in INDICES[window]:
        guest.write(window, QUEUE_SEL, index)
        guest.write(window, QUEUE_READY, 0)


def on_offer(guest, window, setup):
    """Chains on offer that were never served."""
    guest.bring_up(window, setup)
    for index in INDICES[window]:
        guest.offer(window, index,
                    [Buffer(guest.room + (ROOM if (window, index) != ("c", 1) else TEXT), 2,
                            WRITE if (window, index) != ("c", 1) else 0)])


def events_asked(guest, window, setup):
    """Events named at places that don't come."""
    guest.bring_up(window, setup)
    for index in INDICES[window]:
        event_at(guest, window, index, 3)
        serves(guest, window, index)


def a_service_of_nothing(guest, window, setup):
    """Live queues that are notified of nothing."""
    guest.bring_up(window, setup)
    for index in INDICES[window]:
        guest.notify(window, index)
    guest.type(b"")


def the_other_window_lives(guest, window, setup):
    """A life; then the other window comes up and is used."""
    guest.bring_up(window, setup)
    serves_each(guest, window)
    other, index = LEGS[window]
    guest.bring_up(other, Setup(not setup.rich, not setup.packed, 2, 1 - setup.home))
    serves(guest, other, index)


def the_other_window_faults(guest, window, setup):
    """A life; then a fault of the other window."""
    guest.bring_up(window, setup)
    serves_each(guest, window)
    other, index = LEGS[window]
    guest.bring_up(other, Setup(not setup.rich, not setup.packed, 4, 1 - setup.home))
    outside(guest, other, index)
    guest.notify(other, index)


def the_other_window_is_reset(guest, window, setup):
    """A life; then the other window is reset while its selectors are away."""
    guest.bring_up(window, setup)
    serves_each(guest, window)
    other = LEGS[window][0]
    for offset, value in ((DEVICE_SEL, 1), (DRIVER_SEL, 1), (QUEUE_SEL, 1), (QUEUE_NUM, 3), (STATUS, 0)):
        guest.write(other, offset, value)


def typed_and_resized(guest, window, setup):
    """A life, typed bytes that nobody took, and a resize."""
    guest.bring_up(window, setup)
    guest.write("c", QUEUE_SEL, 0)
    guest.type(b"waits")
    guest.resize(0x44, 0x22)
    serves(guest, *LEGS["b" if window == "c" else "c"])


def status_by_other_writes(guest, window, setup):
    """A life, and writes to Status that change nothing."""
    guest.bring_up(window, setup)
    serves_each(guest, window)
    guest.write(window, STATUS, 0x100)
    guest.write(window, STATUS, 0, width=1)
    guest.write(window, STATUS, 0, width=2)
    guest.read(window, STATUS)


BEFORE = [nothing, a_life, two_lives, failed, failed_early, failed_at_once, never_driver_ok, no_queue_ready, no_acknowledge,
          features_refused, half_of_the_features, queue_refused, halves_written, selectors_away, interrupts_stand, stopped,
          on_offer, events_asked, a_service_of_nothing, the_other_window_lives, the_other_window_faults,
          the_other_window_is_reset, typed_and_resized, status_by_other_writes]


def after_fault(name):
    history = functools.partial(faulty, name)
    history.__name__, history.__doc__ = name, f"A fault, {name.replace('_', ' ')}, behind a good chain."
    return history


BEFORE += [after_fault(name) for name in FAULTS]


def reset_after(before):
    """The same, and then a reset; before it the selectors are put away."""
    def history(guest, window, setup):
        before(guest, window, setup)
        for offset, value in ((DEVICE_SEL, 1), (DRIVER_SEL, 1), (QUEUE_SEL, 7 if window == "b" else 1)):
            guest.write(window, offset, value)
        guest.reset(window)
    history.__doc__ = f"{before.__doc__.rstrip('.')}; then a reset."
    return history


def alive_after(before):
    """The same, and then a window that is up again in the same way."""
    def history(guest, window, setup):
        before(guest, window, setup)
        guest.bring_up(window, setup)
    history.__doc__ = f"{before.__doc__.rstrip('.')}; then the window comes up again."
    return history


RESETS = {before.__name__: reset_after(before) for before in BEFORE}
LIVES = {before.__name__: before for before in BEFORE if before is not nothing}
AGAIN = {before.__name__: alive_after(before) for before in BEFORE}
