"""Each register written in each status: what it does then, behind the next reset, and behind FAILED."""
import itertools

from .actions import WITHOUT, serves, serves_each
from .drivers import (ACKNOWLEDGE, AREAS, DEVICE_SEL, DRIVER, DRIVER_FEATURES, DRIVER_SEL, FAILED, FEATURES_OK, INTERRUPT_ACK, NOTIFY,
                      QUEUE_NUM, QUEUE_READY, QUEUE_SEL, STATUS, VERSION_1)
from .first_rows import first
from .follows import INDICES, NAMES, Guest, Life, Setup
from .histories import outside
from .statuses import EACH
from .story import Slot, Story

TITLE = "Each register in each status"
HOW = ("Each register is written in each of the driver's 32 statuses, and in a window that needs a reset. Then the driver goes on, begins anew, or fails and "
       "begins anew, and leaves that register out. The words of the features, their selector and the bits of Status are written in all orders, "
       "QueueSel goes beyond the queues, and Status gets values above its byte.")
COLUMNS = ("What is written", "When")
FOLDERS = {"when": "Each register written in each status, and what it leaves."}

DEVICES = {"b": "disk", "c": "console"}
NEEDS_RESET = "needs a reset"
# By the name of what a bring-up leaves out behind it: the register and what is written.
WRITTEN = {"driver_features_low": (DRIVER_FEATURES, 0x30000000), "driver_features_sel": (DRIVER_SEL, 1), "driver_features_high": (DRIVER_FEATURES, VERSION_1),
           "features_ok": (STATUS, FEATURES_OK), "queue_sel": (QUEUE_SEL, 1), "queue_num": (QUEUE_NUM, 4), "queue_ready": (QUEUE_READY, 1),
           "driver_ok": (STATUS, 4), **{NAMES[at]: (at, None) for area in AREAS for at in (area, area + 4)}}
BEYOND = (2, 3, 7, 8, 255, 256, 0x10000, 0x10001, 0x80000000, 0x80000001, 0xffffffff)
# Values of Status above its byte.
LARGE = (0x100, 0x101, 0x10f, 0x18f, 0x1000, 0xff00, 0x10000, 0x1000f, 0x800000, 0xffffff00, 0x80000000, 0x8000000f)


def stories():
    yield by_hand()
    for window in DEVICES:
        for which in range(3):
            yield in_each_status(window, which)
        yield all_orders(window)
        yield beyond_the_queues(window)
        yield large_values(window)
        yield large_values_of_a_live_window(window)


def by_hand():
    """Selectors and half of the features behind a reset, and behind FAILED."""
    return first("when/features_before_driver_by_hand", "A word of features that is written before ACKNOWLEDGE holds, and Status 100 is no reset.", """
w 0 b 024 4 00000001 > 0 done - 0 0
w 0 b 020 4 00000001 > 0 done - 0 0
w 0 b 070 4 00000100 > 0 done - 0 0
r 0 b 070 4 > 0 v:00000000 - 0 0
w 0 b 070 4 0000000b > 0 done - 0 0
r 0 b 070 4 > 0 v:0000000b - 0 0
w 0 b 070 4 00000100 > 0 done - 0 0
r 0 b 070 4 > 0 v:0000000b - 0 0
w 0 b 030 4 00000007 > 0 done - 0 0
w 0 b 038 4 00000004 > 0 done - 0 0
r 0 b 034 4 > 0 v:00000000 - 0 0
w 0 b 070 4 00000080 > 0 done - 0 0
r 0 b 070 4 > 0 v:0000008b - 0 0
w 0 b 070 4 00000000 > 0 done - 0 0
r 0 b 034 4 > 0 v:00000100 - 0 0
w 0 b 070 4 0000000b > 0 done - 0 0
r 0 b 070 4 > 0 v:00000003 - 0 0
""")


def life_of(name, window, about, what, when, script):
    return Life(f"when/{DEVICES[window]}_{name}", about, script, [Slot()], shows=[(what, when)])


# --- each register in each status

def in_status(guest, window, status, setup):
    """A window behind a reset, whose status is this; one that needs a reset has a queue with a fault."""
    if status == NEEDS_RESET:
        guest.bring_up(window, setup)
        serves_each(guest, window)
        index = INDICES[window][-1]
        outside(guest, window, index)
        guest.notify(window, index)
        return
    guest.reset(window)
    guest.write(window, DRIVER_SEL, 1)
    guest.write(window, DRIVER_FEATURES, VERSION_1)
    guest.write(window, DRIVER_SEL, 0)
    if status:
        guest.write(window, STATUS, status)


def ends(guest, window, turn):
    """The driver goes on, begins anew, or fails and begins anew."""
    if turn % 3 == 2:
        guest.write(window, STATUS, FAILED)
        guest.read(window, STATUS)
    if turn % 3:
        guest.reset(window)


def in_each_status(window, which):
    """Each status has a third of the registers in each of the three ways; the three scenarios have all."""
    before, after = Setup(True, False, 8, 1), Setup(False, False, 4, 0)

    def script(life):
        guest = Guest(life)
        guest.resize(0x11, 0x22)
        for turn, status in enumerate([*EACH, NEEDS_RESET]):
            for place, (name, (offset, value)) in enumerate(WRITTEN.items()):
                in_status(guest, window, status, before)
                value = guest.values(window, 0, Setup(False, False, 4, 1))[offset] if value is None else value
                guest.write(window, offset, value)
                guest.read(window, STATUS)
                ends(guest, window, turn + place + which)
                WITHOUT[f"comes_up_without_{name}"](guest, window, after)

    way = ("in_turn", "anew_in_turn", "behind_failed_in_turn")[which]
    return life_of(f"each_register_in_each_status_{way}", window, "Each register is written in each status; then the window comes up without it.",
                   "each register", "in each status, and what comes then", script)


# --- orders

def all_orders(window):
    """Words and selectors of the features and bits of Status, in all orders."""
    def script(life):
        guest = Guest(life)
        for steps in itertools.permutations((STATUS, DRIVER_SEL, DRIVER_FEATURES, DEVICE_SEL, FEATURES_OK)):
            guest.reset(window)
            guest.setup = Setup()
            for step in steps:
                wrote(guest, window, step)
            guest.read(window, STATUS)
            guest.read(window, 0x010)
            guest.make_ready(window, INDICES[window][-1], Setup(False, False, 4, 0))
            guest.clear(window, Setup(False, False, 4, 0))
            guest.go(window)
            guest.read(window, STATUS)
            for in_table in (False, True):
                serves(guest, window, INDICES[window][-1], in_table)

    return life_of("features_and_status_in_all_orders", window, "Features, selectors and bits of Status are written in all orders.", "features, selectors, Status",
                   "in all orders", script)


def wrote(guest, window, step):
    """One step of a driver, whose features' word is the one that is selected then."""
    if step == STATUS:
        guest.write(window, STATUS, ACKNOWLEDGE | DRIVER)
    elif step == FEATURES_OK:
        guest.write(window, DRIVER_SEL, 1)
        guest.write(window, DRIVER_FEATURES, VERSION_1)
        guest.write(window, STATUS, FEATURES_OK)
    elif step == DRIVER_FEATURES:
        guest.write(window, DRIVER_SEL, 0)
        guest.write(window, DRIVER_FEATURES, 1 << 28)
    else:
        guest.write(window, step, 1)


def beyond_the_queues(window):
    """QueueSel names no queue while each register of a queue is written; then the window comes up without that register."""
    def script(life):
        guest = Guest(life)
        setup = Setup(False, False, 4, 0)
        for turn, selector in enumerate(BEYOND if window == "c" else (1, *BEYOND)):
            for place, (offset, name) in enumerate(NAMES.items()):
                guest.bring_up(window, Setup(True, False, 8, 1)) if (turn + place) % 3 == 0 else guest.reset(window)
                if (turn + place) % 3:
                    guest.accept(window, setup)
                guest.write(window, QUEUE_SEL, selector)
                guest.write(window, offset, guest.values(window, 0, Setup(False, False, 2, 1))[offset])
                for register in (0x034, QUEUE_READY):
                    guest.read(window, register)
                guest.write(window, INTERRUPT_ACK, 3)
                guest.write(window, NOTIFY, selector)
                if (turn + place) % 3 == 0:
                    serves_each(guest, window)
                    continue
                WITHOUT[f"comes_up_without_{name}"](guest, window, setup)

    return life_of("queue_sel_beyond_the_queues", window, "QueueSel names no queue: what is written then is of none.", "each register of a queue", "behind QueueSel beyond the queues", script)


# --- Status above its byte

def large_values(window):
    story = Story(f"when/{DEVICES[window]}_status_above_its_byte", "Each value above the byte of Status in each status: the bits of its byte are set, and it is no reset.",
                  shows=[("Status above its byte", "in each status")])
    for status in EACH:
        for value in LARGE:
            story.write(window, STATUS, 0)
            story.write(window, DRIVER_SEL, 1)
            story.write(window, DRIVER_FEATURES, VERSION_1)
            if status:
                story.write(window, STATUS, status)
            story.write(window, STATUS, value)
            story.read(window, STATUS, status | value & 0x8f)
    return story


def large_values_of_a_live_window(window):
    """A live window with bits that stand, and one that needs a reset, go on as they were."""
    def script(life):
        guest = Guest(life)
        guest.acknowledges = False
        for value in LARGE:
            guest.bring_up(window, Setup(value % 3 == 0, value % 7 == 0, 4, 0))
            serves_each(guest, window)
            guest.write(window, STATUS, value)
            guest.read(window, STATUS)
            guest.read(window, 0x060)
            serves_each(guest, window)
            in_status(guest, window, NEEDS_RESET, Setup(False, False, 4, 1))
            guest.write(window, STATUS, value)
            guest.read(window, STATUS)
            guest.read(window, QUEUE_READY)
            serves_each(guest, window)

    return life_of("status_above_its_byte_while_live", window, "Values above the byte of Status in a live window, and in one that needs a reset.", "Status above its byte",
                   "while live, and with a fault", script)
