"""What a reset leaves: after each history each register is used without being written again."""
from .actions import (LEFT_OUT, WITHOUT, acknowledges, comes_up, goes_on, notifies_by_other_values, reads_by_selectors,
                      reads_registers,
                      serves_each, types_before_a_chain)
from .first_rows import of_resets
from .follows import HIGH, LOW, Guest, Life, Setup
from .histories import RESETS, nothing, reset_after
from .story import Slot

TITLE = "What a reset leaves"
HOW = ("A window lives with all features and then with none, or the other way round. After each history it is reset, and each "
       "register is used without being written again: the window is as new.")
COLUMNS = ("What is used", "After")
FOLDERS = {"resets_features": "Features and selectors after a reset, each used without being written.",
           "resets_queues": "A queue's registers after a reset, each used without being written.",
           "resets_work": "What a window tells after a reset, and its queues from the first place on."}

FEATURES, QUEUES = [LOW, "driver_features_sel", HIGH, "features_ok"], ["queue_sel", *LEFT_OUT[5:]]
# Where a memory lies: the high halves of its addresses are 0, or they are not.
PLACES = {"low": 0x80000000, "high": 0x580000000}
# How the window lives before the reset, and behind it.
RICH, PLAIN = Setup(True, False, 8, 1), Setup(False, False, 4, 0)
EACH_WAY = {"from_all_features": (RICH, PLAIN), "to_all_features": (Setup(False, True, 8, 1), Setup(True, False, 4, 0)),
            "from_packed": (Setup(True, True, 8, 1), PLAIN),
            "to_packed": (Setup(False, False, 8, 1), Setup(True, True, 4, 0))}


def stories():
    yield of_resets()
    for turn, (name, history) in enumerate(RESETS.items()):
        for other, window in enumerate("bc"):
            for way in (0, 2):
                words = list(EACH_WAY)[way + (turn + other) % 2]
                base = list(PLACES)[(turn + way // 2) % 2]
                for part in ("features", "queues" if way // 2 == turn // 2 % 2 else "work"):
                    yield story_of(part, PARTS[part], name, history, window, words, base)
    for window in "bc":
        for kind in (False, True):
            yield many(window, kind)


def story_of(part, work, name, history, window, words, place):
    before, after = EACH_WAY[words]

    def script(life):
        guest = Guest(life)
        work(guest, window, lambda: lives(guest, window, history, before), after)

    about = f"{history.__doc__} {ABOUT[part]}"
    device = "disk" if window == "b" else "console"
    return Life(f"resets_{part}/{device}_{words}_after_{name}", about, script, [Slot(PLACES[place])],
                shows=[("each register", name.replace("_", " "))])


def lives(guest, window, history, setup):
    """The history of a resized console, whose driver acknowledges nothing."""
    guest.acknowledges = False
    if window == "c":
        guest.resize(0x20, 0x10)
    history(guest, window, setup)
    guest.acknowledges = True


def features(guest, window, live, after):
    for left_out in FEATURES:
        live()
        WITHOUT[f"comes_up_without_{left_out}"](guest, window, after)


def queues(guest, window, live, after):
    for left_out in QUEUES:
        live()
        WITHOUT[f"comes_up_without_{left_out}"](guest, window, after)


def work(guest, window, live, after):
    for use in (reads_registers, acknowledges, reads_by_selectors):
        live()
        use(guest, window, after)
        serves_each(guest, window)
    live()
    guest.begin(window, after)
    goes_on(guest, window, after)
    notifies_by_other_values(guest, window, after)
    if window == "c":
        types_before_a_chain(guest, window, after)
    reads_registers(guest, window, after)


PARTS = {"features": features, "queues": queues, "work": work}
ABOUT = {"features": "Features are taken without a selector, a word or FEATURES_OK.",
         "queues": "A queue comes up without each of its registers.",
         "work": "All is read and used as it stands, then the window comes up."}


def many(window, is_packed):
    """The 255th, 256th and 257th reset: before each the window has something to lose."""
    def script(life):
        guest, setup = Guest(life), Setup(True, is_packed, 4, 0)
        for _ in range(254):
            guest.reset(window)
        for _ in range(3):
            guest.begin(window, setup)
            serves_each(guest, window)
            reset_after(nothing)(guest, window, setup)
            reads_registers(guest, window, setup)
            serves_each(guest, window)
        comes_up(guest, window, setup)

    device, kind = "disk" if window == "b" else "console", "packed" if is_packed else "split"
    return Life(f"resets_work/{kind}_{device}_after_256_resets",
                "The 255th, the 256th and the 257th reset leave what the first one leaves.", script,
                shows=[("each register", "256 resets")])
