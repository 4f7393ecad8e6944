"""Guests whose lives are pairs of a history and an action of the suite's tables, so that with the seeds every pair is met.

The suite's small model says what each guest must be told; a seed chooses its pairs, and how the windows are brought up in them.
"""
import os
import random
import sys

sys.path.append(os.path.join(os.path.dirname(os.path.dirname(os.path.abspath(__file__))), "crates", "conformance"))

from guests import Event
from matrix import actions, follows, histories, saved
from trace_text import EXTENDED, FIRST_LINES
from scene import Scene

GUESTS, PAIRS = 3, 3
SIZES = [1, 2, 4, 8, 16]


def brought_back(before):
    """The same, and then a reset and a restore."""
    def history(guest, window, setup):
        before(guest, window, setup)
        snapshot = saved.saved(guest)
        guest.reset(window)
        saved.restore(guest, snapshot)
    return history


ALONE = histories.LIVES | {f"{name}_then_a_reset": one for name, one in histories.RESETS.items()} \
    | {f"{name}_then_up_again": one for name, one in histories.AGAIN.items()}
RESTORED = {f"{before.__name__}_then_restored": brought_back(before) for before in histories.BEFORE}
HISTORIES = ALONE | RESTORED


def pairs_of(some):
    """All pairs of these histories and each action of a window, in an order of their own."""
    found = [(window, history, action) for window in "bc" for history in some for action in actions.ACTIONS[window]]
    random.Random("pairs").shuffle(found)
    return found


# Restores stand in extended traces alone, which every second seed gives.
IN_PLAIN, IN_EXTENDED = pairs_of(ALONE), pairs_of(RESTORED)
ALL = IN_PLAIN + IN_EXTENDED


def words(pair):
    window, history, action = pair
    return f"{'disk' if window == 'b' else 'console'}: {history.replace('_', ' ')}; {action.replace('_', ' ')}"


def chosen(seed, number):
    """The pairs of a guest of a seed: the next ones of those that its trace may have."""
    among = IN_EXTENDED if seed % 2 else IN_PLAIN
    first = (seed // 2 * GUESTS + number) * PAIRS
    return [among[(first + at) % len(among)] for at in range(PAIRS)]


class Lives(Scene):
    """Guests that live the pairs of a seed; `met` are these, and each guest's `told` what the model says that it is told."""

    GUESTS = GUESTS, GUESTS + 1

    def __init__(self, seed, offered):
        self.met, self.number = [], 0
        super().__init__(seed, offered)

    def first_line_of(self, seed, dice):
        return EXTENDED if seed % 2 else dice.choice(FIRST_LINES)

    def live(self, guest, offered, disk, count):
        dice, pairs = random.Random(f"lives {self.seed} {self.number}"), chosen(self.seed, self.number)
        life = follows.Life("", "", lambda one: lives(one, dice, pairs), [slot_of(guest.slot)], image=disk)
        life.files()
        guest.events = [Event.of(line) for line in life.lines]
        guest.told = [record.partition(" ")[2] for record in life.records]
        guest.disk = bytearray(life.disk.bytes)
        self.met += pairs
        self.number += 1


def slot_of(slot):
    """A slot of these guests as a slot of the tables, whose disk begins where its own image does."""
    (base, length), *others = slot.regions()
    mode = "ro" if slot.read_only else "rw"
    return follows.Wide(base, length, 0, slot.count, mode, slot.columns, slot.rows, slot.identity, tuple(others))


def lives(life, dice, pairs):
    """A guest that lives these pairs, one behind another; its areas and its data lie in any regions."""
    guest = follows.Guest(life)
    regions = [guest.base] + [base for base, _ in life.slots[0].others]
    guest.base, guest.room = dice.choice(regions), dice.choice(regions)
    guest.done = dice.choice(regions) + follows.DONE
    for window, history, action in pairs:
        guest.acknowledges = dice.random() < 0.5
        HISTORIES[history](guest, window, setup_of(dice))
        guest.acknowledges = dice.random() < 0.7
        actions.ACTIONS[window][action](guest, window, setup_of(dice))


def setup_of(dice):
    return follows.Setup(dice.random() < 0.5, dice.random() < 0.5, dice.choice(SIZES), dice.randrange(2))
