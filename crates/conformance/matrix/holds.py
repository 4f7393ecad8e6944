"""Disks that are held, released and dropped, whatever is on offer and in flight then."""
from .actions import ACTIONS
from .depths import ORDERS, Deep
from .drivers import NOTIFY, QUEUE_READY, STATUS, number
from .first_rows import BEGINS, FIRST_QUEUE, GOES, first
from .follows import Guest, Life, Setup, Wide
from .in_flight import REQUESTS, Asking
from .lots import Dice
from .saved import restore, saved

TITLE = "Holds, releases and drops"
HOW = ("A driver offers, notifies, is reset and comes up again while its host completes, holds, releases and drops, all by lot, over rings of each kind at "
       "each depth; snapshots that are held and that aren't are restored between. Each request is held on offer and in flight, and dropped; "
       "each action comes while a slot is held; and over an image all three words do nothing beside each action.")
COLUMNS = ("What", "Where")
FOLDERS = {"holds": "Slots that are held, released and dropped."}

DEPTHS, COUNT, STEPS = (1, 2, 3, 64), 2, 90


def stories():
    yield by_hand()
    for depth in DEPTHS:
        for is_packed in (False, True):
            for turn in range(COUNT):
                yield by_lot(depth, is_packed, turn)
    for is_packed in (False, True):
        for is_rich in (False, True):
            yield requests(is_packed, is_rich)
        for window in "bc":
            yield actions_while_held(window, is_packed)
            yield over_an_image(window, is_packed)


def by_hand():
    """A flush that is held on offer, one in flight over a hold, and a drop."""
    lines = """
mw 0 80004000 04000000000000000000000000000000 > 0 done - 0 0
mw 0 80006000 eeee > 0 done - 0 0
mw 0 80001000 00400080000000001000000001000100 > 0 done - 0 0
mw 0 80001010 00600080000000000100000002000000 > 0 done - 0 0
mw 0 80001020 00400080000000001000000001000300 > 0 done - 0 0
mw 0 80001030 01600080000000000100000002000000 > 0 done - 0 0
mw 0 80002000 0000010000000200 > 0 done - 0 0
hold 0 > 0 done - 0 0
w 0 b 050 4 00000000 > 0 done - 0 0
drop 0 > 0 idle - 0 0
release 0 > 0 done - 0 0 0=flush:0:0:-
hold 0 > 0 done - 0 0
mw 0 80002002 0200 > 0 done - 0 0
io 0 0 done > 0 done - 1 0
mr 0 80003000 c > 0 b:000001000000000001000000 - 1 0
release 0 > 0 done - 1 0 0=flush:0:0:-
drop 0 > 0 done - 3 0
io 0 0 done > 0 idle - 3 0
r 0 b 070 4 > 0 v:0000004f - 3 0
mr 0 80003000 14 > 0 b:0000010000000000010000000000000000000000 - 3 0
mr 0 80006000 2 > 0 b:00ee - 3 0
w 0 b 070 4 00000000 > 0 done - 0 0
"""
    return first("holds/two_flushes_by_hand", "A flush held on offer, one in flight over a hold, and a drop.", BEGINS + FIRST_QUEUE + GOES + lines,
                 slots=[Wide(length=0x10000, disk="host:2")])


# --- by lot

class Held(Deep):
    """A driver and its host, which choose by lot what they do next."""

    def slot_of(self):
        return self.life.board[self.slot]

    def offers_some(self):
        """One to three chains, as many as the ring has room for, and mostly a notify."""
        for _ in range(1 + self.dice.below(3)):
            if self.outstanding() < self.queue("b", 0).number:
                self.offer_next()
        if not self.dice.is_one_in(3):
            self.notify("b", 0)

    def offer_next(self):
        at, content, buffers = self.request(self.offered)
        ring = self.ring("b", 0)
        self.turn += 1
        self.put(at, content)
        self.behind += self.offer_one(ring, self.behind, [ring.table(buffers)])
        self.offered += 1
        if not ring.is_packed:
            self.put(ring.areas[1] + 2, number(self.behind % 65536, 2))

    def completes_one(self):
        """One in flight, or a tag that is free."""
        if self.asked and not self.dice.is_one_in(8):
            self.completes()
        else:
            self.do("io", f"{self.dice.below(len(self.slot_of().tags) + 1):x} {self.dice.one(('done', 'failed'))}")

    def waits(self):
        """What waits for what is in flight, and else changes nothing."""
        self.write("b", STATUS, 0xf)
        self.write("b", QUEUE_READY, 1)

    def comes_up(self):
        """A reset, and up again where it passed."""
        self.reset("b")
        if self.window("b").status == 0:
            self.begin("b", self.setup)
            self.behind = 0

    def is_restored(self):
        restore(self, saved(self).but(lambda snapshot: setattr(snapshot, "held", self.dice.below(2))))

    def sees(self):
        self.read("b", STATUS)
        self.ring("b", 0).look()
        self.look(self.base + 0x8800, 0x100)

    def steps(self):
        """Once more whatever comes by lot."""
        words = {"hold": 4, "release": 5, "drop": 1}
        ways = [self.offers_some] * 9 + [self.completes_one] * 8 + [self.waits, self.is_restored, self.sees]
        ways += [lambda word=word: self.do(word) for word, count in words.items() for _ in range(count)]
        ways += [self.comes_up] * (8 if self.window("b").status & 0x40 else 0) + [lambda: self.write("b", NOTIFY, 0)] * 2
        self.dice.one(ways)()
        self.keeps_order()


def by_lot(depth, is_packed, turn):
    size = (8, 4)[turn] if not is_packed else (5, 16)[turn]

    def script(life):
        guest = Held(life, ORDERS["shuffled"], Dice(f"holds {depth} {is_packed} {turn}"))
        guest.bring_up("b", Setup(True, is_packed, size, 0))
        for _ in range(STEPS):
            guest.steps()
        for word in ("hold", "release"):
            guest.do(word)
            guest.keeps_order()
            while guest.asked:
                guest.completes()
            guest.sees()
        guest.look(guest.base + 0x8800, 0x4000)

    kind = "packed" if is_packed else "split"
    return Life(f"holds/{kind}_{depth}_by_lot_{turn}", f"A {kind} ring of {size} is held, released and dropped by lot, at depth {depth}.", script,
                [Wide(length=0x10000, disk=f"host:{depth:x}")], shows=[("holds, releases and drops by lot", f"{kind}, {depth} in flight")])


# --- each request

class HeldAsking(Asking):
    """A driver whose requests are held: on offer, and while one of them is in flight; or dropped."""

    def notify(self, window, index):
        if window == "c":
            return super().notify(window, index)
        self.do("hold")
        found = Guest.notify(self, window, index)
        self.look(self.done, 1)
        self.do("release")
        while self.flight():
            self.do("hold")
            self.write("b", NOTIFY, 0)
            self.finish(None)
            self.look(self.done, 1)
            self.do("release")
        return found


class DroppedAsking(Asking):
    """A driver whose requests are dropped; then it comes up again."""

    def notify(self, window, index):
        found = Guest.notify(self, window, index)
        if window == "b" and self.flight():
            self.do("drop")
            self.do("io", "0 done")
            self.read("b", STATUS)
            self.write("b", NOTIFY, 0)
            self.ring("b", 0).look()
            self.bring_up("b", self.setup)
        return found


def requests(is_packed, is_rich):
    def script(life):
        for driver in (HeldAsking, DroppedAsking):
            guest = driver(life)
            guest.bring_up("b", Setup(is_rich, is_packed, 8, 0))
            for name in REQUESTS:
                for _ in range(3):
                    guest.asks(name)

    kind, features = "packed" if is_packed else "split", "all_features" if is_rich else "no_feature"
    return Life(f"holds/{kind}_requests_with_{features}", "Each request is held on offer and in flight, done and failed, and dropped.", script,
                [Wide(length=0x10000)], hosted=True, shows=[("each request held and dropped", f"{kind}, {features.replace('_', ' ')}")])


# --- each action

def actions_while_held(window, is_packed):
    """Each action, held; of a disk nothing is then served, and a release takes what waits."""
    def script(life):
        guest, setup = Asking(life), Setup(True, is_packed, 8, 0)
        guest.acknowledges = False
        for action in ACTIONS[window].values():
            guest.bring_up("b", setup)
            guest.bring_up("c", setup)
            guest.do("hold")
            action(guest, window, setup)
            guest.do("release")
            while guest.flight():
                guest.finish(None)
            guest.read("b", STATUS)
            guest.do("hold")
            guest.do("release")

    device, kind = "disk" if window == "b" else "console", "packed" if is_packed else "split"
    return Life(f"holds/{kind}_actions_of_a_{device}", f"Each action of a {device} while the slot is held.", script, [Wide(length=0x10000)],
                hosted=True, shows=[(f"each action of a {device}", f"{kind}, held")])


def over_an_image(window, is_packed):
    def script(life):
        guest, setup = Guest(life), Setup(True, is_packed, 8, 0)
        for turn, action in enumerate(ACTIONS[window].values()):
            guest.bring_up("b", setup)
            guest.bring_up("c", setup)
            guest.do(("hold", "drop", "release")[turn % 3])
            guest.do("hold")
            action(guest, window, setup)
            guest.do("drop")
            guest.do("release")

    device, kind = "disk" if window == "b" else "console", "packed" if is_packed else "split"
    return Life(f"holds/{kind}_actions_of_a_{device}_over_an_image", f"Each action of a {device} over an image, which nobody holds or drops.", script,
                [Wide(length=0x10000)], shows=[(f"each action of a {device}", f"{kind}, over an image")])
