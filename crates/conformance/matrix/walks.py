"""Guests that choose by lot what they do next, on boards of each kind."""
import dataclasses

from .by_hand import up, written_out
from .follows import Life, Wide
from .lots import LENGTH, Dice, Lots
from .story import Slot, plain_image

TITLE = "Walks"
HOW = ("A guest takes 800 steps, each drawn by lot: it brings a window up, asks its disk, puts texts out, takes what is typed, breaks a ring, "
       "stops a queue, writes any register, is saved and restored, has a request completed. Chains have any form, and lie anywhere; queues "
       "have any size, and the driver names any event. The lot is the same in each making.")
COLUMNS = ("What", "Where")
FOLDERS = {"walks": "Guests that choose by lot what they do next."}

# What a board is like, and how many walks there are on such.
BOARDS = {"plain": 3, "of_version_2": 3, "extended": 12, "hosted": 9, "failing": 6, "two": 4, "two_hosted": 4, "regions": 6, "many": 3, "two_both": 8,
          "two_both_failing": 4}
ABOUT = {"plain": "on a slot of version 1", "of_version_2": "on a slot of version 2", "extended": "on a slot that is restored",
         "hosted": "on a disk that the host serves", "failing": "on an image whose calls fail", "two": "beside another",
         "two_hosted": "beside another, on disks that the host serves", "regions": "in a memory of three regions", "many": "among 64 slots",
         "two_both": "beside another, on an extent and a hosted disk", "two_both_failing": "beside another, on a hosted disk and an image whose calls fail"}
WIDE = ("extended", "hosted", "two", "two_hosted", "regions", "two_both", "two_both_failing")
# The sizes that split rings of a walk may have.
SIZES = [(1, 2, 4, 8), (4,), (2, 8), (8, 16), (1,), (256, 4)]
STEPS = 800


def stories():
    yield by_hand()
    for kind, count in BOARDS.items():
        for turn in range(count):
            yield walk(kind, turn)


def by_hand():
    """A text, a resize, a fault, and a reset."""
    return written_out("walks/a_walk_by_hand", "A text goes out, the console is resized, its queue gets a bad head, and is reset.", up(1) + """
        mw 0 80004000 6162 > 0 done - 0 0
        mw 0 80001000 00400080000000000200000000000000 > 0 done - 0 0
        mw 0 80002000 000001000000 > 0 done - 0 0
        w 0 c 050 4 00000001 > 0 done 6162 0 1
        mr 0 80003000 c > 0 b:000001000000000000000000 - 0 1
        sz 0 20 10 > 0 done - 0 3
        w 0 c 064 4 00000001 > 0 done - 0 2
        mw 0 80002000 0000020000000400 > 0 done - 0 2
        w 0 c 050 4 00000001 > 0 done - 0 2
        r 0 c 070 4 > 0 v:0000004f - 0 2
        mr 0 80003000 4 > 0 b:00000100 - 0 2
        w 0 c 070 4 00000000 > 0 done - 0 0
        r 0 c 0fc 4 > 0 v:00000001 - 0 0
        r 0 c 100 4 > 0 v:00100020 - 0 0
        """)


def slots_of(kind, dice):
    """The slots of a walk's board."""
    count = 2 if kind.startswith("two") else 64 if kind == "many" else 1
    slots, start = [], dice.one((0, 3))
    for _ in range(count):
        sectors = dice.one((8, 5, 1, 12, 40)) if count < 64 else dice.one((1, 2))
        identity = None if kind in ("plain", "failing") else bytes(dice.below(256) for _ in range(20))
        slot = Slot(dice.one((0x80000000, 0, 0x1ffff0000)), LENGTH, start, sectors, dice.one(("rw", "rw", "rw", "ro")), identity=identity)
        others = ((slot.base + LENGTH + 0x1000, LENGTH), (slot.base + 0x1000000000, LENGTH)) if kind == "regions" else ()
        slots.append(Wide(**dataclasses.asdict(slot), others=others) if kind in WIDE else slot)
        start += sectors
    if kind.startswith("two_both"):
        at = dice.below(2)
        slots[at] = dataclasses.replace(slots[at], disk="host:1", start=slots[1 - at].start)
    return slots


def guests_of(life, dice, sizes):
    """The guests that walk: of 64 slots three."""
    places = range(len(life.slots)) if len(life.slots) < 64 else sorted({dice.below(64), 63, 16})
    guests = [Lots(life, dice, at, sizes) for at in places]
    for guest in guests:
        regions = [guest.base, *(base for base, _ in getattr(life.slots[guest.slot], "others", ()))]
        guest.base, guest.room = dice.one(regions), dice.one(regions)
    return guests


def walk(kind, turn):
    name = f"walks/{kind}_{turn}"
    dice = Dice(name)
    slots = slots_of(kind, dice)
    image = plain_image(max(max(slot.start + slot.count for slot in slots) + dice.below(2), 8))
    fails = sorted({dice.below(900) for _ in range(200)}) if kind.endswith("failing") else None

    def script(life):
        guests = guests_of(life, dice, SIZES[(turn + 2 * list(BOARDS).index(kind)) % len(SIZES)])
        for _ in range(STEPS):
            dice.one(guests).step()

    return Life(name, f"A guest takes steps by lot {ABOUT[kind]}.", script, slots, cache=dice.one((1, 2, 3, 8)), image=image, fails=fails,
                hosted=kind.endswith("hosted"), shows=[("steps by lot", ABOUT[kind])])
