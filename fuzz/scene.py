"""A board with its guests and the order of their events, from a seed."""
import random

from further_consoles import FurtherConsole
from further_devices import COUNTS, give_devices
from further_disks import DiskDriver
from guests import IDENTITY_TEXT, MEMORIES, SECTOR, Guest, Slot, live
from host import Host, complete_nothing
from image_disks import SPARES, ImageDisk
from trace_text import EXTENDED, FIRST, FIRST_LINES

BASES = [0x80000000, 0x80000000, 0, 0x40000000, (1 << 64) - 0x10000]
CACHES = [1, 2, 3, 8, 65536]
WILDNESS = [0, 0, 0.1, 0.4, 0.8]
SAID = ["io {} 0 done", "drop {}", "hold {}", "release {}"]
STRANGERS = ["r {} b 000 4", "w {} b 070 4 00000000", "w {} c 050 4 00000000", "mr {} 80000000 4", "mw {} 80000000 ff"]

# How many regions a memory has behind its first one in an extended trace, how long these are, and how far from the next.
OTHERS = [0, 0, 1, 1, 2, 7]
OTHER_LENGTHS = [0x8000, 0x10000]
GAPS = [0x1000, 0x1000, 0x3000, 0x100000, 0x10000000]

# The share of the traces with disks that the host serves, where there may be any, of these the share with disks on the image too, and how
# often the host of a guest is late.
HOSTED, BOTH, LATE = 1 / 3, 1 / 2, 0.7

# The share of the guests of an extended trace with further devices, where there may be any. A hostile guest whose disk the host serves has
# none: what they write may change what it asks of its disk, and the model knows nothing of them.
FURTHER = 1 / 2
# And of those over an image the share with spare sectors, which such devices may be disks of.
SPARE = 3 / 4
# How many events more a guest does for each of them.
FURTHER_EVENTS = 300
STRANGE = ["plug {} 0 entropy", "dr {} 0 000 4", "dw {} 0 070 4 00000000", "supply {} 0 ff", "frame {} 0 ff", "take {} 0", "dsent {} 0", "link {} 0 up",
           "dsz {} 0 50 19", "dio {} 0 0 done", "ddrop {} 0", "dhold {} 0", "drelease {} 0"]
STRANGE_RUN = "plug {} 0 image 0 1 rw 0000000000000000000000000000000000000000"

# How many operations of a hosted disk may be in flight.
DEPTHS = [1, 1, 2, 3, 8, 64]


class Scene:
    """Two to four guests on one board, each with a run of the image's sectors for its disk. A disk that the host serves begins with
    the bytes of this run; its line says that it begins anywhere."""

    GUESTS = 2, 5
    DISKS = 2 * [0, 1, 2, 4, 8] + [130]

    def __init__(self, seed, offered, may_be_hosted=False, may_have_devices=False):
        self.seed, dice = seed, random.Random(seed)
        names, hosts, kinds = (random.Random(f"{what} {seed}") for what in ("identities", "hosts", "kinds"))
        self.may_have_devices = may_have_devices and offered.entropy is not None
        self.is_hosted = may_be_hosted and hosts.random() < HOSTED
        is_both = kinds.random() < BOTH
        self.first_line = EXTENDED if self.is_hosted else self.first_line_of(seed, names)
        self.cache = dice.choice(CACHES)
        self.guests, start = [], dice.randrange(3)
        for _ in range(dice.randrange(*self.GUESTS)):
            length, count = dice.choice(MEMORIES), dice.choice(self.DISKS)
            count = hosts.choice([count, 8]) if self.is_hosted else count
            base = min(dice.choice(BASES), (1 << 64) - length)
            identity = IDENTITY_TEXT if self.first_line == FIRST else names.randbytes(20)
            slot = Slot(base, length, start, count, dice.random() < 0.2, dice.randrange(200), dice.randrange(100), identity)
            slot = slot._replace(others=self.others(slot, random.Random(f"regions {seed} {len(self.guests)}")))
            self.guests.append(Guest(dice, slot, dice.choice(WILDNESS)))
            self.guests[-1].is_hosted = self.is_hosted and not (is_both and kinds.random() < 0.5)
            self.guests[-1].depth = kinds.choice(DEPTHS)
            self.guests[-1].spare = self.spare(self.guests[-1], offered, random.Random(f"spare {seed} {len(self.guests)}"))
            start += count + self.guests[-1].spare + dice.choice([0, 0, 1, 2])
        self.image = dice.randbytes(SECTOR * (start + dice.randrange(2)))
        for number, guest in enumerate(self.guests):
            first = SECTOR * guest.slot.start
            guest.spare_bytes = self.image[first + SECTOR * guest.slot.count:][:SECTOR * guest.spare]
            self.give(guest, offered, random.Random(f"further {seed} {number}"))
            disk = self.image[first:first + SECTOR * guest.slot.count]
            self.live(guest, offered, disk, dice.randrange(100, 350) + FURTHER_EVENTS * len(guest.further))
            if guest.is_hosted:
                Host(guest, disk, hosts, hosts.random() < LATE).serve()
                guest.slot = guest.slot._replace(start=kinds.choice([guest.slot.start, 0, self.guests[0].slot.start, (1 << 64) - 1]))
            elif self.is_hosted:
                complete_nothing(guest, hosts)
        self.is_hosted = any(guest.is_hosted for guest in self.guests)
        self.lines = list(self.interleaved(dice))

    def first_line_of(self, seed, dice):
        """The first line of a trace over an image."""
        return dice.choice(FIRST_LINES)

    def others(self, slot, dice):
        """The other regions of a guest's memory: above or below all that it has so far."""
        found = []
        for _ in range(dice.choice(OTHERS) if self.first_line == EXTENDED else 0):
            regions = sorted([(slot.base, slot.length), *found])
            (first, _), (last, length) = regions[0], regions[-1]
            size, gap = dice.choice(OTHER_LENGTHS), dice.choice(GAPS)
            places = [at for at in (last + length + gap, first - gap - size) if 0 <= at and at + size <= 1 << 64]
            if places:
                found.append((dice.choice(places), size))
        return tuple(found)

    def spare(self, guest, offered, dice):
        """How many spare sectors of the image a guest has."""
        may = self.may_have_devices and self.first_line == EXTENDED and not guest.is_hosted and offered.image_disk is not None
        return dice.choice(SPARES) if may and dice.random() < SPARE else 0

    def give(self, guest, offered, dice):
        """Gives a guest further devices, where it may have some; disks over its spare sectors where there are enough for each."""
        may = self.may_have_devices and self.first_line == EXTENDED and not (guest.is_hosted and guest.wildness)
        if may and dice.random() < FURTHER:
            disks = 3 * [ImageDisk] if guest.spare >= max(COUNTS) else []
            kinds = [(offered.disk, DiskDriver), (offered.further_console, FurtherConsole)]
            give_devices(guest, offered, dice, [driver for low, driver in kinds if low is not None] + disks)

    def live(self, guest, offered, disk, count):
        """Makes a guest do about `count` events over its disk."""
        live(guest, offered, disk, count)

    def interleaved(self, dice):
        """The events of all guests in one order, as (guest, number of the event), and now and then one of nobody's."""
        done = [0] * len(self.guests)
        while any(left := [len(guest.events) - count for guest, count in zip(self.guests, done)]):
            guest = dice.choices(range(len(done)), left)[0]
            for _ in range(min(left[guest], dice.choice([1, 1, 2, 5, 20]))):
                yield guest, done[guest]
                done[guest] += 1
            if dice.random() < 0.01:
                yield None, dice.choice(self.strangers()).format(f"{dice.randrange(len(done), 256):x}")

    def strangers(self):
        """What happens to slots that aren't there."""
        has_devices, has_spare = any(guest.further for guest in self.guests), any(guest.spare for guest in self.guests)
        return STRANGERS + (SAID if self.is_hosted else []) + (STRANGE if has_devices else []) + ([STRANGE_RUN] if has_spare else [])

    def trace(self, cache=None, first_line=None):
        """The whole trace."""
        return self.text(first_line or self.first_line, cache or self.cache, range(len(self.guests)), [
            what if guest is None else self.event(guest, what, guest) for guest, what in self.lines])

    def trace_alone(self, guest):
        """The trace of a board with this guest alone, as its slot 0."""
        count = len(self.guests[guest].events)
        return self.text(self.first_line, self.cache, [guest], [self.event(guest, number, 0) for number in range(count)])

    def text(self, first_line, cache, guests, events):
        slots = [guest.slot.line(first_line, guest.disk_field()) for guest in map(self.guests.__getitem__, guests)]
        return "\n".join([first_line, f"cache {cache:x}"] + slots + events) + "\n"

    def event(self, guest, number, slot):
        word, fields = self.guests[guest].events[number]
        return f"{word} {slot:x}" + (f" {fields}" if fields else "")

    def changed(self, after):
        """The sectors that an image has otherwise than the one of before."""
        sectors = range(0, len(after), SECTOR)
        return {at // SECTOR for at in sectors if after[at:at + SECTOR] != self.image[at:at + SECTOR]}
