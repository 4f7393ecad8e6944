"""Drivers of further devices, and what the host of a guest does with these: entropy devices and network cards here, disks in
further_disks.py, consoles in further_consoles.py.

A sane driver counts what waits in its device, and so knows which chains are used before it sees an answer. What its host gave, and
what it offered, stands at its events as `meant`, for arrivals.py.
"""
from collections import namedtuple

from guests import EVENT_IDX, Driver
from queues import AREAS, BUFFERS

NOTIFY, GENERATION, CARD_STATUS = 0x050, 0x0FC, 0x106
POOL, FRAMES, FRAME_BYTES = 4096, 64, 65536
HEADER, ETHERNET, LEAST_MTU = 12, 14, 68

# How many further devices a guest has, and what these may be.
COUNTS = [1, 1, 2, 2, 3, 6]
MTUS = 3 * [68, 576, 1500, 1500] + [9000, 65535]
# How many bytes the host supplies at once, and how many frames it hands over or takes.
SUPPLIES = [0, 1, 7, 64, 300, 1000, 4095, 4096, 5000]
BURSTS = 6 * [1] + [2, 2, 3, 3, 5, 70]
# What no device takes that isn't there.
TO_NONE = ["dr {} 000 4", "dw {} 070 4 00000000", "supply {} 00", "frame {} 00", "take {}", "dsent {}", "link {} down",
           "dsz {} 50 19", "dio {} 0 done", "ddrop {}", "dhold {}", "drelease {}"]
# And no device takes that is no disk, and none that is no console.
OF_DISKS = ["dio {} 0 failed", "ddrop {}", "dhold {}", "drelease {}"]
OF_CONSOLES = ["dsz {} 50 19"]

# A chain that was offered: by which number the device names it, how many places of the ring it has, its buffers, their length, and
# what the driver wrote into them, where the device reads it.
Chain = namedtuple("Chain", "name places pieces length sent")


class FurtherDriver(Driver):
    """What all kinds share: a device that is plugged in first, chains that wait in it, and a look at what became of them."""

    # Whether it is a disk over spare sectors of the image.
    IS_OVER_IMAGE = False

    def __init__(self, guest, offered, number, at, mtu):
        self.number, self.at, self.mtu, self.is_plugged, self.is_up = number, at, mtu, False, False
        super().__init__(guest, f"{number:x}", offered, self.places(mtu))
        suppresses = guest.dice.random() < 0.5
        # A driver that wants each notification must get it.
        self.wants_all = not suppresses and not self.low & EVENT_IDX
        for queue, space in zip(self.queues, self.spaces(mtu)):
            queue.space, queue.suppresses = space, suppresses
            queue.start_over()
        self.start_over()

    def start_over(self):
        """Of each queue: the chains that wait, those of which no look has told that they are used, and how many descriptors are free."""
        self.waiting, self.unseen = [[] for _ in self.queues], [[] for _ in self.queues]
        self.free = [queue.size for queue in self.queues]

    @classmethod
    def places(cls, mtu):
        """Where each queue begins."""
        spaces = cls.spaces(mtu)
        return [AREAS * number + sum(spaces[:number]) for number in range(len(spaces))]

    @classmethod
    def room(cls, mtu):
        """How many bytes of memory all queues have."""
        return sum(AREAS + space for space in cls.spaces(mtu))

    def areas_at(self, place):
        return self.at + place

    def say(self, word, fields="", reply=None):
        """What the host does with the device."""
        self.guest.do(word, f"{self.window} {fields}".strip(), reply)

    def plug(self):
        """Plugs the device in, where it is the next one."""
        if self.guest.plugged == self.number:
            self.say("plug", self.kind(), "done")
            self.guest.plugged += 1
            self.is_plugged = True

    def bring_up(self):
        self.plug()
        if not self.is_plugged or self.guest.dice.random() < 0.1:
            return
        first = len(self.guest.events)
        super().bring_up()
        self.guest.events[first].meant = "reset", self.window
        self.start_over()
        self.is_up = True

    def step(self):
        if not self.is_plugged:
            self.guest.dice.choice([self.plug, self.odd])()
            return
        self.guest.dice.choice(self.ways())()
        if self.guest.dice.random() < 0.3:
            self.acknowledge()

    def acknowledge(self):
        bits = self.guest.dice.choice([1, 3])
        self.guest.read(self.window, 0x060)
        self.guest.mean("interrupts", self.window, self.wants_all)
        self.guest.write(self.window, 0x064, bits)
        self.guest.mean("acknowledged", self.window, bits)

    def odd(self):
        """What no device takes."""
        dice, guest = self.guest.dice, self.guest
        absent = f"{dice.choice([guest.plugged, guest.plugged + 1, 6, 255]):x}"
        lines = [line.format(absent) for line in TO_NONE]
        lines += [f"plug {dice.choice([guest.plugged + 1, 6, 255]):x} entropy", f"plug {absent} network:525400123456:{LEAST_MTU - 1:x}"]
        lines += [f"plug {absent} disk {dice.choice(['80000000000000 rw', 'ffffffffffffffff ro'])} {bytes(20).hex()} 1",
                  f"plug {absent} disk 8 rw {bytes(20).hex()} {dice.choice([0, 65, 255]):x}"]
        if self.offered.image_disk is not None:
            lines += [f"plug {absent} image {run} {dice.choice(['rw', 'ro'])} {bytes(20).hex()}" for run in self.bad_runs()]
        lines += [line.format(self.window) for line in self.refused()] if self.is_plugged else []
        word, fields = dice.choice(lines).split(" ", 1)
        guest.do(word, fields, "baddevice")

    def bad_runs(self):
        """Runs of sectors that no disk of the guest may have now: none, some past the spare ones, and one that another disk has."""
        dice, spare = self.guest.dice, self.guest.spare
        taken = [disk.place + dice.randrange(disk.sectors) for disk in self.guest.image_disks() if disk.is_plugged]
        past = [f"{max(spare, 1) - 1:x} {spare - max(spare, 1) + 2:x}", f"{spare:x} 1", f"0 {spare + 1:x}"]
        return [f"{dice.randrange(spare + 1):x} 0", dice.choice(past), dice.choice(["1 ffffffffffffffff", "ffffffffffffffff 1"]),
                *[f"{place:x} 1" for place in taken[:2]]]

    def take_out(self, sent):
        """The host takes what was sent, or drops it."""
        is_dropped = self.guest.dice.random() < 0.2
        self.say(*("dsent", "", f"took:{len(sent):x}") if is_dropped else ("take", "", f"b:{sent.hex() or '-'}"))
        self.guest.mean("drop" if is_dropped else "take", self.window)

    def may_offer(self, which):
        """Whether there are descriptors for a chain; those of used chains, and all buffers, are free where no chain waits."""
        queue, waiting = self.queues[which], self.waiting[which]
        if self.guest.wildness and self.guest.dice.random() < 0.5:
            waiting.clear()
        if not waiting:
            queue.give_buffers_back()
            self.free[which] = queue.size
        return self.is_up and self.free[which] > 0

    def offer(self, which, length, sent=None):
        """Offers a chain of so many bytes, or of bytes that the device reads, where there are place and room for it."""
        queue, guest = self.queues[which], self.guest
        if queue.room_left() < length + 200:
            return
        pieces, is_read, rest = queue.pieces(length), sent is not None, sent
        if self.free[which] < len(pieces):
            return
        for address, count in pieces:
            guest.put(address, rest[:count] if is_read else guest.dice.randbytes(min(count, 64)))
            rest = rest[count:] if is_read else None
        queue.left = self.free[which]
        name, places = queue.offer([(address, count, not is_read) for address, count in pieces])
        self.free[which] = queue.left
        chain = Chain(name, places, pieces, length, sent)
        self.waiting[which].append(chain)
        self.unseen[which].append(chain)

    def publish(self, which):
        """Publishes what was offered, and mostly says so."""
        queue = self.queues[which]
        queue.publish()
        if self.guest.dice.random() < 0.9:
            self.guest.write(self.window, NOTIFY, queue.notification(), reply="done")
            self.serve(which)
        self.look(which)

    def look(self, which):
        """Looks at a ring, and at all buffers that the device may have written since the last look."""
        queue, guest, chains = self.queues[which], self.guest, self.unseen[which]
        if not self.is_up:
            return
        queue.look_at_ring()
        guest.mean("ring", self.window, which, queue, chains, len(self.waiting[which]))
        for address, length in [piece for chain in chains if chain.sent is None for piece in chain.pieces]:
            guest.look(address, length)
            guest.mean("buffer", self.window, address)
        self.unseen[which] = list(self.waiting[which])


class EntropyDriver(FurtherDriver):
    """Asks for random bytes, which its host supplies."""

    def __init__(self, *args):
        super().__init__(*args)
        self.pool = 0

    @staticmethod
    def spaces(mtu):
        return [BUFFERS]

    @staticmethod
    def kind():
        return "entropy"

    def own_features(self):
        return self.offered.entropy

    def ways(self):
        return [self.supply, self.supply, self.ask, self.ask, self.ask, self.odd]

    def refused(self):
        return ["frame {} 00", "take {}", "dsent {}", "link {} up", *OF_DISKS, *OF_CONSOLES]

    def supply(self):
        guest = self.guest
        given = guest.dice.randbytes(guest.dice.choice(SUPPLIES))
        taken = min(len(given), POOL - self.pool)
        self.say("supply", given.hex() or "-", f"took:{taken:x}")
        guest.mean("supply", self.window, given)
        self.pool += taken
        self.serve(0)
        self.look(0)

    def ask(self):
        if not self.may_offer(0):
            return
        for _ in range(self.guest.dice.choice([1, 1, 2, 3])):
            self.offer(0, self.guest.dice.choice([1, 3, 40, 200, 512, 1200]))
        self.publish(0)

    def serve(self, which):
        """Each chain in turn takes what is in the pool, as long as anything is."""
        while self.is_up and self.pool and self.waiting[0]:
            self.pool -= min(self.pool, self.waiting[0].pop(0).length)

    def finish(self):
        """A last look."""
        self.look(0)


class CardDriver(FurtherDriver):
    """Sends frames, which its host takes or drops, and receives those that it hands over."""

    RECEIVE, TRANSMIT = 0, 1

    def __init__(self, *args):
        super().__init__(*args)
        self.address = self.guest.dice.randbytes(6)
        # The lengths of the frames that wait for the driver, those frames that wait for the host, and how often the link changed.
        self.handed, self.sent, self.changes, self.is_ample = [], [], 0, self.guest.dice.random() < 0.6

    @staticmethod
    def spaces(mtu):
        return [max(BUFFERS, (mtu + 0x7FF) // 0x400 * 0x400)] * 2

    def kind(self):
        return f"network:{self.address.hex()}:{self.mtu:x}"

    def own_features(self):
        return self.offered.network

    def ways(self):
        return [self.hand_over] * 4 + [self.receive] * 5 + [self.transmit] * 4 + [self.take] * 2 + [self.link, self.odd]

    def refused(self):
        return ["supply {} 00", "frame {} -", "frame {} " + "00" * (self.mtu + ETHERNET + 1), *OF_DISKS, *OF_CONSOLES]

    def length(self):
        """A frame's length, most times a short one where the card takes long ones."""
        dice, longest = self.guest.dice, self.mtu + ETHERNET
        if longest > 2000 and dice.random() < 0.8:
            return dice.choice([60, 1514])
        return min(dice.choice([1, 14, 60, 60, 82, 300, 590, 1514, longest - 1, longest]), longest)

    def hand_over(self):
        guest = self.guest
        for _ in range(guest.dice.choice(BURSTS)):
            frame = guest.dice.randbytes(self.length())
            has_room = len(self.handed) < FRAMES and sum(self.handed) + len(frame) <= FRAME_BYTES
            self.say("frame", frame.hex(), f"took:{len(frame) if has_room else 0:x}")
            guest.mean("frame", self.window, frame)
            if has_room:
                self.handed.append(len(frame))
                self.serve(self.RECEIVE)
        self.look(self.RECEIVE)

    def receive(self):
        """Offers buffers, each for the longest frame (5.1.6.3.1), or of a driver that isn't ample also shorter ones."""
        if not self.may_offer(self.RECEIVE):
            return
        ample = HEADER + ETHERNET + self.mtu
        for _ in range(self.guest.dice.choice([1, 2, 4])):
            self.offer(self.RECEIVE, ample if self.is_ample else self.guest.dice.choice([HEADER, HEADER + 1, 40, 100, 700, ample]))
        self.publish(self.RECEIVE)

    def transmit(self):
        """Offers frames behind a header of zeros; a ring full of them now and then."""
        if not self.may_offer(self.TRANSMIT):
            return
        dice = self.guest.dice
        for _ in range(dice.choice([1, 1, 2, 3, 16])):
            frame = dice.randbytes(self.length())
            self.offer(self.TRANSMIT, HEADER + len(frame), bytes(HEADER) + frame)
        self.publish(self.TRANSMIT)

    def take(self):
        for _ in range(self.guest.dice.choice(BURSTS)):
            self.take_one()
        self.look(self.TRANSMIT)

    def take_one(self):
        frame = self.sent.pop(0) if self.sent else b""
        self.take_out(frame)
        if frame and not self.sent:
            self.serve(self.TRANSMIT)

    def link(self):
        is_up = self.guest.dice.random() < 0.5
        self.say("link", "up" if is_up else "down", "done")
        if self.is_up:
            self.guest.mean("link", self.window)
        self.changes += 1
        self.guest.read(self.window, CARD_STATUS, 2, found=int(is_up))
        self.guest.read(self.window, GENERATION, found=self.changes)

    def serve(self, which):
        """What a service does with the chains that wait."""
        if self.is_up:
            (self.serve_transmit if which else self.serve_receive)()

    def serve_receive(self):
        """Each chain takes the first frame that fits; those before it are dropped, and all where none does."""
        waiting = self.waiting[self.RECEIVE]
        while waiting and self.handed:
            room = waiting[0].length - HEADER
            fitting = next((at for at, length in enumerate(self.handed) if length <= room), None)
            if fitting is None:
                self.handed.clear()
                return
            del self.handed[:fitting + 1]
            waiting.pop(0)

    def serve_transmit(self):
        """Each chain's frame waits for the host, as long as there is room; one for which there never is is dropped."""
        waiting = self.waiting[self.TRANSMIT]
        while waiting:
            frame = waiting[0].sent[HEADER:]
            if len(frame) <= FRAME_BYTES:
                if len(self.sent) == FRAMES or sum(map(len, self.sent)) + len(frame) > FRAME_BYTES:
                    return
                self.sent.append(frame)
            waiting.pop(0)

    def finish(self):
        """The host takes all that waits, and finds that no more does."""
        if not self.is_plugged:
            return
        self.look(self.RECEIVE)
        while self.sent and not self.guest.wildness:
            self.take_one()
        self.take_one()
        self.look(self.TRANSMIT)


def give_devices(guest, offered, dice, others):
    """Gives a guest some further devices, `others` are further kinds of drivers; all of these keep what they have in a region of memory
    above or below the others."""
    kinds = [CardDriver, EntropyDriver, *others]
    devices = [(kind, dice.choice(MTUS) if kind is CardDriver else 0) for kind in dice.choices(kinds, k=dice.choice(COUNTS))]
    rooms = [driver.room(mtu) for driver, mtu in devices]
    length = (sum(rooms) + 0xFFF) // 0x1000 * 0x1000
    others = guest.slot.others[:6]
    regions = guest.slot._replace(others=others).regions()
    above = sum(regions[-1]) + 0x1000
    guest.runs = runs_of(dice, guest.spare, sum(driver.IS_OVER_IMAGE for driver, _ in devices))
    guest.apart = (above if above + length <= 1 << 64 else regions[0][0] - 0x1000 - length), length
    guest.slot = guest.slot._replace(others=(*others, guest.apart))
    places = [guest.apart[0] + sum(rooms[:number]) for number in range(len(rooms))]
    guest.further = [driver(guest, offered, number, places[number], mtu) for number, (driver, mtu) in enumerate(devices)]


def runs_of(dice, spare, count):
    """So many runs of spare sectors that are apart, in any order: often all of them, and many border on each other."""
    ends = sorted(dice.sample(range(spare + 1), count + 1))
    if dice.random() < 0.5:
        ends[0], ends[-1] = 0, spare
    runs = [(first, last - first) for first, last in zip(ends, ends[1:])]
    dice.shuffle(runs)
    return runs
