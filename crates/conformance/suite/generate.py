"""Traces of one guest from seeds, by the drivers of the folder fuzz, and by polite ones that break no rule."""
import os
import random
import re
import sys

from .scenarios import CRATE

sys.path.append(os.path.join(os.path.dirname(os.path.dirname(CRATE)), "fuzz"))

import guests
from guests import IDENTITY_TEXT, SECTOR, Guest, Offered, Slot
from trace_text import FIRST

SECTORS = 8
SLOT = Slot(0x80000000, 0x10000, 0, SECTORS, False, 80, 25, IDENTITY_TEXT)
FLUSH_FEATURE = 1 << 9
ASKED = [("b", 0), ("c", 0), ("b", 1)]
PROBE = "".join(f"w 0 {window} 014 4 {word:08x}\nr 0 {window} 010 4\n" for window, word in ASKED)


class Polite:
    """A driver's half without what the standard forbids it, or of which it says nothing."""

    def __init__(self, *args):
        super().__init__(*args)
        for queue in self.queues:
            polish(queue, bool(self.low & guests.EVENT_IDX))


def polish(queue, has_event_idx):
    """Leaves out buffers of no bytes. And since a device may look at any time, the driver asks for notifications before it
    offers anything, and writes the first descriptor of a packed list last."""
    pieces, offer, events = queue.pieces, queue.offer, queue.guest.events
    is_packed, queue.has_asked = isinstance(queue, guests.PackedQueue), False

    def offer_politely(buffers, flags=None):
        if not queue.has_asked:
            ask_for_notifications(queue, has_event_idx)
        before = len(events)
        head = f"{queue.at + 16 * queue.position:x} " if is_packed else None
        offer(buffers, flags)
        if is_packed:
            first = next(at for at in range(before, len(events)) if events[at][1].startswith(head))
            events.append(events.pop(first))

    def publish():
        queue.left, queue.has_asked = queue.size, False
        if not is_packed:
            queue.put_number(queue.driver_area + 2, queue.idx)

    queue.pieces = lambda length: [(at, n) for at, n in pieces(length) if n]
    queue.offer, queue.publish = offer_politely, publish


def ask_for_notifications(queue, has_event_idx):
    """Writes what a driver may write there: flags that aren't reserved, and a place with EVENT_IDX alone (2.7.7.1,
    2.8.14)."""
    dice, queue.has_asked = queue.guest.dice, True
    if isinstance(queue, guests.PackedQueue):
        queue.put_number(queue.driver_area, dice.randrange(queue.size) | dice.choice([0, 0x8000]))
        queue.put_number(queue.driver_area + 2, dice.choice([0, 0, 0, 1, 2 if has_event_idx else 1]))
    elif has_event_idx:
        queue.put_number(queue.driver_area + 4 + 2 * queue.size, (queue.idx + dice.randrange(3)) % (1 << 16))
    else:
        queue.put_number(queue.driver_area, dice.choice([0, 0, 0, 1]))


class PoliteBlockDriver(Polite, guests.BlockDriver):
    """Moves whole sectors of its disk, zeroes them, and flushes where it may."""

    def step(self):
        """One request and a notify: in which order a device uses several is open (2.7, 2.8)."""
        guest, queue, dice = self.guest, self.queues[0], self.guest.dice
        self.request(dice.choice([guests.READ, guests.READ, guests.WRITE, guests.WRITE, guests.FLUSH, guests.ZERO]))
        queue.publish()
        guest.write("b", 0x050, queue.notification())
        for address, data in self.checks:
            guest.look(address, len(data))
        queue.look_at_used()
        queue.give_buffers_back()
        self.checks = []
        if dice.random() < 0.5:
            self.acknowledge()

    def request(self, what):
        """A request of this type where the driver took its feature, else a read. A segment is one: how many a request may
        have is the device's to say."""
        dice, sectors = self.guest.dice, self.guest.slot.count
        count = dice.choice([1, 1, 2])
        sector = dice.randrange(sectors - count + 1)
        if what == guests.FLUSH and self.low & FLUSH_FEATURE:
            self.ask(guests.FLUSH, 0, 0)
        elif what == guests.ZERO and self.low & guests.WRITE_ZEROES:
            self.ask(guests.ZERO, 0, 16, guests.segment_bytes(sector, count, dice.randrange(2)))
        elif what == guests.WRITE:
            self.ask(guests.WRITE, sector, SECTOR * count, dice.randbytes(SECTOR * count))
        else:
            self.ask(guests.READ, sector, SECTOR * count)

    def ask(self, what, sector, length, content=None):
        """Offers a request with this content, or with room for as much, where the virtqueue has place for it."""
        guest, queue = self.guest, self.queues[0]
        if queue.room_left() < length + 200:
            return
        header, data, status = queue.buffer(16), queue.pieces(length), queue.buffer(1)
        if queue.left < len(data) + 2:
            return
        guest.put(header, what.to_bytes(8, "little") + sector.to_bytes(8, "little"))
        guest.put(status, b"\xff")
        buffers, at = [(header, 16, False)], 0
        for address, count in data:
            if content:
                guest.put(address, content[at:at + count])
            buffers.append((address, count, content is None))
            at += count
        if content is None:
            self.rely_on(data, bytes(length))
        self.rely_on([(status, 1)], bytes(1))
        queue.offer(buffers + [(status, 1, True)])


class PoliteConsoleDriver(Polite, guests.ConsoleDriver):
    """Types and transmits texts of at least a byte; its size stays."""

    def step(self):
        self.guest.dice.choice([self.type, self.receive, self.transmit, self.transmit])()
        if self.guest.dice.random() < 0.3:
            self.acknowledge()

    def type(self):
        """So much that never more than a console keeps is pending, also before a driver."""
        if len(self.pending) > 1000 or not self.is_up:
            return
        data = self.guest.dice.randbytes(self.guest.dice.choice([1, 5, 30]))
        self.pending += data
        self.guest.do("in", data.hex())
        self.look_at_received()

    def transmit(self):
        queue, guest = self.queues[1], self.guest
        queue.give_buffers_back()
        for _ in range(guest.dice.randrange(1, 3)):
            pieces = queue.pieces(guest.dice.choice([1, 20, 200]))
            if queue.left >= len(pieces):
                self.fill(pieces)
                queue.offer([(at, n, False) for at, n in pieces])
        queue.publish()
        guest.write("c", 0x050, queue.notification())
        queue.look_at_used()


class Work:
    """A trace and the image that it runs over."""

    def __init__(self, lines, image):
        self.lines, self.image = lines, image

    def text(self):
        return "".join(line + "\n" for line in self.lines)


def probe():
    """A trace that reads which features are offered."""
    return Work(front(1) + PROBE.splitlines(), bytes(SECTOR * SECTORS))


def front(cache):
    """The lines of a trace before its events."""
    return [FIRST, f"cache {cache:x}", SLOT.line(FIRST, "image")]


def offered_by(replies):
    """The features that the answers to the probe tell, or None where they tell other than three words."""
    words = re.findall(r"^0 v:([0-9a-f]{8}) ", "\n".join(replies), re.MULTILINE)
    return Offered(*(int(word, 16) for word in words)) if len(words) == len(ASKED) else None


def in_common(one, other):
    return Offered(*(a & b for a, b in zip(one[:len(ASKED)], other[:len(ASKED)])))


def work(seed, offered, wildness):
    """A trace from a seed. A wildness of 0 is a polite guest, of 1 one that does mischief alone."""
    dice = random.Random(seed)
    guest, image = Guest(dice, SLOT, wildness), dice.randbytes(SECTOR * SECTORS)
    if wildness:
        guests.live(guest, offered, image, 150)
    else:
        live_politely(guest, offered, image)
    events = [f"{word} 0 {fields}" for word, fields in guest.events]
    return Work(front(dice.choice([1, 8])) + events, image)


def live_politely(guest, offered, image):
    drivers = [PoliteBlockDriver(guest, offered, image), PoliteConsoleDriver(guest, offered)]
    for driver in drivers:
        driver.bring_up()
    while len(guest.events) < 150:
        guest.dice.choice(drivers).step()
    for window in "bc":
        for offset in (0x044, 0x060, 0x070):
            guest.read(window, offset)
    guest.look(guest.slot.base, guest.slot.length)
