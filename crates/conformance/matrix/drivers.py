"""A driver's half of a queue: how it is brought up, what it writes for a chain, and what a notify must tell.

Both kinds have the same calls, so that one table speaks of both: `offer` writes a chain's descriptors and offers it, `notify`
tells the device, with what the rules say comes of it.
"""
import dataclasses
import enum
import struct

from .story import BASE, CHANGED, USED

NEXT, WRITE, INDIRECT, AVAIL, USED_FLAG = 1, 2, 4, 0x80, 0x8000
INDIRECT_DESC, EVENT_IDX = 1 << 28, 1 << 29
VERSION_1, RING_PACKED, NOTIFICATION_DATA = 1 << 0, 1 << 2, 1 << 6

# Status and its values.
STATUS, ACKNOWLEDGE, DRIVER, DRIVER_OK, FEATURES_OK, NEEDS_RESET, FAILED = 0x070, 1, 2, 4, 8, 64, 128
DEVICE_SEL, DRIVER_FEATURES, DRIVER_SEL, QUEUE_SEL, QUEUE_NUM, QUEUE_READY = 0x014, 0x020, 0x024, 0x030, 0x038, 0x044
NOTIFY, INTERRUPT_ACK = 0x050, 0x064
AREAS = (0x080, 0x090, 0x0a0)


class Comes(enum.Enum):
    """What comes of a notify."""

    SERVED = "all that is on offer is served"
    FAULT = "a fault"
    NOTHING = "nothing"


SERVED, FAULT, NOTHING = Comes.SERVED, Comes.FAULT, Comes.NOTHING


@dataclasses.dataclass(frozen=True)
class Buffer:
    """A descriptor's fields before the ring's own are put in. `link` is next in a split ring, the id in a packed one; where it
    isn't given, next is the index behind this one, and the id 0."""

    address: int
    length: int
    flags: int = 0
    link: int = -1

    def marked(self, flags):
        """It with further flags."""
        return Buffer(self.address, self.length, self.flags | flags, self.link)


# A descriptor of a split ring: address, length, flags and next; of a packed one the id stands before the flags.
DESCRIPTOR = struct.Struct("<QIHH")


def number(value, size):
    return value.to_bytes(size, "little")


def joined(buffers):
    """The buffers with NEXT, but for the last."""
    return [one.marked(NEXT) for one in buffers[:-1]] + buffers[-1:]


class Queue:
    """What both kinds share. The areas lie 4096 bytes apart from `at` on, unless `areas` says where."""

    is_packed = False

    def __init__(self, story, window="b", index=0, size=4, low=0, at=BASE + 0x1000, slot=0, areas=None, high=VERSION_1):
        self.story, self.window, self.index, self.size, self.low, self.slot = story, window, index, size, low, slot
        self.areas = areas or [at, at + 0x1000, at + 0x2000]
        self.high = high | (RING_PACKED if self.is_packed else 0)
        self.start_over()

    # --- the registers

    def write(self, offset, value, **said):
        self.story.write(self.window, offset, value, slot=self.slot, **said)

    def begin(self):
        """From a reset up to FEATURES_OK."""
        for value in (0, ACKNOWLEDGE, ACKNOWLEDGE | DRIVER):
            self.write(STATUS, value)
        self.write_features()
        self.write(STATUS, ACKNOWLEDGE | DRIVER | FEATURES_OK)

    def write_features(self):
        """The features, after a reset."""
        if self.low:
            self.write(DRIVER_FEATURES, self.low)
        self.write(DRIVER_SEL, 1)
        self.write(DRIVER_FEATURES, self.high)

    def make_ready(self, again=False):
        """This queue's registers, up to QueueReady; `again` leaves out what a reset has put there."""
        if self.index or not again:
            self.write(QUEUE_SEL, self.index)
        self.write(QUEUE_NUM, self.size)
        for offset, area in zip(AREAS, self.areas):
            self.write(offset, area & 0xffffffff)
            if area >> 32 or not again:
                self.write(offset + 4, area >> 32)
        self.write(QUEUE_READY, 1)

    def go(self):
        """DRIVER_OK: the window is live."""
        self.write(STATUS, ACKNOWLEDGE | DRIVER | FEATURES_OK | DRIVER_OK)

    def bring_up(self):
        """From a reset to a live window with this queue alone; the rings as they must be then."""
        self.start_over()
        self.begin()
        self.make_ready()
        self.go()
        return self

    def bring_up_again(self):
        """The same after a fault, in as few writes as do it: what the driver wrote is taken back first."""
        self.start_over()
        self.clear()
        self.write(STATUS, 0)
        self.write_features()
        self.write(STATUS, ACKNOWLEDGE | DRIVER | FEATURES_OK)
        self.make_ready(again=True)
        self.go()
        return self

    # --- services

    def notify(self, comes=SERVED, output=b"", told=None):
        """A notify, and what must come of it. `told` are the bits that it sets, where they aren't those of what comes."""
        if told is None:
            told = {SERVED: USED, FAULT: CHANGED, NOTHING: 0}[comes]
        self.write(NOTIFY, self.index, told=told, output=output)
        self.after(comes)

    def after(self, comes):
        """The driver's own count after a service: what was served is used, what wasn't is taken back."""
        if comes is SERVED:
            self.place = self.offered
        else:
            self.offered = self.place

    def acknowledge(self):
        self.write(INTERRUPT_ACK, USED | CHANGED)

    def table(self, at, buffers, length=None, flags=0):
        """An indirect table of these buffers at an address, and the one buffer that names it. A packed one needs no NEXT."""
        entries = buffers if self.is_packed else joined(buffers)
        self.put(at, b"".join(self.entry(buffer, position) for position, buffer in enumerate(entries)))
        return Buffer(at, 16 * len(buffers) if length is None else length, INDIRECT | flags, 0)

    def put(self, address, content):
        self.story.put(address, content, slot=self.slot)

    def look(self, address, length, found=None):
        self.story.look(address, length, found, slot=self.slot)


class Split(Queue):
    """A split queue. A chain's descriptors stand from index 0 on unless `head` says where; what was there is gone."""

    is_packed = False

    def start_over(self):
        self.place = self.offered = 0

    def clear(self):
        """The available and the used idx of a new queue."""
        self.put(self.areas[1] + 2, bytes(2))

    def entry(self, buffer, position):
        link = position + 1 if buffer.link < 0 else buffer.link
        return DESCRIPTOR.pack(buffer.address, buffer.length, buffer.flags, link % 65536)

    def put_chain(self, buffers, head=0):
        entries = [self.entry(buffer, head + position) for position, buffer in enumerate(buffers)]
        self.put(self.areas[0] + 16 * head, b"".join(entries))

    def offer_raw(self, buffers, taken):
        """Descriptors as they are, from index 0 on, and head 0 on offer. `taken` is how many of them its chain has."""
        self.put_chain(buffers)
        self.offer_head(0)

    def offer_head(self, head):
        """A head on the available ring, and the idx behind it."""
        place, self.offered = self.offered, (self.offered + 1) % 65536
        idx = number(self.offered, 2)
        if place % self.size == 0:
            self.put(self.areas[1] + 2, idx + number(head, 2))
            return
        self.put(self.areas[1] + 4 + 2 * (place % self.size), number(head, 2))
        self.put(self.areas[1] + 2, idx)

    def offer(self, buffers, head=0):
        """Descriptors one behind another, joined by NEXT, and their head on offer."""
        self.put_chain(joined(buffers), head)
        self.offer_head(head)

    def look_at_used(self, length, head=0, back=1):
        """The used entry of the last chain (or of one `back`), and the used idx."""
        place = (self.place - back) % 65536
        self.look(self.areas[2] + 4 + 8 * (place % self.size), 8, number(head, 4) + number(length, 4))
        self.look(self.areas[2] + 2, 2, number(self.place, 2))


class Packed(Queue):
    """A packed queue. A chain's descriptors stand from the driver's place on."""

    is_packed = True

    def start_over(self):
        self.place = self.offered = 0

    def clear(self):
        """A ring of zeros: nothing is on offer."""
        self.put(self.areas[0], bytes(16 * self.size))

    def mark(self, place):
        """The flags that offer a place."""
        return AVAIL if place % (2 * self.size) < self.size else USED_FLAG

    def entry(self, buffer, position):
        link = 0 if buffer.link < 0 else buffer.link
        return DESCRIPTOR.pack(buffer.address, buffer.length, link, buffer.flags)

    def put_chain(self, buffers, place=None):
        """Descriptors from a place on, each offered; those behind the ring's end stand at its front."""
        place, front, behind = self.offered if place is None else place, b"", b""
        for count, buffer in enumerate(buffers):
            marked = buffer.marked(self.mark(place + count))
            if place % self.size + count < self.size:
                front += self.entry(marked, 0)
            else:
                behind += self.entry(marked, 0)
        self.put(self.areas[0] + 16 * (place % self.size), front)
        if behind:
            self.put(self.areas[0], behind)

    def offer(self, buffers, link=0):
        """Descriptors one behind another, joined by NEXT; `link` is the id of those that have none."""
        named = [buffer if buffer.link >= 0 else Buffer(buffer.address, buffer.length, buffer.flags, link) for buffer in joined(buffers)]
        self.put_chain(named)
        self.offered = (self.offered + len(buffers)) % (2 * self.size)

    def offer_raw(self, buffers, taken):
        """Descriptors as they are from the driver's place on; the first alone is marked, by turning its two flags where they
        stand. `taken` is how many of them its list has."""
        first = dataclasses.replace(buffers[0], flags=buffers[0].flags ^ self.mark(self.offered))
        for count, buffer in enumerate([first, *buffers[1:]]):
            self.put(self.areas[0] + 16 * ((self.offered + count) % self.size), self.entry(buffer, 0))
        self.offered = (self.offered + taken) % (2 * self.size)

    def look_at_used(self, length, link=0, wrote=True, count=1):
        """The used entry of the last list, which had `count` descriptors."""
        place = (self.place - count) % (2 * self.size)
        flags = (AVAIL | USED_FLAG if place < self.size else 0) | (WRITE if wrote else 0)
        self.look(self.areas[0] + 16 * (place % self.size) + 8, 8, number(length, 4) + number(link, 2) + number(flags, 2))


KINDS = {"split": Split, "packed": Packed}
