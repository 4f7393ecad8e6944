"""Drivers of a split and of a packed virtqueue (VIRTIO 1.2, 2.7 and 2.8), which offer chains and take what is used."""
import os
import struct
import time

from front_end import is_readable

NEXT, WRITE, INDIRECT = 1, 2, 4
AVAIL, USED = 1 << 7, 1 << 15
SECONDS = 10


class Silent(Exception):
    """Nothing was used in time."""


class Queue:
    """What both kinds share: three areas, three eventfds, and what is offered."""

    def __init__(self, memory, at=0x80000000, size=256):
        self.memory, self.size, self.log = memory, size, 0
        self.descriptors, self.driver, self.device = at, at + 0x2000, at + 0x4000
        self.kick, self.call, self.error = (os.eventfd(0, os.EFD_NONBLOCK | os.EFD_CLOEXEC) for _ in range(3))
        self.offered = {}
        memory.write(at, bytes(0x5000))

    def __del__(self):
        for file in (self.kick, self.call, self.error):
            os.close(file)

    def notify(self):
        os.eventfd_write(self.kick, 1)

    def wait(self, count=1, seconds=SECONDS):
        """The next entries that are used, so many at least, as (id, length)."""
        found, until = [], time.monotonic() + seconds
        while True:
            found += self.taken()
            if len(found) >= count:
                return found
            if time.monotonic() > until:
                raise Silent(f"{len(found)} of {count} chains were used in {seconds} seconds")
            if is_readable(self.call, 0.02):
                os.eventfd_read(self.call)

    def has_failed(self, seconds=SECONDS):
        """Whether the back end tells an error of the queue in time."""
        return is_readable(self.error, seconds)


class Split(Queue):
    """A split virtqueue, from a place of its available ring on."""

    FIRST = 0

    def __init__(self, memory, passed=0, **how):
        super().__init__(memory, **how)
        self.next_offer = self.next_used = passed & 0xffff
        self.free = list(range(self.size))
        for area in (self.driver, self.device):
            memory.put_word(area + 2, self.next_offer)
        self.want_call()

    def place(self):
        """Where a back end goes on that lost what it knew: behind the last used chain."""
        return self.next_used

    def want_call(self):
        """Has the back end tell of the next used chain, with EVENT_IDX."""
        self.memory.put_word(self.driver + 4 + 2 * self.size, self.next_used)

    def put(self, index, address, length, flags, following=0):
        self.memory.write(self.descriptors + 16 * index, struct.pack("=QIHH", address & (1 << 64) - 1, length, flags, following & 0xffff))

    def chain(self, buffers):
        """Writes descriptors of buffers (address, length, flags), and returns the first one's index."""
        taken = [self.free.pop() for _ in buffers]
        for at, (address, length, flags) in enumerate(buffers):
            more = at + 1 < len(buffers)
            self.put(taken[at], address, length, flags | NEXT * more, taken[at + 1] if more else 0)
        self.offered[taken[0]] = taken
        return taken[0]

    def publish(self, *heads, notify=True):
        """Puts chains on offer."""
        for head in heads:
            self.memory.put_word(self.driver + 4 + 2 * (self.next_offer % self.size), head)
            self.next_offer = self.next_offer + 1 & 0xffff
        self.memory.put_word(self.driver + 2, self.next_offer)
        if notify:
            self.notify()

    def offer(self, buffers, notify=True):
        head = self.chain(buffers)
        self.publish(head, notify=notify)
        return head

    def used_idx(self):
        return self.memory.word(self.device + 2)

    def taken(self):
        """The entries that were used since the last look."""
        found, now = [], self.used_idx()
        while self.next_used != now:
            entry = self.memory.read(self.device + 4 + 8 * (self.next_used % self.size), 8)
            head, length = struct.unpack("=II", entry)
            if head not in self.offered:
                raise ValueError(f"used entry {self.next_used} has {head}, which isn't on offer")
            self.free += self.offered.pop(head)
            found.append((head, length))
            self.next_used = self.next_used + 1 & 0xffff
        self.want_call()
        return found

    def written(self):
        """The addresses that a device may write for the ring's own sake: (first, behind the last)."""
        return self.device, self.device + 6 + 8 * self.size


class Packed(Queue):
    """A packed virtqueue, as a driver stands that passed so many descriptors."""

    FIRST = 1 << 15

    def __init__(self, memory, passed=0, **how):
        super().__init__(memory, **how)
        self.next_offer = self.next_used = passed
        self.free = list(range(self.size))
        for index in range(self.size):
            lap = passed // self.size - (index >= passed % self.size)
            flags = (AVAIL | USED) * (lap % 2 == 0) # as the last lap left it
            memory.write(self.descriptors + 16 * index, struct.pack("=QIHH", 0, 0, 0, flags))

    def wraps(self, passed):
        return passed // self.size % 2 == 0

    def at(self, passed):
        """A position with its wrap counter, as a vhost-user message has it."""
        return passed % self.size | self.wraps(passed) << 15

    def place(self):
        return self.at(self.next_used) | self.at(self.next_used) << 16

    def put(self, passed, address, length, number, flags):
        """Writes a descriptor, and last its flags."""
        at = self.descriptors + 16 * (passed % self.size)
        self.memory.write(at, struct.pack("=QIH", address & (1 << 64) - 1, length, number))
        self.memory.put_word(at + 14, flags | (AVAIL if self.wraps(passed) else USED))

    def offer(self, buffers, notify=True):
        number, first = self.free.pop(), self.next_offer
        for at in reversed(range(len(buffers))):
            address, length, flags = buffers[at]
            self.put(first + at, address, length, number, flags | NEXT * (at + 1 < len(buffers)))
        self.next_offer += len(buffers)
        self.offered[number] = len(buffers)
        if notify:
            self.notify()
        return number

    def flags(self, passed):
        return self.memory.word(self.descriptors + 16 * (passed % self.size) + 14)

    def taken(self):
        found = []
        while self.offered and self.flags(self.next_used) & (AVAIL | USED) == (AVAIL | USED) * self.wraps(self.next_used):
            at = self.descriptors + 16 * (self.next_used % self.size)
            length, number = struct.unpack("=IH", self.memory.read(at + 8, 6))
            if number not in self.offered:
                raise ValueError(f"a used descriptor at {self.next_used % self.size} has id {number}, which isn't on offer")
            self.next_used += self.offered.pop(number)
            self.free.append(number)
            found.append((number, length))
        return found

    def written(self):
        return self.descriptors, self.device + 4


KINDS = {"split": Split, "packed": Packed}
