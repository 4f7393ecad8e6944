"""What a guest tries now and then whose answers docs/model.md fixes, whatever the other guests do.

A probe brings a driver of the guest up over a virtqueue of its own, and writes down what must be answered. Behind it
the driver is brought up again as it was.
"""
from queues import DESCRIPTOR, NEXT, WRITE, PackedQueue, SplitQueue

SECTOR, READ = 512, 0
EVENT_IDX, VERSION_1, RING_PACKED = 1 << 29, 1 << 0, 1 << 2
STATUS, INTERRUPT_STATUS, QUEUE_NOTIFY, QUEUE_READY = 0x070, 0x060, 0x050, 0x044
FAILED, NEEDS_RESET, LIVE = 0x80, 0x40, 0xF
LONG_READS = [128, 129]


class Probes:
    """The probes of one guest, over the block window's first virtqueue."""

    def __init__(self, guest, driver):
        self.guest, self.driver, self.dice = guest, driver, guest.dice
        self.ways = [self.failed, self.failed_first, self.far, self.far]
        if driver.offered.high & RING_PACKED and driver.offered.block & EVENT_IDX:
            self.ways += [self.more_than_n] * 2
        if guest.slot.count >= LONG_READS[-1]:
            self.ways += [self.long_read] * 3
        if self.dice.random() < 0.03:
            self.ways.append(self.many_chains)

    def step(self):
        driver = self.driver
        kept = driver.queues, driver.low, driver.high
        self.dice.choice(self.ways)()
        driver.queues, driver.low, driver.high = kept
        driver.bring_up()

    def bring_up(self, kind, size, tells_next):
        """Brings the driver up over a virtqueue of that kind and size, instead of its own."""
        own = self.driver.queues[0]
        queue = kind(self.guest, "b", 0, size, own.at, own.indirect, tells_next)
        self.driver.queues = [queue]
        self.driver.bring_up()
        return queue

    def bring_up_alike(self, size):
        own = self.driver.queues[0]
        return self.bring_up(type(own), size, own.tells_next)

    def offer_one(self, queue, buffers):
        """Offers a chain in the ring's first places, without what a driver asks of notifications."""
        for number, (address, length, flags) in enumerate(buffers):
            link = NEXT if number + 1 < len(buffers) else 0
            self.descriptor(queue, number, address, length, flags | link, number + 1)
        if not isinstance(queue, PackedQueue):
            queue.put_number(queue.driver_area + 2, 1)

    def descriptor(self, queue, position, address, length, flags, link):
        """A descriptor; in a packed ring it is offered on the first lap, with id 0."""
        words = (flags | 0x80, 0) if isinstance(queue, PackedQueue) else (flags, link)
        last = queue.last_fields(*(word.to_bytes(2, "little") for word in words))
        self.guest.put(queue.at + DESCRIPTOR * position, address.to_bytes(8, "little") + length.to_bytes(4, "little") + last)

    def used_len(self, queue, length):
        at = queue.at + 8 if isinstance(queue, PackedQueue) else queue.device_area + 8
        self.guest.look(at, 4, length.to_bytes(4, "little"))

    def notify(self):
        self.guest.write("b", QUEUE_NOTIFY, self.driver.queues[0].notification(), reply="done")

    def status_is(self, value):
        self.guest.read("b", STATUS, found=value)

    def failed(self):
        """FAILED: the registers go on, and nothing is served."""
        guest, queue = self.guest, self.bring_up_alike(4)
        byte = queue.buffer(1)
        self.offer_one(queue, [(byte, 1, WRITE)])
        self.notify()
        guest.write("b", STATUS, FAILED | LIVE, reply="done")
        self.status_is(FAILED | LIVE)
        for acknowledged, left in [(2, 1), (1, 0)]:
            guest.write("b", 0x064, acknowledged)
            guest.read("b", INTERRUPT_STATUS, found=left)
        guest.write("b", 0x030, 0)
        self.made_ready_again(queue)
        guest.write("b", STATUS, LIVE)
        self.left_alone(queue, byte)

    def made_ready_again(self, queue):
        """The queue is stopped, can't be made ready with a wrong part, and can with the right one."""
        guest, low = self.guest, queue.at % (1 << 32)
        offset, area = self.dice.choice([(0x080, queue.at), (0x090, queue.driver_area), (0x0A0, queue.device_area)])
        parts = [(0x038, 0x101, 4), (offset, low + 1, area), (offset + 4, (area >> 32) + 1, area >> 32)]
        for register, wrong, right in parts:
            guest.write("b", QUEUE_READY, 0)
            guest.read("b", QUEUE_READY, found=0)
            for value, is_ready in [(wrong, 0), (right, 1)]:
                guest.write("b", register, value)
                guest.write("b", QUEUE_READY, 1)
                guest.read("b", QUEUE_READY, found=is_ready)

    def failed_first(self):
        """FAILED before the features: a driver comes up all the same, and isn't served."""
        guest, driver, queue = self.guest, self.driver, self.bring_up_alike(4)
        for status in [0, 1, FAILED | 3]:
            guest.write("b", STATUS, status)
        for selector, word in [(0, driver.low), (1, driver.high)]:
            guest.write("b", 0x024, selector)
            guest.write("b", 0x020, word)
        guest.write("b", STATUS, 0xB)
        self.status_is(FAILED | 0xB)
        queue.set_up()
        guest.read("b", QUEUE_READY, found=1)
        guest.write("b", STATUS, LIVE)
        self.left_alone(queue, queue.buffer(1))

    def left_alone(self, queue, byte):
        """A failed window that is live but for that serves no chain."""
        guest = self.guest
        guest.put(byte, b"\xff")
        self.offer_one(queue, [(byte, 1, WRITE)])
        self.notify()
        self.status_is(FAILED | LIVE)
        guest.read("b", INTERRUPT_STATUS, found=0)
        guest.look(byte, 1, b"\xff")

    def far(self):
        """Addresses that are in the memory only modulo 2^32, 2^40 or 2^48."""
        guest, slot = self.guest, self.guest.slot
        step = 1 << self.dice.choice([32, 40, 48])
        far = step if slot.base + step + slot.length <= 1 << 64 else -step
        guest.do("mr", f"{slot.base + far:x} 1", "badrange")
        queue = self.bring_up_alike(4)
        areas = [queue.at, queue.driver_area, queue.device_area]
        areas[self.dice.randrange(3)] += far
        guest.write("b", QUEUE_READY, 0)
        for offset, area in zip((0x080, 0x090, 0x0A0), areas):
            guest.write("b", offset, area)
            guest.write("b", offset + 4, area >> 32)
        guest.write("b", QUEUE_READY, 1)
        guest.read("b", QUEUE_READY, found=0)
        self.driver.bring_up()
        byte = queue.buffer(1)
        guest.put(byte, b"\xff")
        self.offer_one(queue, [(byte + far, self.dice.choice([0, 1]), WRITE)])
        self.notify()
        self.status_is(NEEDS_RESET | LIVE)
        guest.read("b", INTERRUPT_STATUS, found=2)
        guest.look(byte, 1, b"\xff")

    def more_than_n(self):
        """A list of N - 1 positions and one of two in one service: N + 1 places passed, and each may be named."""
        guest, size = self.guest, self.dice.choice([3, 4, 5, 8])
        self.driver.low, self.driver.high = EVENT_IDX, VERSION_1 | RING_PACKED
        queue = self.bring_up(PackedQueue, size, False)
        for position in range(size):
            is_last = position == size - 2
            self.descriptor(queue, position, queue.buffer(1), 1, 0 if is_last else NEXT, 0)
        named = self.dice.randrange(2 * size)
        queue.put_number(queue.driver_area, named % size | (0x8000 if named < size else 0))
        queue.put_number(queue.driver_area + 2, 2)
        self.notify()
        guest.read("b", INTERRUPT_STATUS, found=int(named <= size))
        self.status_is(LIVE)

    def long_read(self):
        """A read of 64 KiB and more: its used len has three bytes."""
        guest, count = self.guest, self.dice.choice(LONG_READS)
        queue = self.bring_up_alike(32)
        header, room, status = queue.buffer(16), queue.buffer(0x1000), queue.buffer(1)
        guest.put(header, bytes(16))
        ends = [min(0x1000 * (number + 1), SECTOR * count) for number in range((SECTOR * count + 0xFFF) // 0x1000)]
        pieces = [end - start for start, end in zip([0] + ends, ends)]
        self.offer_one(queue, [(header, 16, 0)] + [(room, length, WRITE) for length in pieces] + [(status, 1, WRITE)])
        self.notify()
        self.used_len(queue, SECTOR * count + 1)
        last = SECTOR * count - pieces[-1]
        guest.look(room, pieces[-1], bytes(self.driver.disk[last:last + pieces[-1]]))
        guest.looked.append((len(guest.events), READ, False, []))
        guest.look(status, 1, b"\0")

    def many_chains(self):
        """A used idx that goes all round, by chains without a buffer to write, 256 in a service."""
        guest = self.guest
        self.driver.low, self.driver.high = 0, VERSION_1
        queue = self.bring_up(SplitQueue, 256, False)
        self.descriptor(queue, 0, queue.at, 16, 0, 0)
        for place in range(256, 65536 + 512, 256):
            queue.put_number(queue.driver_area + 2, place % 65536)
            self.notify()
            guest.look(queue.device_area + 2, 2, (place % 65536).to_bytes(2, "little"))
