"""The driver's half of both kinds of virtqueue, and how a hostile driver twists what it writes."""

NEXT, WRITE, INDIRECT, AVAIL, USED = 1, 2, 4, 0x80, 0x8000
DESCRIPTOR = 16

# The areas of a virtqueue, and then the buffers of its requests, have this much room.
AREAS, BUFFERS = 0x400, 0x1400


class Queue:
    """What both kinds share: where the areas and the buffers lie, and how the registers are told so."""

    def __init__(self, guest, window, number, size, at, indirect, tells_next):
        self.guest, self.window, self.number, self.size, self.indirect = guest, window, number, size, indirect
        self.tells_next = tells_next
        self.at, self.driver_area, self.room = at, at + DESCRIPTOR * size, at + AREAS
        # whether the driver says now and then which notifications it wants
        self.left, self.space, self.suppresses = size, BUFFERS, True
        self.give_buffers_back()

    def notification(self):
        """What the driver writes to QueueNotify: the index, and with NOTIFICATION_DATA its next place above it."""
        if not self.tells_next:
            return self.number
        is_lie = self.guest.dice.random() < self.guest.wildness
        return self.number | (self.guest.dice.randrange(1 << 16) if is_lie else self.next_place()) << 16

    def room_left(self):
        return self.room + self.space - self.free

    def buffer(self, length):
        """An address for a buffer that nothing else lies in until the buffers are given back."""
        self.free += length
        return self.free - length

    def give_buffers_back(self):
        self.free = self.room

    def pieces(self, length):
        """Buffers of `length` bytes together, as (address, length), in one piece or in some."""
        dice = self.guest.dice
        ends = sorted(dice.randrange(length + 1) for _ in range(dice.choice([0, 0, 0, 1, 2]))) + [length]
        return [(self.buffer(end - start), end - start) for start, end in zip([0] + ends, ends)]

    def set_up(self):
        guest, window = self.guest, self.window
        self.start_over()
        guest.write(window, 0x030, self.number)
        guest.write(window, 0x038, self.size)
        for offset, area in [(0x080, self.at), (0x090, self.driver_area), (0x0A0, self.device_area)]:
            guest.write(window, offset, area)
            guest.write(window, offset + 4, area >> 32)
        guest.write(window, 0x044, 1)

    def put_number(self, address, value):
        self.guest.put(address, value.to_bytes(2, "little"))

    def in_table(self, buffers):
        """The one buffer that a table of these buffers is, now and then, where the driver may use tables."""
        dice = self.guest.dice
        if not self.indirect or dice.random() < 0.5 or self.room_left() < DESCRIPTOR * len(buffers):
            return buffers, 0
        table = self.buffer(DESCRIPTOR * len(buffers))
        for number, buffer in enumerate(buffers):
            last = number + 1 == len(buffers)
            self.put_descriptor(table + DESCRIPTOR * number, buffer, 0 if last else NEXT, 0 if last else number + 1)
        return [(table, DESCRIPTOR * len(buffers), False)], INDIRECT

    def put_descriptor(self, at, buffer, flags, link):
        """Writes a descriptor. `link` is its next index in a split virtqueue, its id in a packed one."""
        address, length, is_writable = buffer
        fields = [address, length, flags | (WRITE if is_writable else 0), link]
        if self.guest.dice.random() < self.guest.wildness / 4:
            self.twist(fields)
        self.guest.put(at, self.spelled(*fields))

    def spelled(self, address, length, flags, link):
        """A descriptor's bytes."""
        address, length, flags, link = (value.to_bytes(size, "little") for value, size in zip((address, length, flags, link), (8, 4, 2, 2)))
        return address + length + self.last_fields(flags, link)

    def table_entry(self, buffer, number, count):
        """The bytes of an entry of a table of so many, which are joined in their order."""
        address, length, is_writable = buffer
        last = number + 1 == count
        return self.spelled(address, length, (WRITE if is_writable else 0) | (0 if last else NEXT), 0 if last else number + 1)

    def twist(self, fields):
        """Makes one field of a descriptor something that nobody would write."""
        dice, slot = self.guest.dice, self.guest.slot
        which = dice.randrange(4)
        fields[which] = dice.choice([
            [0, (dice.choice(slot.ends()) - 1) % (1 << 64), (1 << 64) - 1, dice.choice(slot.ends()) - dice.randrange(3),
             slot.base + dice.randrange(slot.length), self.at, self.driver_area, self.device_area],
            [0, 1, 15, 16, 17, 32, 511, 513, 4096, 4112, 0x7FFFFFFF, 0xFFFFFFFF],
            [fields[2] ^ flag for flag in (1 << dice.randrange(16), dice.randrange(1 << 16), NEXT, WRITE, INDIRECT)],
            [0, 1, self.size - 1, self.size, 0xFFFF, dice.randrange(1 << 16)],
        ][which]) % (1 << (64, 32, 16, 16)[which])


class SplitQueue(Queue):
    """Descriptors from the front on in each round, and both rings."""

    SIZES = [4, 8, 16]

    def __init__(self, *args):
        super().__init__(*args)
        self.device_area = (self.driver_area + 6 + 2 * self.size + 3) // 4 * 4

    def last_fields(self, flags, link):
        return flags + link

    def start_over(self):
        """The driver's side of a reset: rings of zeros."""
        self.idx, self.left = 0, self.size
        self.guest.put(self.driver_area, bytes(6 + 2 * self.size))
        self.guest.put(self.device_area, bytes(6 + 8 * self.size))

    def next_place(self):
        return self.idx

    def offer(self, buffers, flags=None):
        """Offers a chain; by which number the device will name it, and how many places of the ring it has."""
        if flags is None:
            buffers, flags = self.in_table(buffers)
        head = self.size - self.left
        for number, buffer in enumerate(buffers):
            place, last = head + number, number + 1 == len(buffers)
            flags_here, link = (flags, 0) if last else (flags | NEXT, place + 1)
            self.put_descriptor(self.at + DESCRIPTOR * place, buffer, flags_here, link)
        self.left -= len(buffers)
        self.put_number(self.driver_area + 4 + 2 * (self.idx % self.size), head)
        self.idx = (self.idx + 1) % (1 << 16)
        return head, 1

    def publish(self):
        """Tells the device; it uses all that is offered in one notify, so all descriptors are free then."""
        dice = self.guest.dice
        if dice.random() < 0.2 and self.suppresses:
            self.put_number(self.driver_area, dice.randrange(2))
            self.put_number(self.driver_area + 4 + 2 * self.size, (self.idx - dice.randrange(3)) % (1 << 16))
        self.put_number(self.driver_area + 2, self.idx)
        self.left = self.size

    def look_at_used(self):
        self.guest.look(self.device_area + 2, 2, self.idx.to_bytes(2, "little"))
        self.look_at_ring()

    def look_at_ring(self):
        """The used ring."""
        self.guest.look(self.device_area, 6 + 8 * self.size)


class PackedQueue(Queue):
    """Descriptors round the ring, with the wrap counter of the round."""

    SIZES = [3, 5, 8, 13]

    def __init__(self, *args):
        super().__init__(*args)
        self.device_area = self.driver_area + 4

    def last_fields(self, flags, link):
        return link + flags

    def start_over(self):
        self.position, self.wrap, self.left = 0, True, self.size
        self.guest.put(self.at, bytes(DESCRIPTOR * self.size + 8))

    def next_place(self):
        return self.position | self.wrap << 15

    def offer(self, buffers, flags=None):
        """Offers a chain; by which number the device will name it, and how many places of the ring it has."""
        if flags is None:
            buffers, flags = self.in_table(buffers)
        name = self.guest.dice.randrange(1 << 16)
        for number, buffer in enumerate(buffers):
            link = NEXT if number + 1 < len(buffers) else 0
            flags_here = flags | link | (AVAIL if self.wrap else USED)
            self.put_descriptor(self.at + DESCRIPTOR * self.position, buffer, flags_here, name)
            self.position += 1
            if self.position == self.size:
                self.position, self.wrap = 0, not self.wrap
        self.left -= len(buffers)
        return name, len(buffers)

    def publish(self):
        dice = self.guest.dice
        if dice.random() < 0.2 and self.suppresses:
            self.put_number(self.driver_area, dice.randrange(self.size) | dice.choice([0, 0x8000]))
            self.put_number(self.driver_area + 2, dice.randrange(4))
        self.left = self.size

    def look_at_used(self):
        self.look_at_ring()

    def look_at_ring(self):
        """The ring, in which used descriptors stand too."""
        self.guest.look(self.at, DESCRIPTOR * self.size + 8)
