"""Drivers of further disks, and what the host of a guest does with these.

A sane driver knows which requests its host has, by their tags, which are used, and what its disk holds. It relies on each answer of
its host's events, on each used entry, status and byte that was read. What a hosted trace says that its disk is asked stands at its
events as `begins`.
"""
from further_devices import OF_CONSOLES, FurtherDriver
from guests import FLUSH, IDENTITY, IOERR, OK, READ, SECTOR, UNSUPPORTED, WRITE, ZERO, segment_bytes
from queues import AVAIL, BUFFERS, USED, PackedQueue
from queues import WRITE as WRITABLE

BLOCK_RO, BLOCK_FLUSH = 1 << 5, 1 << 9
STATUS, INTERRUPTS, ACKNOWLEDGE = 0x070, 0x060, 0x064
SIZES, DEPTHS = [0, 1, 4, 8, 8, 8, 130], [1, 2, 2, 3, 8, 64]
UNKNOWN = 11
TYPES = 3 * [READ] + 3 * [WRITE] + [FLUSH, IDENTITY, ZERO, UNKNOWN]


class Request:
    """A request: how many places of the ring its chain has, by which number the device names it, where its data and its status lie, and
    what the host is asked, or the status where it is answered at once."""

    def __init__(self, what, sector, pieces, status):
        self.what, self.sector, self.pieces, self.status = what, sector, pieces, status
        self.length = sum(count for _, count in pieces)
        self.operation, self.answer, self.sent, self.zeroed = None, None, b"", []

    def used_len(self):
        """What its used entry counts (2.7.8.2)."""
        if self.what == IDENTITY and self.answer == OK:
            return min(self.length, 20) + (self.length == 20)
        writable = self.length if self.what in (READ, IDENTITY) else 0
        return writable + 1 if not writable or self.what == READ and self.answer == OK else 0


class DiskDriver(FurtherDriver):
    """Asks for sectors, which its host reads and writes."""

    def __init__(self, guest, *args):
        dice = guest.dice
        self.sectors, self.depth, self.is_read_only = dice.choice(SIZES), dice.choice(DEPTHS), dice.random() < 0.2
        self.identity, self.disk, self.is_held = dice.randbytes(20), bytearray(dice.randbytes(SECTOR * self.sectors)), False
        super().__init__(guest, *args)

    def start_over(self):
        super().start_over()
        # What the host has, by tag, what is on offer, what is used and not looked at, how far the ring has come, the used requests
        # that are owed a notification, and InterruptStatus.
        self.flights, self.published, self.used = {}, [], []
        self.passed, self.owed, self.bits = 0, 0, 0

    @staticmethod
    def spaces(mtu):
        return [BUFFERS]

    def kind(self):
        mode = "ro" if self.is_read_only else "rw"
        return f"disk {self.sectors:x} {mode} {self.identity.hex()} {self.depth:x}"

    def own_features(self):
        return self.offered.disk | (BLOCK_RO if self.is_read_only else 0)

    def ways(self):
        if not self.is_up:
            return [self.bring_up, self.idle, self.odd]
        ends = [self.release] if self.is_held else [self.hold]
        return [self.request] * 8 + [self.complete_some] * 4 + ends + [self.idle, self.wait, self.drop, self.odd]

    def refused(self):
        return ["supply {} 00", "frame {} 00", "take {}", "dsent {}", "link {} up", *OF_CONSOLES]

    def step(self):
        for _ in range(self.guest.dice.choice([1, 2, 4])):
            super().step()

    def bring_up(self):
        """A reset waits for all that is in flight."""
        if self.flights and not self.guest.wildness:
            self.wait()
            self.rest()
        super().bring_up()

    def acknowledge(self):
        bits = self.guest.dice.choice([1, 3])
        self.guest.read(self.window, INTERRUPTS, found=self.bits if self.wants_all else None)
        self.guest.write(self.window, ACKNOWLEDGE, bits)
        self.bits &= ~bits

    # --- what the driver does

    def request(self):
        """Some requests, and mostly a notify; in half of the cases the host is quick."""
        if not self.may_offer(0):
            self.complete_some()
            return
        for _ in range(self.guest.dice.choice([1, 2, 3, 5])):
            self.ask(self.guest.dice.choice(TYPES))
        self.publish(0)
        if self.guest.dice.random() < 0.5:
            self.complete_some()

    def publish(self, which):
        self.published += [one for one in self.waiting[0] if one not in self.published and one not in self.flights.values()]
        super().publish(which)

    def ask(self, what):
        """Offers a request, where there are place and room for it."""
        guest, queue, dice = self.guest, self.queues[0], self.guest.dice
        data = self.data_of(what)
        if queue.room_left() < len(data) + 200:
            return
        header, pieces, status = queue.buffer(16), queue.pieces(len(data)), queue.buffer(1)
        if self.free[0] < len(pieces) + 2:
            return
        request = Request(what, dice.randrange(self.sectors + 1), pieces, status)
        guest.put(header, what.to_bytes(4, "little") + bytes(4) + request.sector.to_bytes(8, "little"))
        guest.put(status, b"\xff")
        self.judge(request, data)
        is_read = what in (WRITE, ZERO)
        for address, count in pieces if is_read else []:
            guest.put(address, data[:count])
            data = data[count:]
        queue.left = self.free[0]
        buffers = [(header, 16, False), *[(at, count, not is_read) for at, count in pieces], (status, 1, True)]
        request.name, request.places = queue.offer(buffers)
        self.free[0] = queue.left
        self.waiting[0].append(request)

    def data_of(self, what):
        """What the driver writes, or as many bytes as it has room for."""
        dice = self.guest.dice
        if what in (READ, WRITE):
            return dice.randbytes(SECTOR * dice.choice([0, 1, 1, 1, 1, 2]) + dice.choice(20 * [0] + [1, 511]))
        if what == ZERO:
            self.segments = [(dice.randrange(self.sectors + 1), dice.choice([0, 1, 1, 2]), dice.choice([0, 0, 0, 1, 2]))
                             for _ in range(dice.choice([0, 1, 1, 2, 3, 33]))]
            return b"".join(segment_bytes(*one) for one in self.segments)
        return bytes(dice.choice([19, 20, 20, 30]) if what == IDENTITY else 0)

    def judge(self, request, data):
        """What comes of a request: the status that it gets at once, or the operation that the host is asked for."""
        what, count = request.what, len(data) // SECTOR
        stable = "" if self.low & BLOCK_FLUSH else "-stable"
        if what == UNKNOWN:
            request.answer = UNSUPPORTED
        elif what == IDENTITY:
            request.answer = OK if len(data) >= 20 else IOERR
        elif what == FLUSH:
            request.operation = "flush:0:0:-"
        elif what == ZERO:
            self.judge_zero(request, stable)
        elif what == WRITE and self.is_read_only or len(data) % SECTOR or request.sector + count > self.sectors:
            request.answer = IOERR
        else:
            runs = ",".join(f"{at:x}+{length:x}" for at, length in request.pieces if length) or "-"
            kind = "in" if what == READ else f"out{stable}"
            request.operation, request.sent = f"{kind}:{SECTOR * request.sector:x}:{len(data):x}:{runs}", data

    def judge_zero(self, request, stable):
        if self.is_read_only or not 0 < len(self.segments) <= 32:
            request.answer = IOERR
        elif any(flags > 1 for _, _, flags in self.segments):
            request.answer = UNSUPPORTED
        elif any(sector + count > self.sectors for sector, count, _ in self.segments):
            request.answer = IOERR
        else:
            request.zeroed = [(SECTOR * sector, SECTOR * count) for sector, count, _ in self.segments if count]
            request.operation = f"zeroes{stable}:0:0:" + (",".join(f"{at:x}+{length:x}" for at, length in request.zeroed) or "-")

    # --- what the device does

    def serve(self, which):
        """A look at the queue: requests that ask take the lowest free tags, as long as one is free."""
        if not self.is_up or self.is_held or len(self.flights) == self.depth:
            return
        begins = []
        while self.published and len(self.flights) < self.depth:
            request = self.published.pop(0)
            if request.operation is None:
                self.give(request)
                continue
            tag = next(tag for tag in range(self.depth) if tag not in self.flights)
            self.flights[tag] = request
            begins.append(f"{self.window}/{tag:x}={request.operation}")
        if len(self.flights) < self.depth:
            self.close()
        self.guest.events[-1].begins = ";".join(begins)

    def give(self, request):
        if request in self.waiting[0]:
            self.waiting[0].remove(request)
        self.used.append(request)
        self.owed += 1

    def close(self):
        """The driver is told of what was used since the last time."""
        self.bits |= 1 if self.owed else 0
        self.owed = 0

    # --- what the host does

    def complete_some(self):
        if self.is_held and self.guest.dice.random() < 0.5:
            self.release()
        for _ in range(self.guest.dice.choice([1, 2, 5])):
            self.complete()
        self.look(0)

    def complete(self):
        """Does an operation and says so, or that it failed."""
        if not self.flights:
            return
        dice = self.guest.dice
        tag, fails = dice.choice(sorted(self.flights)), dice.random() < 0.15
        request = self.flights.pop(tag)
        if not fails:
            self.perform(request)
        self.say("dio", f"{tag:x} {'failed' if fails else 'done'}", "done")
        self.guest.mean("completed", self.window)
        request.answer = IOERR if fails else OK
        self.give(request)
        self.close()
        self.serve(0)

    def perform(self, request):
        at = SECTOR * request.sector
        if request.what == WRITE:
            self.disk[at:at + len(request.sent)] = request.sent
        for zeroed, length in request.zeroed:
            self.disk[zeroed:zeroed + length] = bytes(length)
        if request.what == READ:
            request.sent = bytes(self.disk[at:at + request.length])
            self.hand_in(request)

    def hand_in(self, request):
        """What the host read, in the guest's memory."""
        for address, part in parts(request.pieces, request.sent):
            self.guest.put(address, part)

    def hold(self):
        self.say("dhold", "", "idle" if self.is_held else "done")
        self.is_held = True

    def release(self):
        was_held, self.is_held = self.is_held, False
        self.say("drelease", "", "done" if was_held else "idle")
        if was_held:
            self.serve(0)
            self.look(0)

    def drop(self):
        """Gives up what is in flight: the driver resets its disk."""
        self.say("ddrop", "", "done" if self.flights else "idle")
        if self.flights:
            self.guest.mean("dropped", self.window)
            self.guest.read(self.window, STATUS, found=0x4F)
            self.look(0)
            self.flights, self.is_up = {}, False
            self.bits |= 2

    def idle(self):
        """Of a tag that is free nothing is done."""
        free = self.guest.dice.choice([tag for tag in [*range(self.depth + 1), 255] if tag not in self.flights])
        self.say("dio", f"{free:x} {self.guest.dice.choice(['done', 'failed'])}", "idle")

    def wait(self):
        """A write that must wait."""
        if self.flights:
            offset, width = self.guest.dice.choice([STATUS, 0x044]), self.guest.dice.choice([1, 2, 4, 4])
            self.guest.write(self.window, offset, self.guest.dice.choice([0, 0, 1, 0xF]), width, reply="busy")

    def rest(self):
        """All that is in flight comes to its end, and what begins then."""
        if self.guest.dice.random() < 0.2:
            self.drop()
        while self.flights:
            self.complete()
        self.look(0)

    # --- what the driver finds

    def look(self, which):
        """Looks at the used entries that it has not seen, and at the statuses and data of these requests."""
        queue, guest = self.queues[0], self.guest
        if not self.is_up:
            return
        for request in self.used:
            self.look_at_entry(queue, request)
            guest.look(request.status, 1, bytes([request.answer]))
            data = self.identity if request.what == IDENTITY else request.sent if request.what == READ else b""
            for address, part in parts(request.pieces, data) if request.answer == OK else []:
                guest.look(address, len(part), part)
        if not isinstance(queue, PackedQueue):
            guest.look(queue.device_area + 2, 2, (self.passed % 65536).to_bytes(2, "little"))
        self.used = []

    def look_at_entry(self, queue, request):
        length = request.used_len().to_bytes(4, "little")
        if isinstance(queue, PackedQueue):
            turn, at = divmod(self.passed, queue.size)
            flags = WRITABLE | (0 if turn % 2 else AVAIL | USED)
            self.guest.look(queue.at + 16 * at + 8, 8, length + request.name.to_bytes(2, "little") + flags.to_bytes(2, "little"))
        else:
            self.guest.look(queue.device_area + 4 + 8 * (self.passed % queue.size), 8, request.name.to_bytes(4, "little") + length)
        self.passed += request.places

    def finish(self):
        """The host does all that is left."""
        if self.is_held:
            self.release()
        while self.flights and not self.guest.wildness:
            self.complete()
        self.look(0)


def parts(pieces, data):
    """Where the first bytes of some buffers lie."""
    for address, count in pieces:
        if data[:count]:
            yield address, data[:count]
        data = data[count:]
