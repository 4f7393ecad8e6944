"""A driver that chooses by lot what it does next, among all that drivers do; where the device stands it reads in the model."""
import hashlib

from .drivers import (AREAS, AVAIL, DRIVER_FEATURES, DRIVER_SEL, EVENT_IDX, FAILED, INDIRECT, INDIRECT_DESC, INTERRUPT_ACK,
                      NEXT, NOTIFY, QUEUE_NUM, QUEUE_READY, QUEUE_SEL, STATUS, USED_FLAG, WRITE, Buffer, number)
from .follows import INDICES, Guest
from .requests import FLUSH, GET_ID, IN, OUT, WRITE_ZEROES, header, segment
from .saved import restore, saved
from .story import SECTOR

# From a memory's base on: the areas of a queue at one of two homes, and what its chains name.
LENGTH, HOME, OF_QUEUE = 0x20000, 0x7800, {("b", 0): 0, ("c", 0): 0x2800, ("c", 1): 0x5000}
HEADERS, TEXTS, ROOMS, TABLES = 0x10000, 0x14000, 0x16000, 0x1c000
READABLE = [0x000, 0x004, 0x008, 0x00c, 0x010, 0x034, 0x044, 0x060, 0x070, 0x0b0, 0x0bc, 0x0fc]


class Dice:
    """Numbers that follow from a word, the same in each Python."""

    def __init__(self, word):
        self.state = int.from_bytes(hashlib.sha256(word.encode()).digest()[:8], "little")

    def below(self, end):
        self.state = (self.state * 6364136223846793005 + 1442695040888963407) % 2**64
        return (self.state >> 33) % end

    def one(self, some):
        return some[self.below(len(some))]

    def is_one_in(self, count):
        return self.below(count) == 0


class Lots(Guest):
    """A driver of a slot, with a host where it has one. `sizes` are those that its rings may have."""

    def __init__(self, life, dice, slot=0, sizes=(1, 2, 4, 8)):
        super().__init__(life, slot)
        self.dice, self.sizes, self.snapshots, self.room_at = dice, sizes, [], 0
        self.slot_line = life.slots[slot]
        self.homes = {}

    def is_extended(self):
        return self.life.extended

    def flight(self):
        return self.life.board[self.slot].tags[0]

    # --- a window

    def bring_up(self, window, setup=None):
        """From a reset to DRIVER_OK, in an order that drivers have: now and then something is left out or written twice."""
        dice = self.dice
        if not dice.is_one_in(12):
            self.write(window, STATUS, 0)
        self.write(window, STATUS, dice.one((1, 3, 3, 2)))
        self.accept_some(window)
        if dice.is_one_in(10):
            self.write(window, STATUS, 4)
        for index in INDICES[window][::dice.one((1, -1))]:
            if not dice.is_one_in(9):
                self.set_up(window, index)
        if dice.is_one_in(4):
            self.early(window)
        self.write(window, STATUS, dice.one((0x0f, 0x0f, 4, 0x8 | 4)))
        self.read(window, STATUS)

    def early(self, window):
        """A chain is on offer and notified before DRIVER_OK: nothing is served."""
        (self.disk if window == "b" else self.dice.one((self.texts, self.typed)))()

    def accept_some(self, window):
        """Some of the offered features, VERSION_1 among them; now and then others come first, which are refused. Behind a reset
        the low word needs no selector."""
        dice, offered = self.dice, self.window(window).offered_bits()
        low = dice.one((0, offered % 2**32, INDIRECT_DESC, EVENT_IDX, INDIRECT_DESC | EVENT_IDX, dice.below(1 << 32) & offered))
        high = 1 | dice.one((0, 4, 4, 0x40, 0x44))
        words = [(0, low), (1, high)][::dice.one((1, -1))]
        if dice.is_one_in(8):
            for selector, word in dice.one((((0, 1 << dice.below(32)),), ((1, 1 << dice.below(32)),), ((0, low), (1, dice.below(1 << 7) & ~1)))):
                self.write(window, DRIVER_SEL, selector)
                self.write(window, DRIVER_FEATURES, word)
            self.write(window, STATUS, 0x0b)
            self.read(window, STATUS)
        for selector, word in words:
            if selector or self.window(window).driver_sel or dice.is_one_in(3):
                self.write(window, DRIVER_SEL, selector)
            self.write(window, DRIVER_FEATURES, word)
        self.write(window, STATUS, dice.one((0x0b, 8)))

    def set_up(self, window, index):
        """A queue's registers and its memory, in one of several orders; the ring begins with zeros, or as it stands."""
        dice, is_packed = self.dice, "ring_packed" in self.window(window).negotiated()
        sizes = [*self.sizes, 3, 5] if is_packed else self.sizes
        size, home = dice.one(sizes), dice.below(2)
        areas = self.some_areas(window, index, home, size, is_packed)
        if not dice.is_one_in(4) or not is_packed:
            self.begin_rings(areas, size, is_packed)
        if index != self.window(window).queue_sel or dice.is_one_in(3):
            self.write(window, QUEUE_SEL, index)
        writes = [(QUEUE_NUM, size)] + [(offset + more, area >> 8 * more & 0xffffffff) for offset, area in zip(AREAS, areas)
                                        for more in (0, 4)]
        start = dice.below(len(writes))
        areas = [area for old in self.queue(window, index).areas for area in (old & 0xffffffff, old >> 32)]
        stands = dict(zip([offset + more for offset in AREAS for more in (0, 4)], areas))
        for offset, value in writes[start:] + writes[:start]:
            if stands.get(offset) != value or dice.is_one_in(4):
                if not dice.is_one_in(90):
                    self.write(window, offset, value)
        if dice.is_one_in(8):
            self.refused(window, writes)
        self.write(window, QUEUE_READY, 1)
        if dice.is_one_in(3):
            self.read(window, QUEUE_READY)

    def refused(self, window, writes):
        """One of the registers is wrong, and QueueReady is refused; then it is right."""
        offset, value = self.dice.one(writes)
        wrong = self.dice.one((0, 257, 0xffffffff, 300)) if offset == QUEUE_NUM else value ^ self.dice.one((1, 1 << 31, 1 << 30))
        self.write(window, offset, wrong)
        self.write(window, QUEUE_READY, 1)
        self.read(window, QUEUE_READY)
        self.write(window, offset, value)

    def some_areas(self, window, index, home, size, is_packed):
        at = self.base + OF_QUEUE[window, index] + HOME * home
        dice = self.dice
        step = 4 if is_packed else 2
        if dice.is_one_in(12):
            return [at, at + 16 * size - dice.below(2) * 8, at + 16 * size + dice.below(4) * 4]
        return [at + 16 * dice.below(3), at + 0x1100 + step * dice.below(8), at + 0x1800 + 4 * dice.below(8)]

    def begin_rings(self, areas, size, is_packed):
        self.put(areas[1], bytes(4) if is_packed else bytes(4))
        if is_packed:
            self.put(areas[0], bytes(16 * size))

    # --- chains

    def buffers(self, spans, flags):
        """Buffers that cut these spans of memory, empty ones among them."""
        found = []
        for at, length in spans:
            while length:
                part = length if self.dice.below(3) else 1 + self.dice.below(length)
                found.append(Buffer(at, part, flags))
                at, length = at + part, length - part
            if self.dice.is_one_in(8):
                found.append(Buffer(at, 0, flags))
        return found

    def offer_chains(self, window, index, chains):
        """Chains of buffers on offer together; how many were, as the ring has room."""
        ring = LotsRing(self, window, index)
        return ring.offer(chains)

    def serve(self, window, index, typed=None):
        """A notify, or an input for the receive queue, and what is seen of it."""
        if typed is not None:
            self.type(typed)
        else:
            self.notify(window, index)
        LotsRing(self, window, index).look()
        if not self.dice.is_one_in(3):
            self.write(window, INTERRUPT_ACK, self.dice.one((3, 3, 1, 2)))

    def notify(self, window, index):
        data = "notification_data" in self.window(window).negotiated()
        above = self.dice.below(1 << 16) << 16 if data else 0
        if self.dice.is_one_in(30):
            self.write(window, NOTIFY, above | index | self.dice.one((0x8000, 0x100, 0x10000, 0x80000000)))
        return self.write(window, NOTIFY, above | index)

    def place_of(self, usual):
        """Where a buffer lies: now and then over its queues' areas, or over what other chains name."""
        if not self.dice.is_one_in(16):
            return usual
        window = self.dice.one("bc")
        queue = self.queue(window, self.dice.one(INDICES[window]))
        at = self.dice.one((*queue.areas, self.base + HEADERS, self.base + TABLES)) + self.dice.below(24)
        return at if self.memory().holds(at, 0x1000) else usual

    # --- what a disk is asked

    def request(self, most=3):
        """The readable bytes of a request and its room before the status, some of them refused."""
        dice, count = self.dice, self.slot_line.count
        kind = dice.one((IN, IN, IN, OUT, OUT, FLUSH, GET_ID, WRITE_ZEROES, WRITE_ZEROES))
        kind = kind if not dice.is_one_in(14) else dice.one((2, 3, 5, 11, kind | 1 << 31, kind | 1 << 16, kind | 256, 12))
        sector = dice.below(count + 1) if not dice.is_one_in(12) else dice.one((count, count + 1, 1 << 32, 1 << 63))
        sectors = dice.one((1, 1, 1, 2, 3, 0)) if not dice.is_one_in(9) or most < 40 else 1 + dice.below(40)
        content, room = header(kind, sector, dice.below(1 << 32) if dice.is_one_in(3) else 0), 0
        if kind == IN:
            room = SECTOR * sectors
        elif kind == OUT:
            content += bytes([dice.below(256)]) * (SECTOR * sectors)
        elif kind == GET_ID:
            room = dice.one((20, 20, 21, 32, 19))
        elif kind == WRITE_ZEROES:
            content += b"".join(self.segment() for _ in range(dice.one((1, 1, 2, 3, 0))))
        if dice.is_one_in(14):
            room += 1
        if dice.is_one_in(14):
            content = content[:-1]
        return content, room

    def segment(self):
        dice, count = self.dice, self.slot_line.count
        sector = dice.below(count + 1)
        return segment(sector, dice.below(min(4, max(1, count - sector + 1))), dice.one((0, 0, 0, 1, 1, 2 if dice.is_one_in(4) else 0)))

    def disk(self, most=3):
        """Some requests by one notify, and what is seen of them."""
        chains, seen = [], []
        for number_of in range(1 + self.dice.below(most)):
            content, room = self.request(0 if number_of else 40)
            at, to = self.room + HEADERS + 0x800 * number_of, self.place_of(self.room + ROOMS + 0x800 * number_of)
            if number_of == 0 and len(content) > 0x800:
                at = self.room + ROOMS
            if number_of == 0 and room > 0x700:
                to = self.room + ROOMS
            self.put(at, content)
            has_status = not self.dice.is_one_in(20)
            chain = self.buffers([(at, len(content))], 0) + self.buffers([(to, room)], WRITE)
            if has_status:
                done = to + room if not self.dice.is_one_in(20) else self.place_of(self.place_of(to + room))
                self.put(done, b"\xee")
                chain.append(Buffer(done, 1, WRITE))
            if self.dice.is_one_in(6):
                chain = chain[-1:] + chain[:-1]
            chains.append(chain)
            seen.append((to, room))
        self.offer_chains("b", 0, chains)
        self.serve("b", 0)
        self.see(seen)

    def see(self, seen):
        for to, room in seen:
            if room > 24 and not self.dice.is_one_in(6):
                self.look(to, 4)
                self.look(to + room - 4, 5)
            else:
                self.look(to, room + 1)

    # --- a console

    def texts(self, most=3):
        """Texts by one notify."""
        chains = []
        for number_of in range(1 + self.dice.below(most)):
            at, length = self.place_of(self.room + TEXTS + 0x40 * number_of), self.dice.one((1, 2, 5, 9, 0))
            length = length if not self.dice.is_one_in(30) else 700
            self.turn += 1
            if at == self.room + TEXTS + 0x40 * number_of:
                self.put(at, bytes((0x41 + (self.turn + more) % 26) for more in range(max(1, length % 100))))
            chain = self.buffers([(at, length)], 0) or [Buffer(at, 0)]
            if self.dice.is_one_in(6):
                chain.insert(self.dice.below(len(chain) + 1), Buffer(self.room + ROOMS, 3, WRITE))
            chains.append(chain)
        self.offer_chains("c", 1, chains)
        self.serve("c", 1)

    def typed(self, most=3):
        """Room for what is typed, and input before or behind it."""
        self.turn += 1
        lengths = (1, 2, 3, 7, 12, 0) if not self.dice.is_one_in(25) else (300, 4096)
        content = bytes((0x61 + (self.turn + more) % 26) for more in range(self.dice.one(lengths)))
        is_first = self.dice.is_one_in(4)
        if is_first:
            self.type(content)
        self.put(self.room + ROOMS, b"\xee" * 40)
        chains = []
        for number_of in range(1 + self.dice.below(most)):
            length = self.dice.one((1, 2, 4, 8, 0)) if not self.dice.is_one_in(20) else self.dice.one((300, 2000))
            room = self.buffers([(self.place_of(self.room + ROOMS + 12 * number_of), length)], WRITE)
            if self.dice.is_one_in(6):
                room.insert(0, Buffer(self.room + TEXTS, 2))
            chains.append(room or [Buffer(self.room + ROOMS, 0, WRITE)])
        self.offer_chains("c", 0, chains)
        self.serve("c", 0, None if is_first else content)
        self.look(self.room + ROOMS, 40)

    # --- what else comes

    def fault(self):
        """Good chains and one with a fault."""
        dice = self.dice
        window = dice.one("bc")
        index = dice.one(INDICES[window])
        ring = LotsRing(self, window, index)
        flags = WRITE if (window, index) != ("c", 1) else 0
        good = [[Buffer(self.room + ROOMS, 1, flags)] for _ in range(dice.below(3))]
        tables = self.room + TABLES
        bad = [dice.one((Buffer(self.base - 1, 1, flags), Buffer(self.base + LENGTH, 1), Buffer(tables, 8, INDIRECT),
                         Buffer(tables, 0, INDIRECT), Buffer(tables, 0x1010, INDIRECT),
                         Buffer(self.base + LENGTH - 8, 16, INDIRECT),
                         Buffer(tables, 16, INDIRECT | NEXT)))]
        if ring.may_use_tables and dice.is_one_in(3):
            self.put(tables, number(self.base, 8) + number(dice.one((1, 16)), 4) + number(dice.one((INDIRECT, NEXT, flags | NEXT)), 2)
                     + number(dice.one((0, 1, 2)), 2))
            bad = [Buffer(tables, 16, INDIRECT)]
        if not ring.may_use_tables and dice.is_one_in(2):
            bad = [ring.table([Buffer(self.room + ROOMS, 1, flags)])]
        if dice.is_one_in(3):
            bad = [Buffer(self.room + ROOMS, 1, flags), *bad]
        ring.offer([*good, bad, [Buffer(self.room + ROOMS, 1, flags)]], raw=True)
        if not ring.is_packed and dice.is_one_in(4):
            self.put(ring.areas[1] + 2, number((ring.place + ring.number + 1 + dice.below(9)) % 65536, 2))
        elif not ring.is_packed and dice.is_one_in(4):
            self.put(ring.areas[1] + 4 + 2 * ((ring.place + len(good)) % ring.number), number(ring.number + dice.below(3), 2))
        self.serve(window, index, b"fault" if (window, index) == ("c", 0) else None)
        self.read(window, STATUS)
        if dice.is_one_in(2):
            self.registers(window)
        if not dice.is_one_in(3) or dice.is_one_in(4):
            self.bring_up(window)

    def registers(self, window):
        for _ in range(2):
            self.read(window, self.dice.one(READABLE))
        width = self.dice.one((1, 2, 4))
        self.read(window, 0x100 + width * self.dice.below(64 // width), width)

    def write_any(self):
        """Any register with one of the values that matter to it."""
        dice, window = self.dice, self.dice.one("bc")
        offset = dice.one((0x014, 0x014, 0x020, 0x024, 0x030, 0x030, QUEUE_NUM, QUEUE_READY, 0x050, 0x060, 0x064, STATUS, 0x080, 0x084, 0x094,
                           0x0a0, 0x0a4, 0x0ac, 0x0fc, 0x100, 0x034, 0x090))
        value = dice.one((0, 1, 2, 3, 4, 8, 0x10, 0x100, 0x10001, 0xffffffff, dice.below(1 << 32)))
        if offset in (STATUS, QUEUE_READY) and not dice.is_one_in(3):
            value = dice.one((1, 0x40, 0x100, 0x8b, 3)) if dice.is_one_in(2) else value or 2
        self.write(window, offset, value, dice.one((4, 4, 4, 4, 2, 1)))
        self.registers(window)

    def stop(self):
        """A queue is stopped; it is made ready again as it stands, or with other registers, or later."""
        dice, window = self.dice, self.dice.one("bc")
        index = dice.one(INDICES[window])
        self.write(window, QUEUE_SEL, index)
        self.write(window, QUEUE_READY, 0)
        if dice.is_one_in(4):
            self.notify(window, index)
        if dice.is_one_in(3):
            self.set_up(window, index)
            return
        ring = LotsRing(self, window, index)
        self.begin_rings(ring.areas, ring.number, ring.is_packed)
        if not dice.is_one_in(5):
            self.write(window, QUEUE_READY, 1)

    def save(self):
        """The slot is saved, or restored from what was saved, with or without a change."""
        dice = self.dice
        if not self.is_extended() or not self.snapshots or dice.is_one_in(2):
            self.snapshots = self.snapshots[-2:] + [saved(self)]
            return
        how = dice.below(6)
        snapshot = dice.one(self.snapshots)
        restore(self, snapshot if how < 2 else snapshot.but(self.change if how < 5 else self.spoil))
        if how > 1:
            for use in (self.disk, self.texts, self.typed):
                if dice.is_one_in(2):
                    use()

    def spoil(self, snapshot):
        """A field of a snapshot is one that no slot takes up, or just one that it does."""
        dice = self.dice
        window = snapshot.windows[dice.one("bc")]
        queue = dice.one(window.queues)
        what = dice.below(8)
        if what < 3:
            edges = (0, 1, queue.number, 2 * queue.number, 2 * queue.number - 1)
            queue.place, queue.left, queue.passed, queue.ahead = (dice.one(edges) % 65536 for _ in range(4))
        elif what == 3:
            window.status ^= 1 << dice.below(8)
        elif what == 4:
            window.accepted ^= 1 << dice.below(40)
        elif what == 5:
            queue.number = dice.one((0, 3, 256, 257))
        elif what == 6:
            queue.areas[dice.below(3)] ^= dice.one((1, 2, 4, 8, 1 << 40))
        else:
            snapshot.sectors += dice.below(2)
            snapshot.read_only ^= dice.is_one_in(4)

    def change(self, snapshot):
        """A field of a snapshot is another."""
        dice = self.dice
        window = snapshot.windows[dice.one("bc")]
        what = dice.below(12)
        queues = [queue for queue in window.queues if queue.ready]
        if what < 8 and queues:
            queue = dice.one(queues)
            if window.accepted >> 34 & 1:
                queue.place = dice.below(2 * queue.number)
            else:
                queue.place = dice.one((0xffff, 0xfffe, 0xfffd, 0xffff - queue.number % 65536, 0x7fff, 0x7ffe, 0xff, 0x100, 0x8000))
            queue.passed = dice.below(queue.number + 1) if dice.is_one_in(2) else 0
            queue.ahead = dice.below(queue.number - queue.passed + 1) if dice.is_one_in(3) else 0
            queue.left = queue.number - queue.passed - queue.ahead if dice.is_one_in(2) else 0
        elif what == 8:
            window.interrupts = dice.below(4)
            window.status = dice.one((0x0b, 0x0f, 0x4f, 0x8f, 0x0c, 0x08)) if window.status & 8 else window.status & 0xf7
        elif what == 9:
            window.selectors = [dice.below(3) for _ in range(4)]
        elif what == 10:
            snapshot.windows["c"].generation = dice.one((0, 0xff, 0xffff, 0xffffffff, 0x7fffffff))
        else:
            snapshot.pending, snapshot.size = bytes([0x30 + dice.below(10)]) * dice.one((0, 1, 9, 4090)), [dice.below(1 << 16), dice.below(1 << 16)]

    def complete(self):
        """What is in flight is done or failed; the host writes what it read."""
        asked, is_done = self.flight(), not self.dice.is_one_in(4)
        if asked and asked.kind == "in" and is_done:
            for at, count in asked.runs:
                self.put(at, bytes([self.dice.below(256)]) * count)
        if self.is_extended():
            self.do("io", "0 done" if is_done else "0 failed")

    def small(self):
        """An emergency byte, a resize, an acknowledgement, a notify of another queue, or registers that are read."""
        dice, what = self.dice, self.dice.below(7)
        window = dice.one("bc")
        if what == 0:
            self.write("c", 0x108 + dice.one((0, 0, 0, 1, 2)), 0x21 + dice.below(90), dice.one((1, 2, 4)))
        elif what == 1:
            self.resize(dice.below(1 << 16), dice.below(300))
        elif what == 2:
            self.write(window, INTERRUPT_ACK, dice.below(8))
        elif what == 4:
            self.life.do(dice.one(("r {:x} b 070 4", "w {:x} c 108 1 21", "mr {:x} 80000000 1", "in {:x} 61", "sz {:x} 1 1")).format(
                len(self.life.slots) + dice.below(3)))
        elif what == 3:
            self.write(window, NOTIFY, dice.one((0, 1, 2, 0x10000, 0x10001)))
        else:
            self.registers(window)
            if dice.is_one_in(8):
                self.write(window, STATUS, FAILED)

    def memory_events(self):
        """Memory near its ends, and inside; of nothing, and of what isn't there."""
        dice = self.dice
        regions = self.memory().regions
        region = dice.one(regions)
        end = region.base + len(region.bytes)
        inside = region.base + dice.below(len(region.bytes))
        at = dice.one((region.base, region.base - 1, end - 1, end, end - 8, end + 1, inside, end - 0x1000)) % 2**64
        length = dice.one((0, 1, 8, 9, 2, 0x101))
        if dice.is_one_in(2):
            self.look(at, length)
        else:
            self.put(at, bytes([dice.below(256)]) * length)

    def nothing(self):
        """Services of nothing, a few or many."""
        window = self.dice.one("bc")
        for _ in range(self.dice.one((1, 2, 3, 17, 34))):
            self.notify(window, self.dice.one(INDICES[window]))

    def step(self):
        """One step; a window that fell or never rose comes up now and then."""
        dice = self.dice
        for window in "bc":
            if not self.window(window).live() and dice.is_one_in(3):
                self.bring_up(window)
        what = dice.below(27)
        if self.flight() and what % 2:
            self.complete()
        elif what < 7:
            self.disk()
        elif what < 11:
            self.texts()
        elif what < 15:
            self.typed()
        else:
            (self.small, self.small, self.fault, self.write_any, self.stop, self.save, self.save, self.complete, self.reborn,
             self.memory_events, self.memory_events, self.nothing)[what - 15]()

    def reborn(self):
        """A window comes up again."""
        self.bring_up(self.dice.one("bc"))


class LotsRing:
    """Where the device looks for the next chain of a queue, or would; chains are written from there on."""

    def __init__(self, guest, window, index):
        queue, self.guest, self.window, self.index = guest.queue(window, index), guest, window, index
        negotiated = guest.window(window).negotiated()
        self.is_packed = queue.packed if queue.ready else "ring_packed" in negotiated
        self.may_use_tables = queue.indirect if queue.ready else "indirect_desc" in negotiated
        self.has_events = queue.event_idx if queue.ready else "event_idx" in negotiated
        is_good = 1 <= queue.number <= 256 and (self.is_packed or not queue.number & (queue.number - 1))
        self.number = queue.number if is_good else 4
        self.used = queue.place if queue.ready else 0
        self.place = self.used + queue.ahead if queue.ready else 0
        lengths = (16 * self.number, *((4, 4) if self.is_packed else (6 + 2 * self.number, 6 + 8 * self.number)))
        inside = all(guest.memory().holds(at, length) for at, length in zip(queue.areas, lengths))
        self.areas = queue.areas if inside else guest.some_areas(window, index, 0, self.number, self.is_packed)

    def mark(self, place):
        return AVAIL if place % (2 * self.number) < self.number else USED_FLAG

    def entry(self, buffer, link, mark=0):
        pair = (link, buffer.flags | mark) if self.is_packed else (buffer.flags | mark, link)
        return number(buffer.address % 2**64, 8) + number(buffer.length, 4) + number(pair[0], 2) + number(pair[1], 2)

    def table(self, buffers):
        """A table of these buffers, and the one buffer that names it."""
        guest = self.guest
        guest.turn += 1
        at = guest.room + TABLES + 0x100 * (guest.turn % 16) + guest.dice.below(3)
        guest.put(at, b"".join(self.entries_of_table(buffers)))
        return Buffer(at, 16 * len(buffers), INDIRECT | (WRITE if guest.dice.is_one_in(4) else 0))

    def entries_of_table(self, buffers):
        """Those of a split table go on from the first one in any order."""
        if self.is_packed:
            return [self.entry(one, self.guest.dice.below(1 << 16), self.guest.dice.one((0, 0, NEXT, INDIRECT, 0x8080))) for one in buffers]
        places = [0, *self.shuffled(range(1, len(buffers)))]
        found = dict.fromkeys(places)
        for at, one in enumerate(buffers):
            more = (NEXT, places[at + 1]) if at < len(buffers) - 1 else (0, self.guest.dice.below(1 << 16))
            found[places[at]] = self.entry(Buffer(one.address, one.length, one.flags | more[0]), more[1])
        return [found[place] for place in sorted(found)]

    def shuffled(self, some):
        """These, now and then in another order."""
        some = list(some)
        if self.guest.dice.is_one_in(2):
            for at in range(len(some) - 1, 0, -1):
                other = self.guest.dice.below(at + 1)
                some[at], some[other] = some[other], some[at]
        return some

    def formed(self, buffers, room):
        """A chain as it stands in the ring: plain, in a table, or both, in so many descriptors at most."""
        dice = self.guest.dice
        if self.may_use_tables and (dice.is_one_in(3) or len(buffers) > room):
            if not self.is_packed and len(buffers) > 2 and room > 1 and dice.is_one_in(2):
                return [buffers[0], self.table(buffers[1:])]
            return [self.table(buffers)]
        return buffers if len(buffers) <= room else joined_up(buffers)[:room]

    def offer(self, chains, raw=False):
        """Chains from the device's place on, as many as there is room for; and what the driver says of notifications."""
        dice, room, formed = self.guest.dice, self.number, []
        for buffers in chains:
            if room:
                one = buffers[:room] if raw else self.formed(buffers, room)
                formed.append(one)
                room -= len(one)
        (self.offer_packed if self.is_packed else self.offer_split)(formed)
        if not dice.is_one_in(3):
            self.say(sum(map(len, formed)) if self.is_packed else len(formed))
        return len(formed)

    def offer_packed(self, chains):
        place, entries, identity = self.place, [], self.guest.dice.below(1 << 16)
        for chain in chains:
            for at, one in enumerate(chain):
                more = NEXT if at < len(chain) - 1 else 0
                entries.append(self.entry(Buffer(one.address, one.length, one.flags | more), identity + len(entries) & 0xffff, self.mark(place)))
                place += 1
        if len(entries) < self.number:
            behind = self.areas[0] + 16 * (place % self.number) + 14
            flags = self.guest.memory().number(behind, 2)
            if flags & (AVAIL | USED_FLAG) == self.mark(place):
                self.guest.put(behind, bytes(2) if place % (2 * self.number) < self.number else number(AVAIL | USED_FLAG, 2))
        self.put_round(self.areas[0], self.place % self.number, entries)

    def offer_split(self, chains):
        dice, count = self.guest.dice, sum(map(len, chains))
        start = dice.below(self.number)
        places = self.shuffled((start + at) % self.number for at in range(count))
        heads, entries, at = [], {}, 0
        for chain in chains:
            heads.append(places[at])
            for turn, one in enumerate(chain):
                more = NEXT if turn < len(chain) - 1 else 0
                following = places[at + 1] if more else dice.below(1 << 16)
                entries[places[at]] = self.entry(Buffer(one.address, one.length, one.flags | more), following, dice.one((0, 0, 0, 0xfff8)))
                at += 1
        self.put_round(self.areas[0], start, [entries[(start + at) % self.number] for at in range(count)])
        self.put_round(self.areas[1] + 4, self.place % self.number, [number(head, 2) for head in heads])
        flags = dice.one((0, 0, 1, 0xfffe))
        self.guest.put(self.areas[1], number(flags, 2) + number((self.place + len(heads)) % 65536, 2))

    def put_round(self, at, start, entries):
        """Entries from an index on, and round."""
        front, behind = entries[:self.number - start], entries[self.number - start:]
        if front:
            self.guest.put(at + len(front[0]) * start, b"".join(front))
        if behind:
            self.guest.put(at, b"".join(behind))

    def say(self, count):
        """used_event, or the driver's event suppression, at or near a place that comes."""
        dice = self.guest.dice
        away = dice.one((0, count - 1, count, -1, dice.below(max(1, count)), self.number, 0x100, 0x8000))
        if not self.is_packed:
            self.guest.put(self.areas[1] + 4 + 2 * self.number, number((self.place + away) % 65536, 2))
            return
        place = (self.place + away) % (2 * self.number)
        named = place % self.number + (self.number if dice.is_one_in(9) else 0)
        self.guest.put(self.areas[1], number(named | (0x8000 if place < self.number else 0), 2) + number(dice.one((2, 2, 2, 0, 1, 3, 6)), 2))

    def look(self):
        """What the device writes into the areas: all of a small ring, else what is near its place."""
        guest, (desc, _, device) = self.guest, self.areas
        if self.is_packed:
            if self.number <= 8:
                guest.look(desc, 16 * self.number)
            else:
                guest.look(desc + 16 * ((self.used - 1) % self.number), 16)
            guest.look(device, 4)
        elif self.number <= 8:
            guest.look(device, 6 + 8 * self.number)
        else:
            guest.look(device, 4)
            guest.look(device + 4 + 8 * ((self.used - 1) % self.number), 8)
            guest.look(device + 4 + 8 * self.number, 2)


def joined_up(buffers):
    """Buffers whose neighbours in memory are one."""
    found = []
    for one in buffers:
        last = found[-1] if found else None
        if last and last.flags == one.flags and last.address + last.length == one.address:
            found[-1] = Buffer(last.address, last.length + one.length, last.flags)
        else:
            found.append(one)
    return found
