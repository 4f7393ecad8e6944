"""Guests that a board may meet: drivers that do what they should, and drivers that don't.

A guest writes down what it does, line by line, before anything runs; it never sees an answer. A sane guest also
writes down which answers its own driver relies on: that its disk gives back what it wrote, that what was typed
arrives, and that what it transmits comes out. It notes too at which event it reads the status of which request. A
hostile guest runs the same drivers, but twists what they write into memory, and does mischief between their steps.
"""
import os
import random
import sys
from collections import namedtuple

sys.path.append(os.path.join(os.path.dirname(os.path.dirname(os.path.abspath(__file__))), "crates", "conformance", "mutants"))

import trace_text
from probes import Probes
from queues import AREAS, INDIRECT, PackedQueue, SplitQueue


class Slot(namedtuple("Slot", "base length start count read_only columns rows identity others", defaults=[()])):
    """A slot: base and length of a region of its memory, what stands behind them in its line, and its other regions."""

    def regions(self):
        """All regions of the memory, in ascending order."""
        return sorted([(self.base, self.length), *self.others])

    def mode(self):
        return "ro" if self.read_only else "rw"

    def fields(self, disk="image"):
        """What the small model makes a slot of."""
        (base, length), *others = self.regions()
        return [disk, base, length, self.start, self.count, self.mode(), self.columns, self.rows, self.identity, *others]

    def line(self, first_line, disk):
        """Its line in a trace with this first line."""
        return trace_text.slot_line(first_line, self.regions(), disk, self.start, self.count, self.mode(), self.columns, self.rows,
                                    identity=self.identity)

    def ends(self):
        """Where each region begins and ends."""
        return [at for base, length in self.regions() for at in (base, base + length)]


# What a board offers its drivers: the low word of each window's features, and the high word of both; and the low words of an entropy
# device, a network card, a disk of the host, a console and a disk over the image, where it has these as further devices.
Offered = namedtuple("Offered", "block console high entropy network disk further_console image_disk", defaults=5 * [None])

# Where a guest keeps its virtqueues, block, receive and transmit: from its memory's base on.
PLACES = [0x0000, 0x3000, 0x4800]
MEMORIES = [0x6000, 0x8000, 0x10000]

SECTOR = 512
INDIRECT_DESC, EVENT_IDX, CONSOLE_SIZE, WRITE_ZEROES = 1 << 28, 1 << 29, 1 << 0, 1 << 14
VERSION_1, RING_PACKED, NOTIFICATION_DATA = 1 << 0, 1 << 2, 1 << 6
READ, WRITE, FLUSH, IDENTITY, ZERO = 0, 1, 4, 8, 13
OK, IOERR, UNSUPPORTED = 0, 1, 2
# The identity of each slot of a trace of version 1.
IDENTITY_TEXT = b"vreplay-block".ljust(20, b"\0")
PENDING_LIMIT = 4096
# The events of further devices.
FURTHER_WORDS = ["plug", "dr", "dw", "supply", "frame", "take", "dsent", "link", "dsz", "dio", "ddrop", "dhold", "drelease"]

# What a hostile guest picks from.
ODD_COUNTS = [1, 2, 3, 15, 16, 17, 31, 32, 33, 127, 128, 129, 255, 256, 257]
ODD_TYPES = [0, 0, 0, 1, 1, 4, 8, 11, 13, 1 << 31]
ODD_STATUSES = [0, 1, 3, 4, 8, 0xB, 0xF, 0x40, 0x80, 0xFF, 0xFFFFFFFF]
ODD_NUMBERS = [0, 1, 2, 3, 4, 15, 16, 17, 255, 256, 257, 0x7FFF, 0x8000, 0xFFFF, 0x10000, 0x7FFFFFFF,
               0x80000000, 0xFFFFFFFF]
REGISTERS = [0x000, 0x004, 0x008, 0x00C, 0x010, 0x014, 0x020, 0x024, 0x030, 0x034, 0x038, 0x044, 0x050, 0x060, 0x064,
             0x070, 0x080, 0x084, 0x090, 0x094, 0x0A0, 0x0A4, 0x0AC, 0x0B0, 0x0BC, 0x0FC, 0x100, 0x104, 0x108, 0x10C,
             0x114, 0x130]


def segment_bytes(sector, count, flags):
    """A segment of a request that zeroes sectors."""
    return sector.to_bytes(8, "little") + count.to_bytes(4, "little") + flags.to_bytes(4, "little")


class Event(namedtuple("Event", "word fields")):
    """A word of a trace and its fields behind the slot; `meant` says what it is to arrivals.py, where it is anything, and `begins` what
    further disks are asked with it."""

    meant, begins = None, ""

    @classmethod
    def of(cls, line):
        """An event by its line, whichever slot that names."""
        word, _, *fields = line.split(" ")
        return cls(word, " ".join(fields))

    def line(self):
        """Its line in a trace of its guest alone, with the fields by their names."""
        return trace_text.Line([self.word, "0", *self.fields.split()])

    def writes(self, window, *offsets):
        """Whether it is a write of one of these registers of a window."""
        line = self.line() if self.word == "w" else {}
        return "offset" in line and line["window"] == window and line["offset"] in offsets


class Guest:
    """What one guest does: its events in their order."""

    def __init__(self, dice, slot, wildness=0.0):
        self.dice, self.slot, self.wildness = dice, slot, wildness
        self.places = random.Random(f"places {slot}")
        self.events, self.expected, self.disk = [], {}, None
        # whether the host serves its disk, and how many of its operations may be in flight
        self.is_hosted, self.depth = False, 1
        # what the suite's small model says that it is told, where the model made its events
        self.told = None
        # of each block request: the event that reads its status, its type, whether it is refused, and runs of sectors with
        # what it writes to them
        self.looked = []
        # the drivers of its further devices, how many of these are plugged in, and the region that is these drivers' alone
        self.further, self.plugged, self.apart = [], 0, (0, 0)
        # how many spare sectors of the image it has, what these hold, and the runs of them that are left for drivers of disks
        self.spare, self.spare_bytes, self.runs = 0, b"", []

    def disk_field(self):
        """Who has its disk, as a slot line says it."""
        return f"host:{self.depth:x}" if self.is_hosted else f"image+{self.spare:x}" if self.spare else "image"

    def image_disks(self):
        """The drivers of its disks over spare sectors."""
        return [driver for driver in self.further if driver.IS_OVER_IMAGE]

    def is_apart(self, event):
        """Whether an event concerns nothing but further devices and their drivers' region."""
        first, length = self.apart
        return event.word in FURTHER_WORDS or event.word in ("mr", "mw") and first <= event.line()["address"] < first + length

    def do(self, word, fields, reply=None, output="-"):
        """Writes an event down, and the reply that the guest relies on, where it does."""
        if reply is not None and not self.wildness:
            self.expected[len(self.events)] = f"{reply} {output}"
        self.events.append(Event(word, fields))

    def mean(self, *meant):
        """Says what the last event is to arrivals.py."""
        self.events[-1].meant = meant

    def read(self, window, offset, width=4, found=None):
        word = "r" if window in "bc" else "dr"
        self.do(word, f"{window} {offset:03x} {width}", None if found is None else f"v:{found:08x}")

    def write(self, window, offset, value, width=4, reply=None, output="-"):
        value %= 1 << 8 * width
        word = "w" if window in "bc" else "dw"
        self.do(word, f"{window} {offset:03x} {width} {value:0{2 * width}x}", reply, output)

    def look(self, address, length, found=None):
        self.do("mr", f"{address:x} {length:x}", None if found is None else f"b:{found.hex() or '-'}")

    def put(self, address, data):
        self.do("mw", f"{address:x} {data.hex() or '-'}")


class Driver:
    """A driver of one window, `b`, `c` or the number of a further device: brings it up with its virtqueues."""

    def __init__(self, guest, window, offered, places):
        dice, self.guest, self.window, self.offered = guest.dice, guest, window, offered
        self.low = self.own_features() & dice.choice([0, INDIRECT_DESC, EVENT_IDX, 0xFFFFFFFF])
        is_packed = bool(offered.high & RING_PACKED) and dice.random() < 0.5
        self.high = VERSION_1 | (offered.high & dice.choice([0, NOTIFICATION_DATA]))
        if is_packed:
            self.high |= RING_PACKED
        kind, indirect = PackedQueue if is_packed else SplitQueue, bool(self.low & INDIRECT_DESC)
        tells_next = bool(self.high & NOTIFICATION_DATA)
        self.queues = [kind(guest, window, number, dice.choice(kind.SIZES), self.areas_at(place), indirect, tells_next)
                       for number, place in enumerate(places)]
        for queue, place in zip(self.queues, places):
            self.put_apart(queue, place)

    def own_features(self):
        """The low word of what the window offers."""
        return self.offered.block if self.window == "b" else self.offered.console

    def areas_at(self, place):
        """Where the areas of a virtqueue lie: in any region but that of further devices. Each has room for all."""
        regions = [region for region in self.guest.slot.regions() if region != self.guest.apart]
        return self.guest.places.choice(regions)[0] + place

    def put_apart(self, queue, place):
        """Gives the virtqueue's buffers another region than its areas, where there are several."""
        queue.room = self.areas_at(place) + AREAS
        queue.give_buffers_back()

    def bring_up(self):
        guest, window = self.guest, self.window
        for status in [0, 1, 3]:
            guest.write(window, 0x070, status)
        for selector, word in [(0, self.low), (1, self.high)]:
            guest.write(window, 0x024, selector)
            guest.write(window, 0x020, word)
        guest.write(window, 0x070, 0xB)
        for queue in self.queues:
            queue.set_up()
        guest.write(window, 0x070, 0xF)

    def acknowledge(self):
        self.guest.read(self.window, 0x060)
        self.guest.write(self.window, 0x064, self.guest.dice.choice([1, 3]))


class BlockDriver(Driver):
    """Reads and writes sectors, and knows what its disk must hold."""

    def __init__(self, guest, offered, disk):
        super().__init__(guest, "b", offered, PLACES[:1])
        self.disk, self.checks, self.last = bytearray(disk), [], 0
        self.asked = []

    def step(self):
        """Some requests, one notify, and a look at what became of them."""
        queue, guest = self.queues[0], self.guest
        for _ in range(guest.dice.randrange(1, 4)):
            if self.low & WRITE_ZEROES and guest.dice.random() < 0.3:
                self.zero()
            else:
                self.request(guest.dice.choice([READ, READ, READ, WRITE, WRITE, FLUSH, IDENTITY]))
        queue.publish()
        guest.write("b", 0x050, queue.notification(), reply="done")
        guest.looked += [(len(guest.events) + at, *request) for at, *request in self.asked]
        for address, data in self.checks:
            guest.look(address, len(data), data)
        queue.look_at_used()
        queue.give_buffers_back()
        self.checks, self.asked = [], []
        if guest.dice.random() < 0.5:
            self.acknowledge()

    def request(self, what):
        """One request, where the virtqueue and the room for buffers have place for it."""
        guest, queue, sectors = self.guest, self.queues[0], self.guest.slot.count
        moves_sectors = what in (READ, WRITE)
        length = SECTOR * guest.dice.choice([0, 1, 1, 1, 2, 3]) if moves_sectors else guest.dice.choice([20, 30])
        self.last = sector = self.last if guest.dice.random() < 0.6 else guest.dice.randrange(sectors + 1)
        if queue.room_left() < length + 200:
            return
        header, data, status = queue.buffer(16), queue.pieces(length), queue.buffer(1)
        if queue.left < len(data) + 2:
            return
        is_outside = moves_sectors and SECTOR * (sectors - sector) < length
        is_refused = is_outside or what == WRITE and guest.slot.read_only
        guest.put(header, what.to_bytes(4, "little") + bytes(4) + sector.to_bytes(8, "little"))
        guest.put(status, b"\xff")
        written = self.write_sectors(data, sector, is_refused) if what == WRITE else b""
        if what in (READ, IDENTITY) and not is_refused:
            found = guest.slot.identity if what == IDENTITY else bytes(self.disk[SECTOR * sector:SECTOR * sector + length])
            self.rely_on(data, found)
        self.asked.append((len(self.checks), what, is_refused, [(sector, written)]))
        self.rely_on([(status, 1)], bytes([IOERR if is_refused else OK]))
        queue.offer([(header, 16, False)] + [(at, n, what != WRITE) for at, n in data] + [(status, 1, True)])

    def write_sectors(self, pieces, sector, is_refused):
        """Fills the pieces with bytes to write, notes what the disk then holds, and answers them."""
        whole = b""
        for address, length in pieces:
            data = self.guest.dice.randbytes(length)
            self.guest.put(address, data)
            whole += data
        if not is_refused:
            self.disk[SECTOR * sector:SECTOR * sector + len(whole)] = whole
        return whole

    def zero(self):
        """A request that zeroes sectors, where the virtqueue and the room for buffers have place for it."""
        guest, queue, dice = self.guest, self.queues[0], self.guest.dice
        segments = [(dice.randrange(guest.slot.count + 1), dice.choice([0, 1, 1, 1, 2, 3]),
                     dice.choice([0, 0, 0, 0, 1, 1, 1, 2])) for _ in range(dice.choice([0, 1, 1, 1, 2, 3, 32, 33]))]
        length = 16 * len(segments)
        if queue.room_left() < length + 200:
            return
        header, data, status = queue.buffer(16), queue.pieces(length), queue.buffer(1)
        if queue.left < len(data) + 2:
            return
        guest.put(header, ZERO.to_bytes(16, "little"))
        guest.put(status, b"\xff")
        whole = b"".join(segment_bytes(*segment) for segment in segments)
        for address, part in data:
            guest.put(address, whole[:part])
            whole = whole[part:]
        answer = self.zero_segments(segments)
        zeroed = [(sector, bytes(SECTOR * count)) for sector, count, _ in segments]
        self.asked.append((len(self.checks), WRITE, answer != OK, zeroed))
        self.rely_on([(status, 1)], bytes([answer]))
        queue.offer([(header, 16, False)] + [(at, n, False) for at, n in data] + [(status, 1, True)])

    def zero_segments(self, segments):
        """The status that these segments get; the disk then holds zeros in their sectors where it is OK."""
        slot = self.guest.slot
        if slot.read_only or not 0 < len(segments) <= 32:
            return IOERR
        if any(flags > 1 for _, _, flags in segments):
            return UNSUPPORTED
        if any(sector + count > slot.count for sector, count, _ in segments):
            return IOERR
        for sector, count, _ in segments:
            self.disk[SECTOR * sector:SECTOR * (sector + count)] = bytes(SECTOR * count)
        return OK

    def rely_on(self, pieces, data):
        """What the pieces hold after this request; a later one of the same notify changes no byte of them."""
        for address, length in pieces:
            self.checks.append((address, data[:length]))
            data = data[length:]


class ConsoleDriver(Driver):
    """Types to the guest, receives what was typed, and transmits."""

    def __init__(self, guest, offered):
        super().__init__(guest, "c", offered, PLACES[1:])
        self.pending, self.waiting, self.is_up = b"", [], False

    def bring_up(self):
        super().bring_up()
        self.waiting, self.is_up = [], True

    def step(self):
        self.guest.dice.choice([self.type, self.type, self.receive, self.transmit, self.resize, self.emergency])()
        if self.guest.dice.random() < 0.3:
            self.acknowledge()

    def type(self):
        """Input from outside; more than fits is dropped."""
        data = self.guest.dice.randbytes(self.guest.dice.choice([0, 1, 5, 30, 300, 4096]))
        taken = data[:PENDING_LIMIT - len(self.pending)]
        self.pending += taken
        self.guest.do("in", data.hex() or "-", f"took:{len(taken):x}")
        self.look_at_received()

    def receive(self):
        """Buffers for what is typed, in a virtqueue of which all buffers have been used."""
        queue, guest = self.queues[0], self.guest
        if self.waiting or not self.is_up:
            return
        queue.give_buffers_back()
        for _ in range(guest.dice.randrange(1, 3)):
            pieces = queue.pieces(guest.dice.choice([1, 3, 40, 200]))
            if queue.left >= len(pieces):
                queue.offer([(at, n, True) for at, n in pieces])
                self.waiting.append(pieces)
        queue.publish()
        guest.write("c", 0x050, queue.notification(), reply="done")
        self.look_at_received()

    def look_at_received(self):
        """Each chain in turn takes what is pending, as long as anything is."""
        while self.waiting and self.pending:
            for address, length in self.waiting.pop(0):
                found, self.pending = self.pending[:length], self.pending[length:]
                self.guest.look(address, len(found), found)
        if self.is_up and not self.waiting:
            self.queues[0].look_at_used()

    def transmit(self):
        queue, guest, out = self.queues[1], self.guest, b""
        if not self.is_up:
            return
        queue.give_buffers_back()
        for _ in range(guest.dice.randrange(1, 3)):
            pieces = queue.pieces(guest.dice.choice([0, 1, 20, 200]))
            if queue.left >= len(pieces):
                out += self.fill(pieces)
                queue.offer([(at, n, False) for at, n in pieces])
        queue.publish()
        guest.write("c", 0x050, queue.notification(), reply="done", output=out.hex() or "-")
        queue.look_at_used()

    def fill(self, pieces):
        """Fills buffers with bytes to transmit."""
        data = [self.guest.dice.randbytes(length) for _, length in pieces]
        for (address, _), part in zip(pieces, data):
            self.guest.put(address, part)
        return b"".join(data)

    def resize(self):
        columns, rows = self.guest.dice.randrange(1 << 16), self.guest.dice.randrange(1 << 16)
        self.guest.do("sz", f"{columns:x} {rows:x}", "done")
        self.guest.read("c", 0x100)
        self.guest.read("c", 0x0FC)

    def emergency(self):
        value, width = self.guest.dice.randrange(1 << 32), self.guest.dice.choice([1, 2, 4])
        self.guest.write("c", 0x108, value, width, reply="done", output=f"{value % 256:02x}")


class Mischief:
    """What a hostile guest does between the steps of its drivers."""

    def __init__(self, guest, drivers, types):
        self.guest, self.drivers, self.dice = guest, drivers, guest.dice
        self.ways = [self.odd_request] * 6 + [self.odd_zero] * 2 + [self.scribble, self.jump, self.notify, self.notify] + [self.restart] * 4
        self.ways += [self.register, self.register, self.odd_read, self.status, self.move, self.outside, self.long_table]
        self.ways += [self.type] if types else []
        self.windows = ["b", "c"] + [driver.window for driver in guest.further]
        # whether the board has disks over the image
        self.has_runs = drivers[0].offered.image_disk is not None
        if guest.further:
            self.ways += [self.odd_chain] * 6 + [self.plug] + [self.odd_host] * 4

    def step(self):
        self.dice.choice(self.ways)()

    def queue(self):
        return self.dice.choice(self.dice.choice(self.drivers).queues)

    def window(self):
        return self.dice.choice(self.windows)

    def sectors(self):
        """How many sectors a disk of the guest has, or all spare ones."""
        guest, own = self.guest, self.guest.slot.count
        return self.dice.choice([own, guest.spare, *[driver.sectors for driver in guest.image_disks()]]) if guest.spare else own

    def number(self):
        """A number at which something may go wrong."""
        dice = self.dice
        bit = 1 << dice.randrange(64)
        return dice.choice(ODD_NUMBERS + [self.address(), dice.randrange(1 << 32), dice.randrange(1 << 64), bit, bit ^ 1, bit - 1])

    def address(self):
        """An address, most times in the guest's memory, often in the areas of a virtqueue or at an end, now and then with one bit
        turned."""
        dice, slot, queue = self.dice, self.guest.slot, self.queue()
        ends = [*slot.ends(), slot.base + slot.length // 2, dice.choice([0, 1 << 64])]
        areas = [queue.at, queue.driver_area, queue.device_area, queue.at + dice.randrange(0x400)]
        turned = 1 << dice.randrange(64) if dice.random() < 0.1 else 0
        return (dice.choice(ends + 2 * areas) + dice.choice([0, 0, 0, -1, 1, 2, -16, 16])) % (1 << 64) ^ turned

    def odd_request(self):
        """A request of any type at any sector, over any buffers."""
        guest, dice, queue = self.guest, self.dice, self.queue()
        queue.give_buffers_back()
        count = self.sectors()
        sector = dice.choice([0, 0, 1, count, count + 1, 1 << 32, 1 << 55, (1 << 64) - 1])
        header = queue.buffer(16)
        guest.put(header, dice.choice(ODD_TYPES).to_bytes(8, "little") + sector.to_bytes(8, "little"))
        buffers = [(header, dice.choice([16, 16, 16, 16, 15, 17]), dice.random() < 0.05)]
        buffers += [self.odd_buffer(queue) for _ in range(dice.randrange(4))]
        if dice.random() < 0.8:
            buffers.append((queue.buffer(1), 1, True))
        if queue.left >= len(buffers):
            queue.offer(buffers)
        queue.publish()
        guest.write(queue.window, 0x050, queue.notification())
        queue.look_at_used()
        guest.read(queue.window, 0x070)

    def odd_zero(self):
        """A request that zeroes sectors, with data of any length, often over a virtqueue."""
        guest, dice, queue = self.guest, self.dice, self.queue()
        queue.give_buffers_back()
        length = dice.choice([0, 16, 16, 32, 48, 512, 528, dice.randrange(530), dice.randrange(530)])
        header, at, status = queue.buffer(16), dice.choice([queue.buffer(544), self.address()]), queue.buffer(1)
        guest.put(header, ZERO.to_bytes(16, "little"))
        if dice.random() < 0.8:
            guest.put(at, b"".join(self.odd_segment() for _ in range(34))[:length])
        cut = dice.randrange(length + 1)
        if queue.left >= 4:
            rest = (at + cut) % (1 << 64)
            queue.offer([(header, 16, False), (at, cut, False), (rest, length - cut, False), (status, 1, True)])
        queue.publish()
        guest.write(queue.window, 0x050, queue.number)
        queue.look_at_used()

    def odd_segment(self):
        """A segment, most times of few sectors of the disk."""
        dice, count = self.dice, self.sectors()
        few = [dice.randrange(count + 1), dice.choice([0, 1, 1, 2]), dice.choice([0, 0, 1])]
        if dice.random() < 0.05:
            few[dice.randrange(3)] = dice.choice([count + 1, 2, 3, 65536, 65537, 1 << 31, (1 << 32) - 1])
        if dice.random() < 0.02:
            few[0] = dice.choice([1 << 32, 1 << 55, (1 << 64) - 1])
        return segment_bytes(*few)

    def odd_buffer(self, queue):
        """A buffer, as (address, length, whether the device may write it)."""
        dice = self.dice
        address = queue.buffer(512) if dice.random() < 0.5 else self.address()
        length = dice.choice([0, 1, 16, 20, 511, 512, 512, 513, 1024, self.number() % (1 << 32)])
        return address, length, dice.random() < 0.6

    def long_table(self):
        """A table of many small buffers, of which one is odd: the first, the second, one in the middle, or the last."""
        guest, dice, queue = self.guest, self.dice, self.queue()
        queue.give_buffers_back()
        count = dice.choice(ODD_COUNTS)
        header, small, table = queue.buffer(16), queue.buffer(1), queue.buffer(16 * count)
        guest.put(header, dice.choice(ODD_TYPES).to_bytes(16, "little"))
        buffers = [(header, 16, False)] + [(small, dice.randrange(2), dice.random() < 0.5) for _ in range(count - 1)]
        buffers[dice.choice([0, 1, count // 2, count - 1]) % count] = self.odd_buffer(queue)
        guest.put(table, b"".join(queue.table_entry(buffer, number, count) for number, buffer in enumerate(buffers)))
        queue.offer([(table, 16 * count, False)], INDIRECT)
        queue.publish()
        guest.write(queue.window, 0x050, queue.notification())
        queue.look_at_used()
        guest.read(queue.window, 0x070)

    def scribble(self):
        """Bytes over a virtqueue's areas."""
        queue = self.queue()
        self.guest.put(queue.at + self.dice.randrange(0x200), self.dice.randbytes(self.dice.randrange(1, 9)))
        self.notify()

    def jump(self):
        """An available idx, or an event suppression, that nobody would write."""
        queue = self.queue()
        self.guest.put(queue.driver_area + self.dice.choice([0, 2]), (self.number() & 0xFFFF).to_bytes(2, "little"))
        self.guest.write(queue.window, 0x050, queue.notification())

    def register(self):
        offset = self.dice.choice(REGISTERS) if self.dice.random() < 0.8 else self.dice.randrange(0x1000)
        self.guest.write(self.window(), offset, self.number(), self.dice.choice([4, 4, 4, 2, 1]))

    def odd_read(self):
        offset = self.dice.choice(REGISTERS + [self.dice.randrange(0x1000)])
        self.guest.read(self.window(), offset, self.dice.choice([4, 4, 2, 1]))

    def status(self):
        self.guest.write(self.window(), 0x070, self.dice.choice(ODD_STATUSES))

    def notify(self):
        self.guest.write(self.window(), 0x050, self.dice.choice([0, 0, 1, 1, 2, 0xFFFF, 0x10000, 0x80010000]))

    def restart(self):
        self.dice.choice(self.drivers).bring_up()

    def move(self):
        """A queue stopped, moved over other areas and made ready again, with what they hold."""
        queue, window = self.queue(), self.window()
        self.guest.write(window, 0x030, self.dice.choice([0, 0, 1, 2]))
        self.guest.write(window, 0x044, 0)
        self.guest.write(window, 0x038, self.dice.choice([1, 2, 4, queue.size, self.number()]))
        for offset in (0x080, 0x090, 0x0A0):
            area = self.dice.choice([queue.at, queue.at + 0x100, queue.at + 0x200, self.number()])
            self.guest.write(window, offset, area)
        self.guest.write(window, 0x044, 1)
        self.guest.write(window, 0x050, queue.number)

    def outside(self):
        """Memory at and past both ends."""
        slot = self.guest.slot
        at = (self.dice.choice(slot.ends()) + self.dice.randrange(-3, 4)) % (1 << 64)
        if self.dice.random() < 0.5:
            self.guest.look(at, self.dice.choice([0, 1, 2, 4, 0xFFFFFFFF]))
        else:
            self.guest.put(at, self.dice.randbytes(self.dice.randrange(4)))

    def odd_chain(self):
        """Buffers of any kind for a further device, often around the length of a card's header."""
        dice, queue = self.dice, self.dice.choice(self.dice.choice(self.guest.further).queues)
        queue.give_buffers_back()
        for _ in range(dice.choice([1, 1, 2])):
            lengths = [dice.choice([0, 1, 11, 12, 13, 26, 100, 1526, self.number() % (1 << 32)]) for _ in range(dice.choice([1, 1, 2, 3]))]
            places = [queue.buffer(length) if length <= 1526 else self.address() for length in lengths]
            if queue.left >= len(lengths):
                queue.offer([(at, length, dice.random() < 0.5) for at, length in zip(places, lengths)])
        queue.publish()
        self.guest.write(queue.window, 0x050, queue.notification())
        queue.look_at_used()
        self.guest.read(queue.window, 0x070)

    def plug(self):
        """A further device as any number."""
        dice = self.dice
        disk = f"disk {dice.choice([0, 8, 1 << 32, (1 << 55) - 1, 1 << 55]):x} {dice.choice(['rw', 'ro'])} {dice.randbytes(20).hex()} {dice.choice([0, 1, 64, 65]):x}"
        kinds = ["entropy", f"network:{dice.randbytes(6).hex()}:{dice.choice([0, 67, 68, 1500, 0xFFFF]):x}", disk,
                 f"console:{dice.randrange(1 << 16):x}:{dice.randrange(1 << 16):x}"]
        kinds += 2 * [self.odd_run()] if self.has_runs else []
        self.guest.do("plug", f"{dice.choice([0, self.guest.plugged, 5, 6, 255]):x} {dice.choice(kinds)}")

    def odd_run(self):
        """A disk over a run of sectors, which the guest may have or not."""
        dice, spare = self.dice, self.guest.spare
        place = dice.choice([0, 0, 1, max(spare, 1) - 1, spare, dice.randrange(spare + 1), dice.randrange(spare + 1), 1 << 63, (1 << 64) - 1])
        count = dice.choice([0, 1, 1, 2, 3, spare, spare + 1, 1 << 55, (1 << 64) - 1, -place % (1 << 64)])
        return f"image {place:x} {count:x} {dice.choice(['rw', 'rw', 'ro'])} {dice.randbytes(20).hex()}"

    def odd_host(self):
        """What a host does to further devices, of any kind and of any number."""
        dice, number = self.dice, self.dice.choice([0, 1, 2, 5, 6, 255])
        word, fields = dice.choice([
            ("supply", dice.randbytes(dice.choice([0, 1, 100, 5000])).hex() or "-"), ("link", dice.choice(["up", "down"])), ("take", ""),
            ("dsent", ""),
            ("frame", dice.randbytes(dice.choice([0, 1, 14, 60, 82, 83, 1514, 1515])).hex() or "-"), ("ddrop", ""), ("dhold", ""),
            ("dsz", f"{dice.randrange(1 << 16):x} {dice.randrange(1 << 16):x}"),
            *4 * [("dio", f"{dice.choice([0, 0, 0, 1, 2, 63, 255]):x} {dice.choice(['done', 'failed'])}")], ("drelease", "")])
        self.guest.do(word, f"{number:x} {fields}".strip())

    def type(self):
        if self.dice.random() < 0.5:
            self.guest.do("in", self.dice.randbytes(self.dice.choice([0, 1, 100, 5000])).hex() or "-")
        else:
            self.guest.do("sz", f"{self.dice.randrange(1 << 16):x} {self.dice.randrange(1 << 16):x}")


def live(guest, offered, disk, count):
    """Makes a guest run its drivers until it has done about `count` events, and then look at all that it has."""
    dice, has_console = guest.dice, bool(offered.console & CONSOLE_SIZE)
    drivers = [BlockDriver(guest, offered, disk)] + ([ConsoleDriver(guest, offered)] if has_console else []) + guest.further
    guest.disk = drivers[0].disk
    mischief, probes = Mischief(guest, drivers, has_console), Probes(guest, drivers[0])
    if has_console and dice.random() < 0.3:
        drivers[1].type()
    for driver in drivers:
        driver.bring_up()
    while len(guest.events) < count:
        if dice.random() < guest.wildness:
            mischief.step()
        elif not guest.wildness and dice.random() < 0.05:
            probes.step()
        else:
            dice.choice(drivers).step()
        if dice.random() < 0.05:
            dice.choice(drivers).bring_up()
    for driver in guest.further:
        driver.finish()
    for window in ["b", "c"] + [driver.window for driver in guest.further]:
        for offset in (0x034, 0x044, 0x060, 0x070, 0x0FC, 0x100):
            guest.read(window, offset)
    for base, length in guest.slot.regions():
        guest.look(base, length)
