#!/usr/bin/env python3
"""A small model of the board, written from docs/model.md and docs/formats.md alone; `changes` has what to break in it.

    model.py TRACE [IMAGE] [--save FILE] [--fails N,..] [--lacks FEATURE]

Without IMAGE there are eight sectors of zeros. Each rule stands on a line of its own, so that one change breaks one rule. It is slow and plain on purpose. trace_text.py, beside it,
takes the trace apart.
"""
import sys

sys.dont_write_bytecode = True

import trace_text
from trace_text import EXTENDED, bytes_of, spelled

NEXT, WRITE, INDIRECT, AVAIL, USED = 1, 2, 4, 0x80, 0x8000
ACKNOWLEDGE, DRIVER, DRIVER_OK, FEATURES_OK, NEEDS_RESET, FAILED = 1, 2, 4, 8, 64, 128

FEATURE = {"indirect_desc": 28, "event_idx": 29, "version_1": 32, "ring_packed": 34, "notification_data": 38, "seg_max": 2, "ro": 5,
           "blk_size": 6, "flush": 9, "write_zeroes": 14, "size": 0, "emerg_write": 2, "mtu": 3, "mac": 5, "status": 16}
EVERY = ["indirect_desc", "event_idx", "version_1", "ring_packed", "notification_data"]
OK, IOERR, UNSUPP = 0, 1, 2
IN, OUT, FLUSH, GET_ID = 0, 1, 4, 8
WRITE_ZEROES = 13
IDENTITY = b"vreplay-block" + bytes(7)
SECTOR = 512


class Fault(Exception):
    """A ring or a chain that no driver makes."""


class ImageFails(Exception):
    """A call of the image that failed."""


class NoSnapshot(Exception):
    """Bytes that are no snapshot which the slot takes up."""


class Busy(Exception):
    """An event that waits for what is in flight."""


class BadDevice(Exception):
    """An event that no further device of the slot takes."""


class Asks(Exception):
    """A request that asks for the disk which the host serves: its operation, and the chain that is then in flight."""

    def __init__(self, kind, start=0, length=0, runs=()):
        self.kind, self.start, self.length, self.runs, self.chain = kind, start, length, runs, None

    def __str__(self):
        runs = ",".join(f"{at:x}+{count:x}" for at, count in self.runs)
        return f"{self.kind}:{self.start:x}:{self.length:x}:{runs or '-'}"


class Region:
    """Bytes at consecutive addresses."""

    def __init__(self, base, length):
        self.base, self.bytes = base, bytearray(length)

    def holds(self, at, count):
        return self.base <= at and at + count <= self.base + len(self.bytes)

    def part(self, at, count):
        at -= self.base
        return bytes(self.bytes[at:at + count])

    def put(self, at, new):
        at -= self.base
        self.bytes[at:at + len(new)] = new


class Memory:
    """Regions in ascending order, with a gap between each two."""

    def __init__(self, base, length, *others):
        self.regions = [Region(base, length)] + [Region(at, size) for at, size in others]

    def span(self):
        """The first address, and how many there are from there to the end of the last region."""
        first, last = self.regions[0].base, self.regions[-1]
        return first, last.base + len(last.bytes) - first

    def region(self, at, count):
        """The region that holds so many bytes from an address on, or none."""
        return next((region for region in self.regions if region.holds(at, count)), None)

    def holds(self, at, count):
        return self.region(at, count) is not None

    def part(self, at, count):
        return (self.region(at, count) or self.regions[0]).part(at, count)

    def put(self, at, new):
        (self.region(at, len(new)) or self.regions[0]).put(at, new)

    def number(self, at, count):
        return int.from_bytes(self.part(at, count), "little")

    def put_number(self, at, count, value):
        self.put(at, value.to_bytes(count, "little"))


class Image:
    """The image, its numbered calls, and those that fail."""

    def __init__(self, content, fails):
        self.bytes, self.fails, self.calls, self.flushes = bytearray(content), fails, 0, 0

    def call(self):
        self.calls += 1
        return self.calls - 1 not in self.fails

    def read(self, sector):
        if not self.call():
            raise ImageFails
        return bytes(self.bytes[sector * SECTOR:sector * SECTOR + SECTOR])

    def write(self, sector, new):
        went_well = self.call()
        new = new if went_well else new[:256]
        self.bytes[sector * SECTOR:sector * SECTOR + len(new)] = new
        if not went_well:
            raise ImageFails

    def flush(self):
        self.flushes += 1
        if not self.call():
            raise ImageFails


class Cache:
    """Sectors that were used last are kept, `capacity` of them."""

    def __init__(self, image, capacity):
        self.image, self.capacity, self.kept = image, capacity, {}

    def keep(self, sector, content):
        self.kept.pop(sector, None)
        self.kept[sector] = content
        if len(self.kept) > self.capacity:
            del self.kept[next(iter(self.kept))]

    def read(self, sector):
        content = self.kept[sector] if sector in self.kept else self.image.read(sector)
        self.keep(sector, content)
        return content

    def write(self, sector, new):
        self.kept.pop(sector, None)
        self.image.write(sector, new)
        self.keep(sector, new)

    def zero(self, sector):
        self.kept.pop(sector, None)
        self.image.write(sector, bytes(SECTOR))

    def flush(self):
        self.image.flush()


class Chain:
    """The buffers of one chain."""

    def __init__(self, memory):
        self.memory, self.buffers, self.total = memory, [], 0
        self.head = self.id = 0
        self.members = 1

    def append(self, address, length, flags):
        if not self.memory.holds(address, length):
            raise Fault("Range")
        if len(self.buffers) >= 256:
            raise Fault("TooMany")
        if self.total + length > 2**32 - 1:
            raise Fault("TooLong")
        self.total += length
        self.buffers.append((address, length, flags & WRITE))

    def readable(self):
        return b"".join(self.memory.part(at, count) for at, count, write in self.buffers if not write)

    def front(self, most):
        """The first readable bytes; all of them may be more than there is memory for."""
        found = b""
        for at, count, write in self.buffers:
            if not write and len(found) < most:
                found += self.memory.part(at, min(count, most - len(found)))
        return found

    def count(self):
        return sum(count for _, count, write in self.buffers if not write)

    def room(self):
        return sum(count for _, count, write in self.buffers if write)

    def runs(self, kind, place, count):
        """Where so many bytes from `place` on lie, of the buffers with this flag: parts of buffers, none of them empty."""
        found = []
        for at, length, write in self.buffers:
            if write == kind:
                part = min(max(0, length - place), count)
                found += [(at + place, part)] if part else []
                place, count = max(0, place - length), count - part
        return found

    def write(self, place, new):
        """Writes over the writable places from `place` on."""
        for at, count, write in self.buffers:
            if write:
                part = new[:max(0, count - place)]
                self.memory.put(at + place, part)
                new, place = new[len(part):], max(0, place - count)


class Snapshot:
    """The bytes of a snapshot, read from left to right."""

    def __init__(self, content):
        self.rest = content

    def take(self, count):
        found, self.rest = self.rest[:count], self.rest[count:]
        if len(found) != count:
            raise NoSnapshot
        return found

    def value(self, count):
        return int.from_bytes(self.take(count), "little")

    def one_of(self, count, values):
        found = self.value(count)
        if found not in values:
            raise NoSnapshot
        return found

    def choice(self, values):
        return self.one_of(1, values)

    def counted(self, most):
        """At most so many bytes, behind their number."""
        return self.take(self.one_of(4, range(most + 1)))

    def frames(self):
        """At most 64 frames with at most 65536 bytes together, behind their number and the length of each."""
        lengths = [self.value(4) for _ in range(self.one_of(4, range(65)))]
        if sum(lengths) > 65536:
            raise NoSnapshot
        return [self.take(length) for length in lengths]

    def only(self, expected):
        """The next field must have this value."""
        if self.take(len(expected)) != expected:
            raise NoSnapshot

    def only_value(self, count, expected):
        self.only(expected.to_bytes(count, "little"))


def descriptor(memory, at):
    return memory.number(at, 8), memory.number(at + 8, 4), memory.number(at + 12, 2), memory.number(at + 14, 2)


class Queue:
    # Whether the service that comes goes on in the open queue; how many places are in flight, and how many chains on offer in a split ring.
    goes_on, ahead, left = False, 0, 0

    def __init__(self, size_limit):
        self.exists = size_limit > 0
        self.reset()

    def reset(self):
        self.number = 0
        self.areas = [0, 0, 0]
        self.ready = False
        self.place = 0

    @property
    def next(self):
        """The place of the next chain to be taken: those in flight lie between it and the place of the next used entry."""
        return (self.place + self.ahead) % (2 * self.number if self.packed else 65536)

    # --- opening, taking, giving

    def open(self, memory):
        if self.goes_on:
            self.goes_on = False
            return
        self.passed, self.begin = 0, self.place
        if not self.packed:
            idx = memory.number(self.areas[1] + 2, 2)
            self.left = (idx - self.next) % 65536
            if self.left > self.number - self.ahead:
                raise Fault("Jump")

    def take(self, memory):
        """The next chain, or none."""
        if self.packed:
            return self.take_packed(memory)
        if self.left == 0:
            return None
        chain = Chain(memory)
        chain.head = memory.number(self.areas[1] + 4 + 2 * (self.next % self.number), 2)
        self.walk(chain, self.areas[0], self.number, chain.head, memory, False)
        return chain

    def walk(self, chain, table, number, index, memory, in_table):
        if index >= number:
            raise Fault("Index")
        members = 0
        while True:
            address, length, flags, following = descriptor(memory, table + 16 * index)
            members += 1
            if flags & INDIRECT:
                if in_table:
                    raise Fault("Nested")
                self.table(chain, address, length, flags, memory, False)
                return
            chain.append(address, length, flags)
            if not flags & NEXT:
                return
            if members >= number:
                raise Fault("Loop")
            if following >= number:
                raise Fault("Index")
            index = following

    def table(self, chain, address, length, flags, memory, behind):
        if not self.indirect:
            raise Fault("NoIndirect")
        if flags & NEXT or self.packed and behind:
            raise Fault("Joined")
        if length == 0 or length % 16 != 0 or length > 4096:
            raise Fault("Table")
        if not memory.holds(address, length):
            raise Fault("Range")
        if self.packed:
            for entry in range(length // 16):
                chain.append(*descriptor(memory, address + 16 * entry)[:2], memory.number(address + 16 * entry + 14, 2))
        else:
            self.walk(chain, address, length // 16, 0, memory, True)

    def take_packed(self, memory):
        size = self.number
        at = self.areas[0] + 16 * (self.next % size)
        flags, wrap = memory.number(at + 14, 2), self.next < size
        if self.passed + self.ahead >= size or bool(flags & AVAIL) != wrap or bool(flags & USED) == wrap:
            return None
        chain, members = Chain(memory), 0
        while True:
            at = self.areas[0] + 16 * ((self.next + members) % size)
            address, length, chain.id, flags = descriptor(memory, at)
            members += 1
            chain.members = members
            if flags & INDIRECT:
                self.table(chain, address, length, flags, memory, members > 1)
                return chain
            chain.append(address, length, flags)
            if not flags & NEXT:
                return chain
            if members >= size:
                raise Fault("Loop")

    def give(self, memory, chain, length, wrote):
        if self.packed:
            return self.give_packed(memory, chain, length, wrote)
        entry = self.areas[2] + 4 + 8 * (self.place % self.number)
        memory.put_number(entry, 4, chain.head)
        memory.put_number(entry + 4, 4, length)
        self.place = (self.place + 1) % 65536
        memory.put_number(self.areas[2] + 2, 2, self.place)
        self.left -= 1
        self.passed += 1

    def give_packed(self, memory, chain, length, wrote):
        at, wrap = self.areas[0] + 16 * (self.place % self.number), self.place < self.number
        memory.put_number(at + 8, 4, length)
        memory.put_number(at + 12, 2, chain.id)
        memory.put_number(at + 14, 2, (AVAIL | USED if wrap else 0) | (WRITE if wrote else 0))
        self.place = (self.place + chain.members) % (2 * self.number)
        self.passed += chain.members

    # --- chains in flight

    def launch(self, chain):
        """A chain is in flight: the next one is taken behind it, and no used entry is written."""
        self.ahead, self.left = self.ahead + chain.members, self.left - 1

    def land(self, chain):
        """A chain is in flight no more: it may be given as any other."""
        self.ahead, self.left = self.ahead - chain.members, self.left + 1

    def shut(self):
        """Behind a closing no place is passed, until a completion or an opening."""
        self.begin, self.passed = self.place, 0

    # --- closing

    def close(self, memory):
        """The closing writes; whether a notification is wanted."""
        if self.packed:
            memory.put(self.areas[2], bytes(4))
            return self.packed_wants(memory)
        memory.put_number(self.areas[2], 2, 0)
        if self.event_idx:
            memory.put_number(self.areas[2] + 4 + 8 * self.number, 2, self.next)
        return self.split_wants(memory)

    def split_wants(self, memory):
        if self.passed == 0:
            return False
        if self.event_idx:
            used_event = memory.number(self.areas[1] + 4 + 2 * self.number, 2)
            return (used_event - self.begin) % 65536 < self.passed
        return not memory.number(self.areas[1], 2) & 1

    def packed_wants(self, memory):
        named, flags = memory.number(self.areas[1], 2), memory.number(self.areas[1] + 2, 2) & 3
        if self.passed == 0:
            return False
        if flags == 1:
            return False
        if flags != 2 or not self.event_idx:
            return True
        offset, wrap = named & 0x7fff, named >> 15
        if offset >= self.number:
            return False
        place = offset if wrap else self.number + offset
        return (place - self.begin) % (2 * self.number) < self.passed

    def make_ready(self, memory, negotiated):
        number, self.packed = self.number, "ring_packed" in negotiated
        if not 1 <= number <= 256:
            return
        if not self.packed and number & (number - 1):
            return
        split = [(16 * number, 16), (6 + 2 * number, 2), (6 + 8 * number, 4)]
        packed = [(16 * number, 16), (4, 4), (4, 4)]
        for address, (length, alignment) in zip(self.areas, packed if self.packed else split):
            if address % alignment or not memory.holds(address, length):
                return
        self.indirect, self.event_idx = "indirect_desc" in negotiated, "event_idx" in negotiated
        self.place = 0
        self.ready = True
        self.ahead = 0

    def restore(self, snapshot, window, memory):
        self.number, self.areas = snapshot.value(4), [snapshot.value(8) for _ in range(3)]
        if snapshot.choice([0, 1]):
            self.restore_place(snapshot, window, memory)

    def restore_place(self, snapshot, window, memory):
        """A queue that was ready is made ready, and a service of it can come so far."""
        place, left, passed = (snapshot.value(2) for _ in range(3))
        ahead = snapshot.value(2)
        if window.status & FEATURES_OK:
            self.make_ready(memory, window.negotiated())
        if not self.ready:
            raise NoSnapshot
        self.ahead, passed = ahead, passed + ahead
        most = 2 * self.number - 1
        if self.packed and (place > most or passed > most):
            raise NoSnapshot
        if (left or not self.packed) and passed + left > self.number:
            raise NoSnapshot
        self.place = place


class Window:
    def __init__(self, kind, offered):
        self.kind, self.offered, self.generation = kind, offered, 0
        self.queues = [Queue(256) for _ in range(1 if kind == "b" else 2)]
        self.reset()

    def reset(self):
        self.status = 0
        self.driver_features = 0
        self.queue_sel = 0
        self.device_sel = 0
        self.driver_sel = 0
        self.interrupts = 0
        for queue in self.queues:
            queue.reset()

    def offers(self, name):
        return 1 << FEATURE[name] if name in self.offered else 0

    def offered_bits(self):
        return sum(self.offers(name) for name in self.offered)

    def negotiated(self):
        if not self.status & FEATURES_OK:
            return set()
        return {name for name in self.offered if self.driver_features >> FEATURE[name] & 1}

    def live(self):
        wanted = DRIVER_OK | FEATURES_OK
        return self.status & (wanted | FAILED | NEEDS_RESET) == wanted

    def queue(self):
        return self.queues[self.queue_sel] if self.queue_sel < len(self.queues) else None

    def restored(self, snapshot, memory):
        """The window of a snapshot."""
        new = Window(self.kind, self.offered)
        snapshot.only_value(8, self.offered_bits())
        new.status, new.driver_features = snapshot.value(1), snapshot.value(8)
        new.device_sel, new.driver_sel, new.queue_sel, _ = (snapshot.value(4) for _ in range(4))
        if new.status & 0x30:
            raise NoSnapshot
        if new.status & FEATURES_OK and not new.may_accept():
            raise NoSnapshot
        for queue in [*new.queues, Queue(0)][:2]:
            queue.restore(snapshot, new, memory)
        new.interrupts, new.generation = snapshot.choice(range(4)), snapshot.value(4)
        if self.kind == "b" and new.generation:
            raise NoSnapshot
        return new

    def may_accept(self):
        offered = self.offered_bits()
        return self.driver_features | offered == offered and self.driver_features & 1 << FEATURE["version_1"]

    def read(self, offset):
        if offset == 0x000:
            return 0x74726976
        if offset == 0x004:
            return 2
        if offset == 0x008:
            return 2 if self.kind == "b" else 3
        if offset == 0x00c:
            return 0x4f424d56
        if offset == 0x010:
            return self.offered_bits() >> 32 * self.device_sel & 0xffffffff if self.device_sel < 2 else 0
        if offset == 0x034:
            return 256 if self.queue() else 0
        if offset == 0x044:
            return int(self.queue().ready) if self.queue() else 0
        if offset == 0x060:
            return self.interrupts
        if offset == 0x070:
            return self.status
        if offset in (0x0b0, 0x0b4, 0x0b8, 0x0bc):
            return 0xffffffff
        if offset == 0x0fc:
            return self.generation
        return 0

    def write_status(self, value):
        if value == 0:
            self.reset()
            return
        value &= 0x8f
        acceptable = not self.driver_features & ~self.offered_bits() and self.driver_features >> 32 & 1
        if value & FEATURES_OK and not acceptable:
            value &= ~FEATURES_OK
        self.status |= value

    def write(self, offset, value, memory):
        if offset == 0x014:
            self.device_sel = value
        elif offset == 0x020:
            self.write_driver_features(value)
        elif offset == 0x024:
            self.driver_sel = value
        elif offset == 0x030:
            self.queue_sel = value
        elif offset == 0x064:
            self.interrupts &= ~value
        elif offset == 0x070:
            self.write_status(value)
        elif self.queue():
            self.write_queue(self.queue(), offset, value, memory)

    def write_driver_features(self, value):
        if self.status & FEATURES_OK:
            return
        if self.driver_sel == 0:
            self.driver_features = self.driver_features & ~0xffffffff | value
        elif self.driver_sel == 1:
            self.driver_features = self.driver_features & 0xffffffff | value << 32

    def write_queue(self, queue, offset, value, memory):
        if offset == 0x044:
            if value == 0:
                queue.ready = False
            elif value == 1 and not queue.ready and self.status & FEATURES_OK:
                queue.make_ready(memory, self.negotiated())
        elif queue.ready:
            return
        elif offset == 0x038:
            queue.number = value
        elif offset in (0x080, 0x090, 0x0a0):
            area = (offset - 0x080) // 16
            queue.areas[area] = queue.areas[area] & ~0xffffffff | value
        elif offset in (0x084, 0x094, 0x0a4):
            area = (offset - 0x084) // 16
            queue.areas[area] = queue.areas[area] & 0xffffffff | value << 32


class Slot:
    # How many spare sectors of the image it has behind its extent.
    spare = 0

    # What is in flight, by its tag; whether no further chain is taken; and what a snapshot may say of that: over an image nothing
    # is ever in flight, and a slot never held.
    tags, held, may_be_held = (), False, (0,)

    def __init__(self, fields, cache, lacks):
        base, length, self.start, self.count, mode, self.cols, self.rows, *named = fields
        self.identity = named[0] if named else IDENTITY
        self.memory, self.cache, self.read_only = Memory(base, length, *named[1:]), cache, mode == "ro"
        block = EVERY + ["seg_max", "blk_size", "flush", "write_zeroes"] + (["ro"] if self.read_only else [])
        console = EVERY + ["size", "emerg_write"]
        self.windows = {"b": Window("b", [name for name in block if name not in lacks]),
                        "c": Window("c", [name for name in console if name not in lacks])}
        self.pending = b""
        self.devices, self.lacks = [], lacks

    # --- registers

    def read(self, window, offset, width):
        if offset >= 0x100:
            return self.read_configuration(window, offset - 0x100, width)
        if width != 4 or offset % 4:
            return 0
        return self.windows[window].read(offset)

    def configuration(self, window):
        fields = bytearray(64)
        if window == "b":
            fields[0:8] = self.count.to_bytes(8, "little")
            fields[12:16] = (126).to_bytes(4, "little")
            fields[20:24] = (512).to_bytes(4, "little")
            fields[48:52] = (65536).to_bytes(4, "little")
            fields[52:56] = (32).to_bytes(4, "little")
        else:
            fields[0:2] = self.cols.to_bytes(2, "little")
            fields[2:4] = self.rows.to_bytes(2, "little")
        return bytes(fields)

    def read_configuration(self, window, at, width):
        if at % width:
            return 0
        return int.from_bytes(self.configuration(window)[at:at + width], "little")

    def write(self, window, offset, width, value):
        """What it puts out."""
        if offset >= 0x100:
            if window == "c" and offset == 0x108 and width in (1, 2, 4):
                return bytes([value & 0xff])
            return b""
        if width != 4 or offset % 4:
            return b""
        if offset == 0x050:
            told = "notification_data" in self.windows[window].negotiated()
            return self.notify(window, value & 0xffff if told else value)
        self.windows[window].write(offset, value, self.memory)
        return b""

    # --- snapshots

    def restore(self, content):
        """Takes up a snapshot; where it can't, nothing changes."""
        if any(asked for device in self.devices for asked in device.tags):
            raise Busy
        snapshot = Snapshot(content)
        snapshot.only(b"KALYUBOS")
        version = snapshot.one_of(4, (2, 3) if self.devices else (1,))
        first, span = self.memory.span()
        snapshot.only_value(8, first)
        snapshot.only_value(8, span)
        snapshot.only_value(8, self.count)
        snapshot.only_value(1, int(self.read_only))
        snapshot.only(self.identity)
        cols, rows = snapshot.value(2), snapshot.value(2)
        held = snapshot.choice(self.may_be_held) == 1
        windows = {window: self.windows[window].restored(snapshot, self.memory) for window in "bc"}
        if self.devices:
            snapshot.only_value(4, len(self.devices))
        of_devices = [device.restored(snapshot) for device in self.devices]
        count = snapshot.value(4)
        if count > 4096:
            raise NoSnapshot
        pending = snapshot.take(count)
        waiting = [device.waits_in(snapshot) for device in self.devices if version == 3]
        if snapshot.rest:
            raise NoSnapshot
        self.windows, self.pending, self.cols, self.rows = windows, pending, cols, rows
        self.held = held
        for device, window in zip(self.devices, of_devices):
            device.windows = dict.fromkeys(device.windows, window)
        for device, found in zip(self.devices, waiting):
            vars(device).update(found)

    # --- services

    def notify(self, window, index):
        if not self.windows[window].live():
            return b""
        if index >= len(self.windows[window].queues) or not self.windows[window].queues[index].ready:
            return b""
        return self.serve(window, index)

    def serve(self, window, index):
        """What the service puts out."""
        queue, output, fault = self.windows[window].queues[index], b"", False
        try:
            queue.open(self.memory)
            while (window, index) != ("c", 0) or self.pending:
                chain = queue.take(self.memory)
                if chain is None:
                    break
                if window == "b":
                    queue.give(self.memory, chain, *self.request(chain))
                elif index == 0:
                    queue.give(self.memory, chain, *self.receive(chain))
                else:
                    output += chain.readable()
                    queue.give(self.memory, chain, 0, False)
        except Fault:
            fault = True
        self.close(window, queue, fault)
        return output

    def close(self, window, queue, fault):
        """The end of a service."""
        if queue.close(self.memory):
            self.windows[window].interrupts |= 1
        if fault:
            self.windows[window].status |= NEEDS_RESET
            self.windows[window].interrupts |= 2

    # --- block device

    def request(self, chain):
        """The used len, and whether a byte was written."""
        room = chain.room()
        if room == 0:
            return 0, False
        status, written = self.perform(chain, chain.front(16), chain.count(), room - 1)
        return self.answer(chain, room, status, written)

    def answer(self, chain, room, status, written):
        """The used len, and that a byte was written: the status."""
        chain.write(room - 1, bytes([status]))
        return room if written == room - 1 else written, True

    def perform(self, chain, header, count, room):
        """The status, and how many bytes were written from the front on."""
        if count < 16:
            return IOERR, 0
        kind, sector = int.from_bytes(header[0:4], "little"), int.from_bytes(header[8:16], "little")
        if kind not in (IN, OUT, FLUSH, GET_ID, WRITE_ZEROES):
            return UNSUPP, 0
        if kind in (OUT, WRITE_ZEROES) and self.read_only:
            return IOERR, 0
        size = room if kind == IN else count - 16
        if kind in (IN, OUT) and (size % SECTOR or sector + size // SECTOR > self.count):
            return IOERR, 0
        if kind == GET_ID and room < 20:
            return IOERR, 0
        if kind == IN:
            return self.read_sectors(chain, sector, size // SECTOR)
        if kind == OUT:
            return self.write_sectors(chain, sector, size // SECTOR), 0
        if kind == FLUSH:
            return self.flush(), 0
        if kind == WRITE_ZEROES:
            return self.write_zeroes(chain, count - 16), 0
        chain.write(0, self.identity)
        return OK, 20

    def read_sectors(self, chain, sector, count):
        written = 0
        for one in range(sector, sector + count):
            try:
                content = self.cache.read(self.start + one)
            except ImageFails:
                return IOERR, written
            chain.write(written, content)
            written += SECTOR
        return OK, written

    def write_sectors(self, chain, sector, count):
        content = chain.readable()[16:]
        try:
            for at in range(0, len(content), SECTOR):
                self.cache.write(self.start + sector + at // SECTOR, content[at:at + SECTOR])
        except ImageFails:
            return IOERR
        return self.flush()

    def write_zeroes(self, chain, size):
        if size == 0 or size % 16 or size > 16 * 32:
            return IOERR
        content = chain.readable()[16:]
        segments = [tuple(int.from_bytes(content[at + first:at + end], "little") for first, end in ((0, 8), (8, 12), (12, 16)))
                    for at in range(0, size, 16)]
        if any(flags & ~1 for _, _, flags in segments):
            return UNSUPP
        if any(count > 65536 or sector + count > self.count for sector, count, _ in segments):
            return IOERR
        return self.zero(segments)

    def zero(self, segments):
        zeroed = [sector + one for sector, count, _ in segments for one in range(count)]
        try:
            for sector in zeroed:
                self.cache.zero(self.start + sector)
        except ImageFails:
            return IOERR
        return self.flush()

    def flush(self):
        try:
            self.cache.flush()
        except ImageFails:
            return IOERR
        return OK

    # --- what a host says, each with whether there was something to do: over an image there never is

    def complete(self, tag, went_well):
        return False

    def drop(self):
        return False

    def hold(self):
        return False

    def release(self):
        return False

    # --- console

    def receive(self, chain):
        count = min(chain.room(), len(self.pending))
        chain.write(0, self.pending[:count])
        self.pending = self.pending[count:]
        return count, count > 0

    def input(self, typed):
        took = min(len(typed), 4096 - len(self.pending))
        self.pending += typed[:took]
        if self.windows["c"].live() and self.windows["c"].queues[0].ready:
            self.serve("c", 0)
        return took

    def resize(self, cols, rows):
        self.cols, self.rows = cols, rows
        window = self.windows["c"]
        window.generation = (window.generation + 1) % 2**32
        if window.status & DRIVER_OK:
            window.interrupts |= 2


class HostedSlot(Slot):
    """A slot whose disk the host serves: chains that ask for it are in flight, each at its tag, until the host says what came of them."""

    may_be_held = (0, 1)

    def serve(self, window, index):
        if window == "c":
            return super().serve(window, index)
        if None in self.tags:
            self.look()
        return b""

    def look(self):
        """A service that goes on behind a chain that asks, while a tag is free; where none is, its queue stays open."""
        try:
            if not self.held:
                super().serve("b", 0)
        except Asks as asked:
            self.tags[self.tags.index(None)] = asked
            self.windows["b"].queues[0].launch(asked.chain)
            if None in self.tags:
                self.windows["b"].queues[0].goes_on = True
                self.look()
        else:
            self.windows["b"].queues[0].shut()

    def drop(self):
        if not any(self.tags):
            return False
        self.tags = [None] * len(self.tags)
        self.windows["b"].status |= NEEDS_RESET
        self.windows["b"].interrupts |= 2
        return True

    def hold(self):
        if self.held:
            return False
        self.held = True
        return True

    def release(self):
        if not self.held:
            return False
        self.held = False
        self.notify("b", 0)
        return True

    def complete(self, tag, went_well):
        if not any(self.tags[tag:tag + 1]):
            return False
        asked, chain, queue = self.tags[tag], self.tags[tag].chain, self.windows["b"].queues[0]
        self.tags[tag] = None
        if not self.windows["b"].live():
            return True
        queue.land(chain)
        room = chain.room()
        status = OK if went_well else IOERR
        found = room - 1 if asked.kind == "in" and went_well else 0
        queue.give(self.memory, chain, *self.answer(chain, room, status, found))
        self.close("b", queue, False)
        self.look()
        return True

    # --- what waits

    def write(self, window, offset, width, value):
        if any(self.tags) and window == "b" and offset in (0x044, 0x070):
            raise Busy
        return super().write(window, offset, width, value)

    def restore(self, content):
        if any(self.tags):
            raise Busy
        super().restore(content)

    # --- what is asked

    def request(self, chain):
        try:
            return super().request(chain)
        except Asks as asked:
            asked.chain = chain
            raise

    def stable(self):
        return "" if "flush" in self.windows["b"].negotiated() else "-stable"

    def read_sectors(self, chain, sector, count):
        raise Asks("in", sector * SECTOR, count * SECTOR, chain.runs(WRITE, 0, count * SECTOR))

    def write_sectors(self, chain, sector, count):
        raise Asks("out" + self.stable(), sector * SECTOR, count * SECTOR, chain.runs(0, 16, count * SECTOR))

    def flush(self):
        raise Asks("flush")

    def zero(self, segments):
        runs = [(sector * SECTOR, count * SECTOR) for sector, count, _ in segments if count]
        raise Asks("zeroes" + self.stable(), 0, 0, runs)


class FurtherWindow(Window):
    """The window of a further device: which device it is, and how many queues it has."""

    def __init__(self, device_id, queues, offered):
        super().__init__("further", offered)
        self.device_id, self.queues = device_id, [Queue(256) for _ in range(queues)]

    def read(self, offset):
        return self.device_id if offset == 0x008 else super().read(offset)

    def restored(self, snapshot, memory):
        """A snapshot has two queues of each window."""
        found, new = super().restored(snapshot, memory), FurtherWindow(self.device_id, len(self.queues), self.offered)
        vars(new).update(vars(found), queues=found.queues[:len(self.queues)])
        return new


class Further(Slot):
    """A further device: a slot's registers and services over the memory of its slot, and over one window."""

    # What a snapshot has of one that is no card, and of one that is no disk.
    address, mtu = bytes(6), 0
    sectors, identity = 0, bytes(20)

    def __init__(self, slot, device_id, queues, own=()):
        self.memory = slot.memory
        offered = [name for name in [*EVERY, *own] if name not in slot.lacks]
        self.windows = {"further": FurtherWindow(device_id, queues, offered)}

    @property
    def window(self):
        return self.windows["further"]

    def restored(self, snapshot):
        """Its window of a snapshot that has such a device."""
        snapshot.only_value(4, self.window.device_id)
        snapshot.only(self.address)
        snapshot.only_value(2, self.mtu)
        snapshot.only_value(8, self.sectors)
        snapshot.only(self.identity)
        return self.window.restored(snapshot, self.memory)

    def serve(self, window, index):
        served, is_fault = self.window.queues[index], False
        try:
            served.open(self.memory)
            self.use_chains(served, index)
        except Fault:
            is_fault = True
        self.close(window, served, is_fault)
        return b""

    def use_chains(self, served, index):
        """Chains in turn, while the device wants one and doesn't leave it on offer."""
        while self.wants(index):
            chain = served.take(self.memory)
            used = self.use(index, chain) if chain else None
            if used is None:
                return
            served.give(self.memory, chain, *used)


class Entropy(Further):
    """An entropy device (5.4), and the bytes that the host supplied."""

    def __init__(self, slot):
        super().__init__(slot, 4, 1)
        self.pool = b""

    def waits_in(self, snapshot):
        """What waits by a snapshot of version 3: values of fields by their names."""
        return {"pool": snapshot.counted(4096)}

    def configuration(self, window):
        return bytes(64)

    def supply(self, content):
        """How many bytes the pool took."""
        fit = content[:4096 - len(self.pool)]
        self.pool += fit
        self.notify("further", 0)
        return len(fit)

    def wants(self, index):
        return self.pool != b""

    def use(self, index, chain):
        given = self.pool[:chain.room()]
        chain.write(0, given)
        self.pool = self.pool[len(given):]
        return len(given), given != b""


class Frames:
    """The frames that wait one way, the oldest first."""

    def __init__(self, waiting=()):
        self.waiting = list(waiting)

    def put(self, frame):
        """Whether there is room for it."""
        if len(self.waiting) >= 64 or sum(map(len, self.waiting)) + len(frame) > 65536:
            return False
        self.waiting.append(frame)
        return True

    def first(self):
        """The oldest one leaves."""
        return self.waiting.pop(0)


class Card(Further):
    """A network card (5.1), and the frames that wait each way."""

    # The header before a frame: flags, gso_type, hdr_len, gso_size, csum_start and csum_offset, then num_buffers (5.1.6).
    header = bytes(10) + b"\1\0"

    def __init__(self, slot, address, mtu):
        if mtu < 68:
            raise BadDevice
        super().__init__(slot, 1, 2, ["mtu", "mac", "status"])
        self.address, self.mtu, self.link = address, mtu, 1
        self.incoming, self.sent = Frames(), Frames()

    def waits_in(self, snapshot):
        """Behind the link stand two counts of dropped frames, which no event tells."""
        link, _ = snapshot.choice([0, 1]), snapshot.take(16)
        incoming, sent = Frames(snapshot.frames()), Frames(snapshot.frames())
        return {"link": link, "incoming": incoming, "sent": sent}

    def configuration(self, window):
        fields = bytearray(64)
        fields[0:6] = self.address
        fields[6:8] = self.link.to_bytes(2, "little")
        fields[10:12] = self.mtu.to_bytes(2, "little")
        return bytes(fields)

    def frame(self, content):
        """How many bytes of a frame there was room for: all or none."""
        if not 1 <= len(content) <= self.mtu + 14:
            raise BadDevice
        if not self.incoming.put(content):
            return 0
        self.notify("further", 0)
        return len(content)

    def take(self):
        """The oldest frame that the driver sent, or nothing."""
        if not self.sent.waiting:
            return b""
        found = self.sent.first()
        if not self.sent.waiting:
            self.notify("further", 1)
        return found

    def set_link(self, is_up):
        self.link = int(is_up)
        self.window.generation = (self.window.generation + 1) % 2**32
        if self.window.status & DRIVER_OK:
            self.window.interrupts |= 2

    def wants(self, index):
        return index == 1 or self.incoming.waiting != []

    def use(self, index, chain):
        return self.transmit(chain) if index == 1 else self.fill(chain)

    def fill(self, chain):
        """The first frame that fits goes in, and those before it are dropped; none where none fits."""
        while self.incoming.waiting:
            content = self.header + self.incoming.first()
            if len(content) <= chain.room():
                chain.write(0, content)
                return len(content), True
        return None

    def transmit(self, chain):
        """The frame waits for the host; none where there is no room for it."""
        count = chain.count() - len(self.header)
        if 1 <= count <= 65536 and not self.sent.put(chain.readable()[len(self.header):]):
            return None
        return 0, False


class Disk(HostedSlot, Further):
    """A further disk (5.2), which the host serves as it does a slot's own. Its window is also called as a slot's is."""

    def __init__(self, slot, sectors, mode, identity, depth):
        if sectors > 2**55 - 1 or not 1 <= depth <= 64:
            raise BadDevice
        self.read_only = mode == "ro"
        super().__init__(slot, 2, 1, ["write_zeroes", "flush", "blk_size", "seg_max"] + ["ro"] * self.read_only)
        self.windows["b"] = self.window
        self.sectors = self.count = sectors
        self.identity, self.tags = identity, depth * [None]

    def configuration(self, window):
        return super().configuration("b")

    def write(self, window, offset, width, value):
        return super().write("b", offset, width, value)

    def wants(self, index):
        return True

    def use(self, index, chain):
        return self.request(chain)

    def waits_in(self, snapshot):
        return {"held": snapshot.choice([0, 1]) == 1}


class ImageDisk(Further):
    """A further disk (5.2) over some of its slot's spare sectors, the first of them at this place among those."""

    def __init__(self, slot, place, count, mode, identity):
        if not 1 <= count <= slot.spare - place:
            raise BadDevice
        if any(place < other.place + other.count and other.place < place + count for other in image_disks_of(slot)):
            raise BadDevice
        self.read_only = mode != "rw"
        super().__init__(slot, 2, 1, ["flush", "seg_max", "blk_size", "write_zeroes"] + ["ro"] * self.read_only)
        self.cache, self.place = slot.cache, place
        self.start = slot.start + slot.count + place
        self.sectors = self.count = count
        self.identity = identity

    def configuration(self, window):
        return Slot.configuration(self, "b")

    def waits_in(self, snapshot):
        """It is on hold where the host served it; here it never is."""
        snapshot.choice([0, 1])
        return {}

    def wants(self, index):
        return True

    def use(self, index, chain):
        return super().request(chain)


def image_disks_of(slot):
    return [device for device in slot.devices if isinstance(device, ImageDisk)]


class Console(Further):
    """A further console (5.3), and the output that waits for the host. Its window is also called as a slot's is."""

    def __init__(self, slot, cols, rows):
        super().__init__(slot, 3, 2, ["size", "emerg_write"])
        self.windows["c"] = self.window
        self.cols, self.rows, self.pending, self.output = cols, rows, b"", b""

    def waits_in(self, snapshot):
        size = {"cols": snapshot.value(2), "rows": snapshot.value(2)}
        return {**size, "pending": snapshot.counted(4096), "output": snapshot.counted(65536)}

    def configuration(self, window):
        return super().configuration("c")

    def put(self, content):
        """Whether there is room for it behind the output that waits."""
        if len(self.output) + len(content) > 65536:
            return False
        self.output += content
        return True

    def write(self, window, offset, width, value):
        """An emergency byte without room is lost."""
        self.put(super().write("c", offset, width, value))
        return b""

    def supply(self, content):
        return self.input(content)

    def take(self):
        """All output that waits."""
        if not self.output:
            return b""
        taken, self.output = self.output, b""
        self.notify("further", 1)
        return taken

    def wants(self, index):
        return index == 1 or self.pending != b""

    def use(self, index, chain):
        return self.transmit(chain) if index == 1 else self.receive(chain)

    def transmit(self, chain):
        """The bytes wait for the host; none where there is no room for all."""
        return (0, False) if self.put(chain.front(65537)) else None


class BadBoard(Exception):
    """A board that is refused, by the fault's name."""


def room_of(others, largest):
    """What the regions behind a first one leave of the largest memory."""
    return largest - sum(size for _, size in others)


def judge_others(base, length, others):
    """The regions behind a first one."""
    end = base + length
    for at, size in others:
        if size % 4096 or size < 4096:
            raise BadBoard("BadSize")
        if at % 4096 or at + size > 2**64:
            raise BadBoard("BadBase")
        if at + size - base >= 2**64:
            raise BadBoard("BadBase")
        if at <= end:
            raise BadBoard("NotApart")
        end = at + size


def depth_of(disk):
    """How many operations of a slot's disk may be in flight; over an image none ever is."""
    return int(disk.partition(":")[2] or "1", 16)


def spare_of(disk):
    """How many spare sectors of the image a slot has behind its extent."""
    return int(disk.partition("+")[2] or "0", 16)


def has_host(disk):
    """Whether the host serves a slot's disk."""
    return disk.startswith("host:")


def judge_disk(disk, count):
    """A disk that the host serves: it has 1 to 64 operations in flight, and fewer than 2^64 bytes."""
    if not 1 <= depth_of(disk) <= 64:
        raise BadBoard("BadDepth")
    if count > 2**55 - 1:
        raise BadBoard("ExtentOutside")


# The slots by who has their disks.
SLOTS = {"image": Slot, "host": HostedSlot}


def slot_on(disk, fields, cache, lacks):
    slot = SLOTS["host" if has_host(disk) else "image"](fields, cache, lacks)
    slot.tags = depth_of(disk) * [None]
    slot.spare = spare_of(disk)
    return slot


def board_of(slots, capacity, image, lacks, most=64, largest=2**28):
    if not slots:
        raise BadBoard("NoSlots")
    if len(slots) > most:
        raise BadBoard("TooManySlots")
    taken = []
    for disk, base, length, start, count, *rest in slots:
        if length % 4096 or not 4096 <= length <= room_of(rest[4:], largest):
            raise BadBoard("BadSize")
        if base % 4096 or base + length > 2**64:
            raise BadBoard("BadBase")
        judge_others(base, length, rest[4:])
        if has_host(disk):
            judge_disk(disk, count)
            continue
        count += spare_of(disk)
        if start + count > len(image.bytes) // SECTOR:
            raise BadBoard("ExtentOutside")
        if count and any(start < end and first < start + count for first, end in taken):
            raise BadBoard("ExtentsOverlap")
        if count:
            taken.append((start, start + count))
    if not 1 <= capacity <= 65536:
        raise BadBoard("BadCapacity")
    cache = Cache(image, capacity)
    return [slot_on(disk, fields, cache, lacks) for disk, *fields in slots]


def slot_of(first_line, words):
    """What a slot line says: who has the disk, base and length of the first region, what stands behind both, and the other regions."""
    line = trace_text.Line(words, first_line)
    region, *others = line.regions()
    rest = [line[name] for name in ("start", "count", "mode", "columns", "rows", "identity") if name in line]
    return [line.disk(), *region, *rest, *others]


def record_of(slots, word, fields):
    number = int(fields[0], 16)
    if number >= len(slots):
        return f"{number:x} badslot - 0 0"
    slot = slots[number]
    reply, output = REPLIES[word](slot, *fields[1:])
    return f"{number:x} {reply} {spelled(output)} {slot.windows['b'].interrupts} {slot.windows['c'].interrupts}"


def tags_of(slots, fields):
    """What is in flight of the slot that an event names, by its tag."""
    named = slots[int(fields[0], 16):]
    return [*named[0].tags] if named else []


def further_tags_of(slots, fields):
    """What is in flight of that slot's further disks, by device and tag."""
    slot_number = int(fields[0], 16)
    return {f"{number:x}/{tag:x}": asked for slot in slots[slot_number:slot_number + 1] for number, device in enumerate(slot.devices)
            for tag, asked in enumerate(device.tags) if asked}


def joined(*lists):
    """Lists of operations, one behind another."""
    return ";".join(filter(None, lists))


def hosted_record_of(slots, word, fields):
    """A record, and behind it the operations that began with its event."""
    before, further_before = tags_of(slots, fields), further_tags_of(slots, fields)
    record = record_of(slots, word, fields)
    now = tags_of(slots, fields)
    began = ";".join(f"{tag:x}={asked}" for tag, asked in enumerate(now) if asked and asked is not before[tag])
    further_now = further_tags_of(slots, fields)
    began = joined(began, *[f"{name}={asked}" for name, asked in further_now.items() if asked is not further_before.get(name)])
    return f"{record} {began or '-'}"


def read(slot, window, offset, width):
    return f"v:{slot.read(window, int(offset, 16), int(width)):08x}", b""


def write(slot, window, offset, width, value):
    try:
        return "done", slot.write(window, int(offset, 16), int(width), int(value, 16))
    except Busy:
        return "busy", b""


def memory_read(slot, address, length):
    at, count = int(address, 16), int(length, 16)
    if not slot.memory.holds(at, count):
        return "badrange", b""
    return f"b:{spelled(slot.memory.part(at, count))}", b""


def memory_write(slot, address, content):
    at, new = int(address, 16), bytes_of(content)
    if not slot.memory.holds(at, len(new)):
        return "badrange", b""
    slot.memory.put(at, new)
    return "done", b""


def typed(slot, content):
    return f"took:{slot.input(bytes_of(content)):x}", b""


def resized(slot, cols, rows):
    slot.resize(int(cols, 16), int(rows, 16))
    return "done", b""


def restored(slot, content):
    try:
        slot.restore(bytes_of(content))
    except NoSnapshot:
        return "badstate", b""
    except Busy:
        return "busy", b""
    return "done", b""


def told(was_to_do):
    return "done" if was_to_do else "idle", b""


def completed(slot, tag, verdict):
    return told(slot.complete(int(tag, 16), verdict == "done"))


def dropped(slot):
    return told(slot.drop())


def held(slot):
    return told(slot.hold())


def released(slot):
    return told(slot.release())


def device_of(slot, number, kind=Further):
    """A slot's further device of this kind."""
    named = slot.devices[int(number, 16):][:1]
    if not named or not isinstance(named[0], kind):
        raise BadDevice
    return named[0]


def plugged(slot, number, kind, *disk):
    if int(number, 16) != len(slot.devices) or len(slot.devices) >= 6:
        raise BadDevice
    if kind == "image":
        slot.devices.append(image_disk_of(slot, *disk))
        return "done"
    if disk:
        slot.devices.append(disk_of(slot, *disk))
        return "done"
    name, *own = kind.split(":")
    slot.devices.append(KINDS[name](slot, *own))
    return "done"


def card_of(slot, address, mtu):
    return Card(slot, bytes.fromhex(address), int(mtu, 16))


def console_of(slot, cols, rows):
    return Console(slot, int(cols, 16), int(rows, 16))


# The further devices but disks, by the name of their kind.
KINDS = {"entropy": Entropy, "network": card_of, "console": console_of}


def disk_of(slot, sectors, mode, identity, depth):
    return Disk(slot, int(sectors, 16), mode, bytes.fromhex(identity), int(depth, 16))


def image_disk_of(slot, place, count, mode, identity):
    return ImageDisk(slot, int(place, 16), int(count, 16), mode, bytes.fromhex(identity))


def device_read(slot, number, offset, width):
    return f"v:{device_of(slot, number).read('further', int(offset, 16), int(width)):08x}"


def device_written(slot, number, *fields):
    offset, width, value = (int(field, 16) for field in fields)
    device_of(slot, number).write("further", offset, width, value)
    return "done"


def supplied(slot, number, content):
    return f"took:{device_of(slot, number, (Entropy, Console)).supply(bytes_of(content)):x}"


def frame_handed(slot, number, content):
    return f"took:{device_of(slot, number, Card).frame(bytes_of(content)):x}"


def frame_taken(slot, number):
    return f"b:{spelled(device_of(slot, number, (Card, Console)).take())}"


def sent_dropped(slot, number):
    return f"took:{len(device_of(slot, number, (Card, Console)).take()):x}"


def link_set(slot, number, link):
    device_of(slot, number, Card).set_link(link == "up")
    return "done"


def console_resized(slot, number, cols, rows):
    device_of(slot, number, Console).resize(int(cols, 16), int(rows, 16))
    return "done"


def of_device(reply):
    """A reply of a further device, which puts nothing out, or why there is none."""
    def told(slot, *fields):
        try:
            return reply(slot, *fields), b""
        except BadDevice:
            return "baddevice", b""
        except Busy:
            return "busy", b""
    return told


def told_to_disk(does, slot, number, fields):
    """The reply to what the host says of a further disk."""
    return told(does(device_of(slot, number, Disk), *fields))[0]


def of_disk(does):
    return of_device(lambda slot, number, *fields: told_to_disk(does, slot, number, fields))


def further_completed(disk, tag, verdict):
    return disk.complete(int(tag, 16), verdict == "done")


REPLIES = {"r": read, "w": write, "mr": memory_read, "mw": memory_write, "in": typed, "sz": resized, "st": restored,
           "io": completed, "drop": dropped, "hold": held, "release": released, "plug": of_device(plugged),
           "dr": of_device(device_read), "dw": of_device(device_written), "supply": of_device(supplied),
           "frame": of_device(frame_handed), "take": of_device(frame_taken), "dsent": of_device(sent_dropped),
           "link": of_device(link_set), "dsz": of_device(console_resized),
           "dio": of_disk(further_completed), "ddrop": of_disk(Disk.drop), "dhold": of_disk(Disk.hold),
           "drelease": of_disk(Disk.release)}


def replay(text, content, fails=(), lacks=(), fault_of=None):
    """The output, the status, and the image afterwards with how often it was flushed."""
    image = Image(content, fails)
    fault = fault_of(text) if fault_of else None
    if fault:
        return f"fault trace {fault[0]} {fault[1]}\n", 1, image
    first_line, capacity, slots, events = trace_text.parts_of(text.decode("ascii"))
    slots = [slot_of(first_line, words) for words in slots]
    is_hosted = any(has_host(disk) for disk, *_ in slots)
    most, largest = 16 if first_line == "vreplay 1" else 64, 2**32 if first_line == EXTENDED else 2**28
    try:
        board = board_of(slots, capacity, image, lacks, most, largest)
    except BadBoard as refused:
        return f"fault board {refused}\n", 1, image
    told = hosted_record_of if is_hosted else record_of
    return "".join(told(board, word, fields) + "\n" for word, *fields in events), 0, image


def read_file(path):
    with open(path, "rb") as file:
        return file.read()


def main(words):
    options = {"--save": None, "--fails": "", "--lacks": ""}
    files = []
    rest = iter(words)
    for word in rest:
        if word in options:
            options[word] = next(rest)
        else:
            files.append(word)
    text, content = [*map(read_file, files), bytes(8 * SECTOR)][:2]
    fails = {int(one) for one in options["--fails"].split(",") if one}
    output, status, image = replay(text, content, fails, options["--lacks"].split(","), trace_text.fault_of)
    sys.stdout.write(output)
    if options["--save"] and not status:
        with open(options["--save"], "wb") as after:
            after.write(image.bytes)
    return status


if __name__ == "__main__":
    sys.exit(print(__doc__) if "--help" in sys.argv else main(sys.argv[1:]))
