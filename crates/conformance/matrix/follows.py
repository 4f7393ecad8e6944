"""A scenario whose driver follows the device: it writes a chain where the device, by the model, looks for the next one.

So the steps of an action are the same after each history, and a device that kept something else looks elsewhere. The records are
the model's; each table's first scenario has them by hand.
"""
import dataclasses

from trace_text import words_of
from mutants import model

from .drivers import (ACKNOWLEDGE, AREAS, AVAIL, DESCRIPTOR, DRIVER, DRIVER_FEATURES, DRIVER_OK, DRIVER_SEL, FEATURES_OK, INDIRECT,
                      INTERRUPT_ACK, NEXT, NOTIFICATION_DATA, NOTIFY, QUEUE_NUM, QUEUE_READY, QUEUE_SEL, RING_PACKED, STATUS,
                      USED_FLAG, VERSION_1, Buffer, joined, number)
from .story import Disagrees, Slot, Story

EXTENDED = model.EXTENDED
# From a memory's base on: where a queue's areas may lie, and what its chains name.
HOME, OF_QUEUE, IN_QUEUE = 0x1800, {("b", 0): 0, ("c", 0): 0x800, ("c", 1): 0x1000}, (0, 0x400, 0x500)
HEADER, DONE, DATA, TEXT, ROOM, TABLE = 0x3000, 0x3200, 0x3400, 0x3800, 0x3900, 0x3c00
# What a driver may leave out when it brings a queue up, beside a register's name.
LOW, HIGH = "driver_features_low", "driver_features_high"
NAMES = {QUEUE_NUM: "queue_num", AREAS[0]: "queue_desc_low", AREAS[0] + 4: "queue_desc_high", AREAS[1]: "queue_driver_low",
         AREAS[1] + 4: "queue_driver_high", AREAS[2]: "queue_device_low", AREAS[2] + 4: "queue_device_high",
         QUEUE_READY: "queue_ready"}
INDICES = {"b": (0,), "c": (0, 1)}


@dataclasses.dataclass(frozen=True)
class Wide(Slot):
    """A slot line of an extended trace: the other regions of its memory stand behind the first, and then who has the disk."""

    others: tuple = ()
    disk: str = "image"

    def line(self):
        named = self if self.identity else dataclasses.replace(self, identity=model.IDENTITY)
        return Slot.line(named, EXTENDED, [(self.base, self.length), *self.others], self.disk)


class Life(Story):
    """A scenario that `script` writes once its files are wanted. `worked` are its records, where they are by hand. With `hosted` the
    host has all disks."""

    def __init__(self, name, about, script, slots=(Slot(),), worked=None, hosted=False, **more):
        super().__init__(name, about, [dataclasses.replace(slot, disk="host:1") for slot in slots] if hosted else slots, **more)
        self.script, self.worked, self.records = script, worked, []
        self.extended = any(isinstance(slot, Wide) for slot in self.slots)
        self.hosted = self.extended and any(model.has_host(slot.disk) for slot in self.slots)
        self.version = 3 if self.extended else self.version

    def head(self):
        return [EXTENDED, f"cache {self.cache:x}"] if self.extended else super().head()

    def begin(self):
        """The board, as the model has it."""
        self.disk = model.Image(self.before(), set(self.fails or ()))
        fields = [model.slot_of(self.head()[0], words_of(slot.line())) for slot in self.slots]
        self.board = model.board_of(fields, self.cache, self.disk, (), largest=2**32 if self.extended else 2**28)
        self.told = model.hosted_record_of if self.hosted else model.record_of

    def do(self, line):
        """Writes an event down, and answers its record."""
        word, *fields = words_of(line)
        record = self.told(self.board, word, fields)
        self.lines.append(line)
        self.records.append(record)
        return record

    def replayed(self, text, before):
        return "".join(f"{record}\n" for record in self.records), 0, self.disk

    def compare(self, output, status):
        """Compares the model's records with those that were worked out by hand."""
        wanted = self.worked.strip("\n").split("\n") if self.worked else self.records
        for line, said, record in zip(self.lines, wanted, self.records):
            if said != record:
                raise Disagrees(f"{self.name}: {line[:100]}: by hand {said[:100]}, the model {record[:100]}")
        if len(wanted) != len(self.records):
            raise Disagrees(f"{self.name}: {len(wanted)} records by hand, {len(self.records)} lines")

    def files(self):
        self.begin()
        self.script(self)
        return super().files()


@dataclasses.dataclass(frozen=True)
class Setup:
    """How a driver brings a window up: with all features or with none, which kind of ring, of which size, at which of two places;
    at the second one the high halves of addresses are written first."""

    rich: bool = False
    packed: bool = False
    size: int = 4
    home: int = 0

    def high(self):
        return VERSION_1 | (RING_PACKED if self.packed else 0) | (NOTIFICATION_DATA if self.rich else 0)


class Ring:
    """Where the device looks for the next chain of a queue; where it would, of one that isn't ready."""

    def __init__(self, guest, window, index):
        queue, self.guest = guest.queue(window, index), guest
        self.is_packed = queue.packed if queue.ready else "ring_packed" in guest.window(window).negotiated()
        good = 1 <= queue.number <= 256 and (self.is_packed or not queue.number & (queue.number - 1))
        self.number = queue.number if good else 4
        self.used = queue.place if queue.ready else 0
        self.place = self.used + queue.ahead if queue.ready else 0
        rings = (4, 4) if self.is_packed else (6 + 2 * self.number, 6 + 8 * self.number)
        self.lengths = (16 * self.number, *rings)
        inside = all(guest.memory().holds(at, length) for at, length in zip(queue.areas, self.lengths))
        self.areas = queue.areas if inside else guest.areas(window, index)

    def mark(self, place):
        return AVAIL if place % (2 * self.number) < self.number else USED_FLAG

    def ahead(self):
        """How many chains, or descriptors of a packed ring, are on offer and not yet served."""
        memory = self.guest.memory()
        if not self.is_packed:
            count = (memory.number(self.areas[1] + 2, 2) - self.place) % 65536
            return count if count < self.number else 0
        count, in_list = 0, False
        while count < self.number:
            flags = memory.number(self.areas[0] + 16 * ((self.place + count) % self.number) + 14, 2)
            if not in_list and flags & (AVAIL | USED_FLAG) != self.mark(self.place + count):
                break
            count, in_list = count + 1, bool(flags & NEXT) and not flags & INDIRECT
        return count if count < self.number else 0

    def entry(self, buffer, link, mark=0):
        """A descriptor: `link` is next in a split ring, the id in a packed one."""
        link = link if buffer.link < 0 else buffer.link
        pair = (link, buffer.flags | mark) if self.is_packed else (buffer.flags, link)
        return DESCRIPTOR.pack(buffer.address, buffer.length, *pair)

    def offer(self, buffers):
        """Descriptors joined by NEXT, behind those on offer."""
        buffers, ahead = joined(buffers[-self.number:]), self.ahead()
        if self.is_packed:
            self.offer_list(buffers, self.place + ahead)
        else:
            start = (self.place + ahead) * len(buffers) % self.number
            self.put_round(start, [self.entry(one, (start + at + 1) % self.number) for at, one in enumerate(buffers)])
            self.offer_head(start)

    def offer_list(self, buffers, place):
        identity = 0x100 + self.guest.turn % 16
        entries = [self.entry(one, identity, self.mark(place + at)) for at, one in enumerate(buffers)]
        self.put_round(place % self.number, entries)

    def put_round(self, start, entries):
        """Descriptors from an index on, and round."""
        front, behind = entries[:self.number - start], entries[self.number - start:]
        self.guest.put(self.areas[0] + 16 * start, b"".join(front))
        if behind:
            self.guest.put(self.areas[0], b"".join(behind))

    def offer_head(self, head):
        place = self.place + self.ahead()
        idx, at = number((place + 1) % 65536, 2), self.areas[1]
        if place % self.number == 0:
            self.guest.put(at + 2, idx + number(head, 2))
            return
        self.guest.put(at + 4 + 2 * (place % self.number), number(head, 2))
        self.guest.put(at + 2, idx)

    def table(self, buffers):
        """An indirect table of these buffers, and the one buffer that names it."""
        entries = buffers if self.is_packed else joined(buffers)
        at = self.guest.room + TABLE + 0x100 * (self.guest.turn % 4)
        self.guest.put(at, b"".join(self.entry(one, place + 1) for place, one in enumerate(entries)))
        return Buffer(at, 16 * len(buffers), INDIRECT)

    def look(self):
        """What the device writes into the areas: all of a small ring, else the last entry and the idx."""
        guest, (desc, _, device) = self.guest, self.areas
        if self.is_packed:
            guest.look(desc, min(self.lengths[0], 128))
            guest.look(device, 4)
        elif self.number <= 8:
            guest.look(device, self.lengths[2])
        else:
            guest.look(device, 4)
            guest.look(device + 4 + 8 * ((self.used - 1) % self.number), 8)


class Guest:
    """A driver of a slot. `room` is where its headers, data and tables lie, if not at its memory's base."""

    def __init__(self, life, slot=0, room=None):
        self.life, self.slot, self.turn = life, slot, 0
        self.base = life.slots[slot].base
        self.room, self.done = self.base if room is None else room, (self.base if room is None else room) + DONE
        self.setup, self.acknowledges = Setup(), True

    # --- what the device, by the model, has

    def memory(self):
        return self.life.board[self.slot].memory

    def window(self, name):
        return self.life.board[self.slot].windows[name]

    def queue(self, window, index):
        return self.window(window).queues[index]

    def ring(self, window, index):
        return Ring(self, window, index)

    def areas(self, window, index, home=None):
        at = self.base + HOME * (self.setup.home if home is None else home) + OF_QUEUE[window, index]
        return [at + more for more in IN_QUEUE]

    # --- events

    def do(self, word, fields=""):
        return self.life.do(f"{word} {self.slot:x}" + (f" {fields}" if fields else ""))

    def read(self, window, offset, width=4):
        return self.do("r", f"{window} {offset:03x} {width}")

    def write(self, window, offset, value, width=4):
        return self.do("w", f"{window} {offset:03x} {width} {value % (1 << 8 * width):0{2 * width}x}")

    def look(self, address, length):
        return self.do("mr", f"{address:x} {length:x}")

    def put(self, address, content):
        return self.do("mw", f"{address:x} {content.hex() or '-'}")

    def type(self, content):
        return self.do("in", content.hex() or "-")

    def resize(self, columns, rows):
        return self.do("sz", f"{columns:x} {rows:x}")

    # --- a driver's steps

    def reset(self, window):
        self.write(window, STATUS, 0)

    def low(self, window, setup):
        return self.window(window).offered_bits() % 2**32 if setup.rich else 0

    def clear(self, window, setup):
        """The areas of a driver that begins: nothing is on offer."""
        for index in INDICES[window]:
            desc, driver, _ = self.areas(window, index, setup.home)
            self.put(driver, bytes(4 if setup.packed else 6 + 2 * setup.size))
            if setup.packed:
                self.put(desc, bytes(16 * setup.size))

    def accept(self, window, setup, without=None):
        """The features, behind a reset, up to FEATURES_OK."""
        self.write(window, STATUS, ACKNOWLEDGE | DRIVER)
        if without != LOW:
            self.write(window, DRIVER_FEATURES, self.low(window, setup))
        if without != "driver_features_sel":
            self.write(window, DRIVER_SEL, 1)
        if without != HIGH:
            self.write(window, DRIVER_FEATURES, setup.high())
        if without != "features_ok":
            self.write(window, STATUS, ACKNOWLEDGE | DRIVER | FEATURES_OK)

    def make_ready(self, window, index, setup, without=None):
        """The registers of a queue."""
        if without != "queue_sel":
            self.write(window, QUEUE_SEL, index)
        for offset, value in self.values(window, index, setup).items():
            if without != NAMES[offset]:
                self.write(window, offset, value)

    def values(self, window, index, setup):
        """What is written to each register of a queue."""
        values = {QUEUE_NUM: setup.size}
        for offset, area in zip(AREAS, self.areas(window, index, setup.home)):
            halves = [(offset, area % 2**32), (offset + 4, area >> 32)]
            values.update(halves[::-1] if setup.home else halves)
        return values | {QUEUE_READY: 1}

    def go(self, window):
        self.write(window, STATUS, ACKNOWLEDGE | DRIVER | FEATURES_OK | DRIVER_OK)

    def begin(self, window, setup, without=None, last=None):
        """From behind a reset up to DRIVER_OK. What is left out is left out of queue `last`."""
        self.setup = setup
        last = INDICES[window][-1] if last is None else last
        self.clear(window, setup)
        self.accept(window, setup, without)
        for index in INDICES[window]:
            self.make_ready(window, index, setup, without if index == last else None)
        if without != "driver_ok":
            self.go(window)

    def bring_up(self, window, setup):
        self.reset(window)
        self.begin(window, setup)

    def notify(self, window, index):
        above = 0x12340000 if "notification_data" in self.window(window).negotiated() else 0
        return self.write(window, NOTIFY, above | index)

    def acknowledge(self, window):
        self.write(window, INTERRUPT_ACK, 3)

    def offer(self, window, index, buffers, in_table=False):
        """A chain on offer, in a table where it is asked for or where the ring has no room."""
        self.turn += 1
        ring = self.ring(window, index)
        if in_table or len(buffers) > ring.number and self.may_use_tables(window):
            buffers = [ring.table(buffers)]
        ring.offer(buffers)

    def may_use_tables(self, window):
        return "indirect_desc" in self.window(window).negotiated()

    def request(self, content, room=0, in_table=False, notifies=True):
        """A request with these readable bytes, and with room before its status."""
        self.put(self.room + HEADER, content)
        self.put(self.done, b"\xee")
        data = [Buffer(self.room + DATA, room, 2)] if room else []
        self.offer("b", 0, [Buffer(self.room + HEADER, len(content)), *data, Buffer(self.done, 1, 2)], in_table)
        if not notifies:
            return
        self.notify("b", 0)
        self.look(self.done, 1)
        if room:
            self.look(self.room + DATA, min(room, 24))
        if room > 24:
            self.look(self.room + DATA + room - 4, 4)
        self.ends("b", 0)

    def ends(self, window, index):
        """What the device wrote into a queue's areas; where the driver acknowledges, it does."""
        self.ring(window, index).look()
        if self.acknowledges:
            self.acknowledge(window)
