"""Requests of a virtio-blk device (VIRTIO 1.2, 5.2.6) over a queue, each in room of its own in the guest's memory."""
import dataclasses
import struct

from queues import INDIRECT, WRITE

IN, OUT, FLUSH, GET_ID, WRITE_ZEROES = 0, 1, 4, 8, 13
OK, IOERR, UNSUPP = 0, 1, 2
SECTOR = 512
UNTOUCHED = 0xee


@dataclasses.dataclass
class Done:
    """What became of a request: its status, the used length, and what its room for data has now."""

    status: int
    length: int
    data: bytes


class Disk:
    """A driver of a disk. Slot n of its room has a header, a status, a table and `most` bytes of data."""

    HEADER, STATUS, TABLE, DATA = 0, 32, 64, 4096

    def __init__(self, queue, at=None, most=64 << 10, indirect=False):
        self.queue, self.memory, self.indirect = queue, queue.memory, indirect
        self.at = queue.descriptors + 0x10000 if at is None else at
        self.step, self.most = self.DATA + most, most
        self.slots, self.places, self.results = {}, set(), {}

    def room(self, slot):
        return self.at + slot * self.step

    def buffers(self, slot, kind, data, wanted, shift):
        """A chain's buffers: header, data to be read and to be written, status."""
        room = self.room(slot)
        found = [(room + self.HEADER, 16, 0)]
        if data:
            self.memory.write(room + self.DATA + shift, data)
            found.append((room + self.DATA + shift, len(data), 0))
        if wanted:
            self.memory.write(room + self.DATA + shift, bytes([UNTOUCHED]) * wanted)
            found.append((room + self.DATA + shift, wanted, WRITE))
        return found + [(room + self.STATUS, 1, WRITE)]

    def submit(self, kind, sector=0, data=b"", wanted=0, shift=0, notify=True):
        """Offers a request, and returns its chain's name."""
        slot = next(number for number in range(1 << 16) if number not in self.places)
        room = self.room(slot)
        self.memory.write(room + self.HEADER, struct.pack("=IIQ", kind, 0, sector))
        self.memory.write(room + self.STATUS, bytes([UNTOUCHED]))
        buffers = self.buffers(slot, kind, data, wanted, shift)
        if self.indirect:
            buffers = [(room + self.TABLE, 16 * len(buffers), self.table(room, buffers))]
        self.places.add(slot)
        name = self.queue.offer(buffers, notify)
        self.slots[name] = (slot, wanted, shift)
        return name

    def table(self, room, buffers):
        """Writes an indirect table, and returns its descriptor's flags."""
        for at, (address, length, flags) in enumerate(buffers):
            more = at + 1 < len(buffers)
            is_split = not hasattr(self.queue, "wraps")
            last = (flags | more, at + 1) if is_split else (0, flags)
            self.memory.write(room + self.TABLE + 16 * at, struct.pack("=QIHH", address, length, *last))
        return INDIRECT

    def gather(self, entries):
        """Takes over used entries."""
        for name, length in entries:
            slot, wanted, shift = self.slots.pop(name)
            status = self.memory.read(self.room(slot) + self.STATUS, 1)[0]
            self.results.setdefault(name, []).append(Done(status, length, self.memory.read(self.room(slot) + self.DATA + shift, wanted)))
            self.places.discard(slot)

    def result(self, name):
        """What became of a request, once it is used."""
        while name not in self.results:
            self.gather(self.queue.wait())
        found = self.results[name].pop(0)
        if not self.results[name]:
            del self.results[name]
        return found

    def do(self, kind, sector=0, data=b"", wanted=0, shift=0):
        return self.result(self.submit(kind, sector, data, wanted, shift))


def segments(*ranges):
    """WRITE_ZEROES' list of (sector, sectors, flags)."""
    return b"".join(struct.pack("=QII", *one) for one in ranges)
