"""What a guest's further devices brought and took, judged by the records alone.

In a sane guest a chain's used entry counts what its buffers got (2.7.8). Entropy buffers hold the supplied bytes, in order and each once
(5.4.6). A frame that was handed over arrives whole behind its header, in order, once or never (5.1.6.4); a frame that the host takes is
one that the driver offered, whole and in order (5.1.6.2), one that it drops is as long, and all that the card used come out. InterruptStatus tells of used chains,
unless the driver suppresses that (2.7.7, 2.8.10), and of links (2.5), and of nothing else.
"""
import collections
import re

from queues import PackedQueue

# A card may drop a frame that is longer.
HEADER, LONGEST = 12, 65536
AVAIL_AND_USED = 0x8080
# The header of a received frame: no flags, no segmentation, no offsets, and one buffer.
RECEIVED = bytes(10) + b"\1\0"


class Wrong(Exception):
    """An answer that can't be."""


def number_at(data, at, length):
    return int.from_bytes(data[at:at + length], "little")


class Ring:
    """How far a device has come in a ring since its reset: how many chains it used, and how many places of the ring these had."""

    def __init__(self):
        self.used, self.passed = 0, 0

    def newly_used(self, queue, chains, ring):
        """The chains that the ring shows as used, of those that no earlier look showed, each with its used len."""
        entries = self.packed_entries if isinstance(queue, PackedQueue) else self.split_entries
        left, found = list(chains), []
        for name, length in entries(queue, ring):
            chain = next((chain for chain in left if chain.name == name), None)
            if chain is None:
                raise Wrong(f"no chain on offer is named {name:x}")
            left.remove(chain)
            self.used, self.passed = self.used + 1, self.passed + chain.places
            found.append((chain, length))
        return found

    def split_entries(self, queue, ring):
        while self.used % 65536 != number_at(ring, 2, 2):
            at = 4 + 8 * (self.used % queue.size)
            yield number_at(ring, at, 4), number_at(ring, at + 4, 4)

    def packed_entries(self, queue, ring):
        while self.is_used(queue, ring):
            at = 16 * (self.passed % queue.size)
            yield number_at(ring, at + 12, 2), number_at(ring, at + 8, 4)

    def is_used(self, queue, ring):
        """Whether the next place has AVAIL and USED of its round."""
        turn, at = divmod(self.passed, queue.size)
        return number_at(ring, 16 * at + 14, 2) & AVAIL_AND_USED == (0 if turn % 2 else AVAIL_AND_USED)


class Device:
    """A further device, as its records tell it."""

    def __init__(self, counts):
        self.counts = counts
        # Bytes and frames that the host gave and no buffer showed; frames of used chains that the host hasn't taken.
        self.supplied, self.handed, self.coming = b"", collections.deque(), collections.deque()
        self.reset("done")

    def reset(self, answer):
        """All chains are the driver's again; what waits stays."""
        self.rings = collections.defaultdict(Ring)
        # The chains on offer whose frames wait for room, and those of them that came out before a look showed them as used.
        self.offered, self.early = collections.deque(), []
        self.used, self.wanted, self.buffers = [], 0, {}
        # The bits of InterruptStatus that events since their acknowledgement may have set.
        self.bits = 0

    def interrupts(self, answer, wants_all):
        """A look at InterruptStatus (4.2.2): what happened is told, where the driver wants it, and nothing else."""
        found = value_of(answer)
        missing = self.bits & ~found & (3 if wants_all else 2)
        if missing or found & ~self.bits:
            raise Wrong(f"InterruptStatus is {found}, and {self.bits} happened")
        self.counts["looks at a further device's interrupts"] += 1

    def acknowledged(self, answer, bits):
        self.bits &= ~bits

    def ring(self, answer, which, queue, chains, waits):
        """A look at a ring; looks at the buffers that the device writes follow."""
        self.used = self.rings[which].newly_used(queue, chains, bytes_of(answer))
        if len(chains) - len(self.used) != waits:
            raise Wrong(f"{len(chains)} chains are on offer and {len(self.used)} used; {waits} should wait")
        if any(length > (0 if chain.sent else chain.length) for chain, length in self.used):
            raise Wrong("a used len is above what the device may write")
        self.bits |= 1 if self.used else 0
        if chains and chains[0].sent:
            self.transmitted(chains)
        self.wanted, self.buffers = sum(len(chain.pieces) for chain in chains if not chain.sent), {}

    def buffer(self, answer, address):
        """A look at a buffer; the last one shows what arrived."""
        self.buffers[address] = self.buffers.get(address, b"") or bytes_of(answer)
        self.wanted -= 1
        if not self.wanted:
            for chain, length in self.used:
                self.arrived(b"".join(self.buffers[at] for at, count in chain.pieces if count)[:length])


class Entropy(Device):
    """An entropy device."""

    # What its host supplies.
    BYTES = "bytes of entropy"

    def supply(self, answer, given):
        taken = count_of(answer)
        self.supplied += given[:taken]
        self.counts[f"{self.BYTES} supplied"] += taken

    def arrived(self, got):
        if not got:
            raise Wrong("a chain is used without a byte")
        if got != self.supplied[:len(got)]:
            raise Wrong(f"{got[:20].hex()} isn't what was supplied next")
        self.supplied = self.supplied[len(got):]
        self.counts[f"{self.BYTES} found"] += len(got)


class Console(Entropy):
    """A console. Its driver relies on each answer that takes output, so that is counted here."""

    BYTES = "bytes typed"

    def transmitted(self, chains):
        self.counts["chains put out by further consoles"] += len(self.used)

    def resized(self, answer):
        self.bits |= 2

    def take(self, answer):
        self.counts["bytes taken of further consoles"] += len(bytes_of(answer))

    def drop(self, answer):
        self.counts["bytes dropped of further consoles"] += count_of(answer)


class Disk(Device):
    """A disk, whose driver relies on each answer by itself: operations are counted here."""

    def completed(self, answer):
        self.counts["operations of further disks"] += 1

    def dropped(self, answer):
        self.counts["drops of further disks"] += 1


class ImageDisk(Device):
    """A disk over spare sectors of the image, likewise."""

    def served(self, answer, requests):
        self.counts["requests of disks over spare sectors"] += requests


class Card(Device):
    """A network card."""

    def frame(self, answer, frame):
        if answer == f"took:{len(frame):x}":
            self.handed.append(frame)
            self.counts["frames handed over"] += 1
        elif answer != "took:0":
            raise Wrong("a part of a frame is taken")

    def arrived(self, got):
        if got[:HEADER] != RECEIVED:
            raise Wrong(f"a frame's header is {got[:HEADER].hex()}")
        while self.handed:
            if self.handed.popleft() == got[HEADER:]:
                self.counts["frames received"] += 1
                return
        raise Wrong(f"a frame {got[HEADER:][:20].hex()} of {len(got) - HEADER} bytes wasn't handed over, or comes late")

    def transmitted(self, chains):
        """The frames of used chains come out in the order of use."""
        used = [chain for chain, _ in self.used]
        self.coming.extend(chain for chain in used if chain not in self.early and chain.length <= HEADER + LONGEST)
        self.offered = collections.deque(chain for chain in chains if chain not in used)
        self.early = []
        self.counts["frames sent"] += len(used)

    def link(self, answer):
        self.bits |= 2

    def take(self, answer):
        frame = bytes_of(answer)
        if frame:
            self.came_out(len(frame), frame)
            self.counts["frames taken"] += 1

    def drop(self, answer):
        if count_of(answer):
            self.came_out(count_of(answer))
            self.counts["frames dropped"] += 1

    def came_out(self, length, frame=None):
        """What was sent next is out; of a frame that was dropped the length alone is known."""
        waits = self.coming or self.offered
        sent = waits[0].sent[HEADER:] if waits else b""
        if len(sent) != length or frame not in (None, sent):
            raise Wrong(f"a frame {(frame or b'')[:20].hex()} of {length} bytes isn't what was sent next")
        if not self.coming:
            self.early.append(waits[0])
        waits.popleft()


def number_at(data, at, length):
    return int.from_bytes(data[at:at + length], "little")


def value_of(answer):
    """What a reply of a register has."""
    return int(answer.removeprefix("v:"), 16)


def count_of(answer):
    """How many bytes a reply says."""
    return int(answer.removeprefix("took:"), 16)


def bytes_of(answer):
    """What a reply of bytes has."""
    return bytes.fromhex(answer.removeprefix("b:").removeprefix("-"))


# By the first word of a kind in a trace.
KINDS = {"entropy": Entropy, "network": Card, "disk": Disk, "image": ImageDisk, "console": Console}


def check_arrivals(guest, records, counts):
    """Judges what the events of a sane guest mean by their records. At its end each frame that was sent has been taken."""
    devices = {driver.window: KINDS[re.split("[: ]", driver.kind())[0]](counts) for driver in guest.further}
    for number, (event, record) in enumerate(zip(guest.events, records)):
        if event.meant:
            what, window, *more = event.meant
            try:
                getattr(devices[window], what)(record.partition(" ")[0], *more)
            except Wrong as wrong:
                raise Wrong(f"event {number}, {' '.join(event)}"[:120] + f": device {window}: {wrong}") from None
    for window, device in devices.items():
        if device.coming:
            raise Wrong(f"device {window}: {len(device.coming)} frames that were sent never came out")
    counts["further devices of sane guests"] += len(devices)
