"""What a file may hold after a stop, from the log that stops.c wrote of its calls.

What was written before a sync began is safe once that sync has come back. Of the writes since then a stop may leave any,
in any order: each whole, torn, or not at all.
"""
import itertools
import struct
from collections import namedtuple

WRITE, ZEROS, SYNC, LIE, END, OUTPUT = range(6)
SECTOR = 512
HEAD = struct.Struct("<IIQQq")

# A call of the file, the end of a call, or output. `call` is its number, which its end repeats.
Entry = namedtuple("Entry", "kind file call at count data")

# Of so many unsafe writes or fewer each subset is made, and of more so many at random.
FEW, SOME = 3, 6


def entries_of(log):
    """The entries of a log's bytes."""
    entries, at = [], 0
    while at < len(log):
        kind, file, call, place, count = HEAD.unpack_from(log, at)
        at += HEAD.size
        length = count if kind in (WRITE, OUTPUT) else 0
        entries.append(Entry(kind, file, call, place, count, bytes(count) if kind == ZEROS else log[at:at + length]))
        at += length
    return entries


class Followed:
    """A file that is followed through a log, best from moment to later moment."""

    def __init__(self, content, file, entries):
        self.content, self.file, self.entries = content, file, entries
        self.start()

    def start(self):
        self.medium, self.moment = Medium(self.content, self.file), 0

    def at(self, moment):
        """The file after so many entries."""
        if moment < self.moment:
            self.start()
        for entry in self.entries[self.moment:moment]:
            self.medium.take(entry)
        self.moment = moment
        return self.medium


class Medium:
    """One file at one moment."""

    def __init__(self, content, file=0):
        self.safe, self.file = bytearray(content), file
        # by their numbers: the writes that aren't safe, those of them that have come back, and what each sync makes safe
        self.unsafe, self.back, self.syncs = {}, set(), {}

    def take(self, entry):
        """Goes on by an entry, which may be another file's."""
        if entry.kind == END:
            self.end(entry)
        elif entry.file == self.file and entry.kind in (WRITE, ZEROS):
            self.unsafe[entry.call] = entry
        elif entry.file == self.file and entry.kind == SYNC:
            self.syncs[entry.call] = sorted(self.back)

    def end(self, entry):
        """A call has come back, as far as it came. A file system that can't make a hole has done nothing; of any other write
        that failed all is open, for good, and so it is of those before a sync that failed."""
        write = self.unsafe.get(entry.call)
        if write and entry.count < 0 and write.kind == ZEROS:
            del self.unsafe[entry.call]
        elif write and entry.count >= 0:
            count = entry.count if write.kind == WRITE else write.count
            self.unsafe[entry.call] = write._replace(count=count, data=write.data[:count])
            self.back.add(entry.call)
        for call in self.syncs.pop(entry.call, []):
            if call in self.back:
                self.back.discard(call)
                if entry.count == 0:
                    put(self.safe, self.unsafe.pop(call))

    def left(self, dice):
        """Files that a stop may leave now: of few unsafe writes each subset in each order, and some torn; of many, some."""
        writes = list(self.unsafe.values())
        if len(writes) > FEW:
            yield bytes(self.safe)
            yield self.with_writes(writes)
            for _ in range(SOME):
                yield self.one_left(dice)
            return
        orders = itertools.chain.from_iterable(itertools.permutations(writes, count) for count in range(len(writes) + 1))
        yield from dict.fromkeys(bytes(self.with_writes(order)) for order in orders)
        for write in writes:
            yield self.with_writes(self.torn(write, dice))

    def one_left(self, dice):
        """One of these files, at random."""
        writes = list(self.unsafe.values())
        dice.shuffle(writes)
        kept = []
        for write in writes:
            kept += dice.choice([[write], [write], [], [], self.torn(write, dice)])
        return self.with_writes(kept)

    def with_writes(self, writes):
        content = bytearray(self.safe)
        for write in writes:
            put(content, write)
        return content

    @staticmethod
    def torn(write, dice):
        """Of a write each sector, its front or back half, or nothing."""
        parts = []
        for at in range(write.at, write.at + write.count, SECTOR):
            first, last = dice.choice([(0, SECTOR), (0, SECTOR // 2), (SECTOR // 2, SECTOR), (0, 0)])
            data = write.data[at - write.at + first:at - write.at + last]
            parts.append(write._replace(at=at + first, count=len(data), data=data))
        return parts


def put(content, write):
    content[write.at:write.at + write.count] = write.data


def is_torn(found, candidates):
    """Whether each byte stands at its place in one of the candidates."""
    return all(byte in column for byte, column in zip(found, zip(*candidates)))
