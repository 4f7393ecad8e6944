"""Which places of a list are looked at, and the shapes in which a chain of many buffers can stand."""
import dataclasses

from .drivers import INDIRECT, INDIRECT_DESC, NEXT, Buffer, Packed, Split
from .story import BASE

HEADER, TEXT, STATUS_BYTE, TABLE, ROOM = BASE + 0x4000, BASE + 0x5000, BASE + 0x6000, BASE + 0x8000, BASE + 0xc000


def places(count):
    """The first, the second, the last two, each power of two and its neighbours, from 1 up to `count`."""
    powers = {2 ** one + by for one in range(count.bit_length()) for by in (-1, 0, 1)}
    return sorted(place for place in powers | {1, 2, count - 1, count} if 1 <= place <= count)


def shown(listed, where, stories):
    """The scenarios of a row of MATRIX.md: a list or what is checked, and which places or pairs."""
    for story in stories:
        story.shows = [(listed, where)]
        yield story


def but(items, place, one):
    """The list with another item at a place, counted from 1."""
    return items[:place - 1] + [one] + items[place:]


@dataclasses.dataclass(frozen=True)
class Shape:
    """A way to offer a chain of many buffers: the first `plain` as descriptors of the ring, the rest in a table."""

    name: str
    kind: type
    plain: int
    size: int

    @property
    def is_packed(self):
        return self.kind is Packed

    def queue(self, story, window="c", index=1):
        areas = [BASE + 0x1000, BASE + 0x3000, BASE + 0xe000]
        return self.kind(story, window, index, self.size, low=INDIRECT_DESC, areas=areas)

    def entry(self, queue, place, buffers):
        """The buffer at a place, counted from 1, as it stands in memory: joined to the next but in a packed table. One with INDIRECT
        is joined where it says so itself."""
        one, in_table = buffers[place - 1], place > self.plain
        follows = place < len(buffers) and not (self.is_packed and in_table) and not one.flags & INDIRECT
        mark = queue.mark(0) if self.is_packed and not in_table else 0
        at = place - 1 - (self.plain if in_table else 0)
        return queue.entry(one.marked((NEXT if follows else 0) | mark), at)

    def named(self, count):
        """The descriptor that names the table of a chain of `count` buffers."""
        return Buffer(TABLE, 16 * (count - self.plain), INDIRECT, 0)

    def write(self, queue, buffers):
        """Writes the whole chain down; `offer` then offers it, as often as wanted."""
        entries = [self.entry(queue, place, buffers) for place in range(1, len(buffers) + 1)]
        plain, table = entries[:self.plain], entries[self.plain:]
        if table:
            queue.put(TABLE, b"".join(table))
            if not self.is_packed:
                plain.append(queue.entry(self.named(len(buffers)), 0))
        if plain:
            queue.put(queue.areas[0], b"".join(plain))

    def change(self, queue, place, buffers):
        """Writes the buffer at a place down anew."""
        at = TABLE + 16 * (place - self.plain - 1) if place > self.plain else queue.areas[0] + 16 * (place - 1)
        queue.put(at, self.entry(queue, place, buffers))

    def offer(self, queue, buffers):
        """Offers the chain once more. Of a packed list just the first descriptor was written by the device."""
        if not self.is_packed:
            queue.offer_head(0)
        elif self.plain:
            first = buffers[0]
            follows = NEXT if len(buffers) > 1 else 0
            queue.put_chain([dataclasses.replace(first, flags=first.flags | follows)])
            queue.offered = (queue.offered + len(buffers)) % (2 * queue.size)
        else:
            queue.offer([self.named(len(buffers))])

    def again(self, queue):
        """The window from a reset on, after a fault; the chain stands as it was written."""
        if not self.is_packed:
            queue.clear()
        queue.bring_up()


CHAIN, TABLE_OF_256, BOTH = (Shape("split_chain", Split, 256, 256), Shape("split_table", Split, 0, 4),
                             Shape("split_chain_with_a_table", Split, 128, 256))
LIST, PACKED_TABLE = Shape("packed_list", Packed, 256, 256), Shape("packed_table", Packed, 0, 4)
SHAPES = [CHAIN, TABLE_OF_256, BOTH, LIST, PACKED_TABLE]


def texts(count=256, flags=0):
    """Buffers of one byte each, one behind another, from TEXT on."""
    return [Buffer(TEXT + at, 1, flags) for at in range(count)]


def content(count=256):
    """What lies in them: each byte tells its place."""
    return (bytes(range(256)) * (count // 256 + 1))[:count]
