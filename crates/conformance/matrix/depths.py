"""Disks of each depth that the host serves: how many are in flight, and in which order they are completed."""
from .drivers import INDIRECT, INTERRUPT_ACK, NOTIFY, WRITE, Buffer, joined, number
from .first_rows import BEGINS, FIRST_QUEUE, GOES, first
from .follows import Guest, Life, Setup, Wide
from .lots import Dice
from .requests import FLUSH, GET_ID, IN, OUT, WRITE_ZEROES, header, segment
from .saved import restore, saved
from .story import SECTOR

TITLE = "Depths and orders of completion"
HOW = ("A ring of 256 has more requests on offer than the disk's depth: reads, writes, flushes, zeroes and GET_ID in turn. What is in flight is "
       "completed in the order of asking, in reverse, or in a shuffled one, each third as failed, and each completion takes the next. Half-way "
       "half as many requests again are offered and notified. Small rings go round with some in flight, split ones over place 65535.")
COLUMNS = ("Depth", "Orders and rings")
FOLDERS = {"depths": "Disks of each depth whose operations are completed in each order."}

DEPTHS = (1, 2, 8, 64)
ORDERS = {"in_order": lambda asked, dice: asked[0], "in_reverse": lambda asked, dice: asked[-1], "shuffled": lambda asked, dice: dice.one(asked)}
KINDS = (header(IN, 1), header(OUT, 2), header(FLUSH), header(GET_ID), header(WRITE_ZEROES) + segment(3, 1), header(IN, 7))
# From a memory's base on: each request has its bytes in 128 of them, and one of sixteen buffers for its data.
AREAS, REQUESTS, ROOM, DATA = (0x6000, 0x7000, 0x7800), 0x8800, 0x80, 0xd000
STATUS_AT, TABLE_AT = 0x30, 0x40


def stories():
    yield by_hand()
    for depth in DEPTHS:
        for is_packed in (False, True):
            for order in ORDERS:
                yield completed(depth, is_packed, order, depth == DEPTHS[-1] or (depth.bit_length() + is_packed) % 2 == 0)
    for order in ORDERS:
        for is_packed, is_rich, size in ((False, True, 8), (True, True, 5), (True, False, 9)):
            yield laps(is_packed, is_rich, size, order)


def by_hand():
    """Two flushes of a ring of 4 in flight: the second one is completed first."""
    lines = """
mw 0 80004000 04000000000000000000000000000000 > 0 done - 0 0
mw 0 80006000 eeee > 0 done - 0 0
mw 0 80001000 00400080000000001000000001000100 > 0 done - 0 0
mw 0 80001010 00600080000000000100000002000000 > 0 done - 0 0
mw 0 80001020 00400080000000001000000001000300 > 0 done - 0 0
mw 0 80001030 01600080000000000100000002000000 > 0 done - 0 0
mw 0 80002000 0000020000000200 > 0 done - 0 0
w 0 b 050 4 00000000 > 0 done - 0 0 0=flush:0:0:-;1=flush:0:0:-
mr 0 80003000 4 > 0 b:00000000 - 0 0
io 0 1 failed > 0 done - 1 0
mr 0 80003000 c > 0 b:000001000200000001000000 - 1 0
mr 0 80006000 2 > 0 b:ee01 - 1 0
io 0 1 done > 0 idle - 1 0
w 0 b 064 4 00000001 > 0 done - 0 0
io 0 0 done > 0 done - 1 0
mr 0 80003000 14 > 0 b:0000020002000000010000000000000001000000 - 1 0
mr 0 80006000 2 > 0 b:0001 - 1 0
"""
    return first("depths/two_flushes_by_hand", "Two flushes in flight, the second one completed first.", BEGINS + FIRST_QUEUE + GOES + lines,
                 slots=[Wide(length=0x10000, disk="host:2")])


class Deep(Guest):
    """A driver that offers many requests at once, each in a table or by its own descriptors."""

    def __init__(self, life, order, dice):
        super().__init__(life)
        self.order, self.dice, self.offered, self.behind, self.completed, self.asked = order, dice, 0, 0, 0, []

    def areas(self, window, index, home=None):
        return [self.base + at for at in AREAS] if window == "b" else super().areas(window, index, home)

    def request(self, number_of):
        """What a request of this number has at its place, and its buffers."""
        content = KINDS[number_of % len(KINDS)]
        at = self.base + REQUESTS + ROOM * (number_of % 128)
        data, kind = Buffer(self.base + DATA + SECTOR * (number_of % 16), SECTOR), content[0]
        rest = {IN: [Buffer(data.address, SECTOR, WRITE)], OUT: [data], GET_ID: [Buffer(data.address, 20, WRITE)]}.get(kind, [])
        return at, content + b"\xee" * (ROOM - len(content)), [Buffer(at, len(content)), *rest, Buffer(at + STATUS_AT, 1, WRITE)]

    def offers(self, count):
        """So many requests behind those before, and one notify."""
        ring = self.ring("b", 0)
        for _ in range(count):
            at, content, buffers = self.request(self.offered)
            if self.setup.rich:
                entries = buffers if ring.is_packed else joined(buffers)
                table = b"".join(ring.entry(one, place + 1) for place, one in enumerate(entries))
                content = content[:TABLE_AT] + table + content[TABLE_AT + len(table):]
                buffers = [Buffer(at + TABLE_AT, len(table), INDIRECT)]
            self.put(at, content)
            self.behind += self.offer_one(ring, self.behind, joined(buffers))
            self.offered += 1
        if not ring.is_packed:
            self.put(ring.areas[1] + 2, number(self.behind % 65536, 2))
        self.notify("b", 0)
        self.keeps_order()

    def offer_one(self, ring, place, buffers):
        """Writes a chain's descriptors; how many places it has."""
        if ring.is_packed:
            ring.put_round(place % ring.number, [ring.entry(one, self.offered, ring.mark(place + at)) for at, one in enumerate(buffers)])
            return len(buffers)
        start = 3 * self.offered % ring.number
        ring.put_round(start, [ring.entry(one, (start + at + 1) % ring.number) for at, one in enumerate(buffers)])
        self.put(ring.areas[1] + 4 + 2 * (place % ring.number), number(start, 2))
        return 1

    def outstanding(self):
        """How many places of the ring hold what isn't used yet."""
        queue = self.queue("b", 0)
        return (self.behind - queue.place) % (2 * queue.number if queue.packed else 65536)

    def keeps_order(self):
        """What is in flight, in the order of asking."""
        tags = self.life.board[self.slot].tags
        self.asked = [one for one in self.asked if any(one is asked for asked in tags)]
        self.asked += [asked for asked in tags if asked and not any(asked is one for one in self.asked)]

    def completes(self):
        """One operation in flight is done or failed."""
        tags = self.life.board[self.slot].tags
        asked = self.order(self.asked, self.dice)
        tag = next(tag for tag, one in enumerate(tags) if one is asked)
        self.completed += 1
        fails = self.completed % 3 == 0
        for at, count in asked.runs if asked.kind == "in" and not fails else ():
            self.put(at, bytes([0x40 + self.completed % 64]) * count)
        self.do("io", f"{tag:x} {'failed' if fails else 'done'}")
        self.keeps_order()
        if self.completed % 4 == 0:
            self.write("b", INTERRUPT_ACK, 1)


def completed(depth, is_packed, order, is_rich):
    count = depth + depth // 4 + 2

    def script(life):
        guest = Deep(life, ORDERS[order], Dice(f"depths {depth} {order} {is_packed}"))
        guest.bring_up("b", Setup(is_rich, is_packed, 256, 0))
        guest.offers(count)
        for _ in range(depth // 2 + 1):
            guest.completes()
        guest.offers(count // 2)
        guest.write("b", NOTIFY, 0)
        while guest.asked:
            guest.completes()
        desc, _, device = guest.areas("b", 0)
        for at, length in (((desc, 0x1000), (device, 4)) if is_packed else ((device, 0x806),)):
            guest.look(at, length)
        guest.look(guest.base + REQUESTS, 0x4000)

    kind = "packed" if is_packed else "split"
    return Life(f"depths/{kind}_{depth}_{order}", f"{depth} in flight, completed {order.replace('_', ' ')}.", script,
                [Wide(length=0x10000, disk=f"host:{depth:x}")], shows=[(f"{depth} in flight", f"{kind}, {order.replace('_', ' ')}")])


def laps(is_packed, is_rich, size, order):
    most = 2 if is_rich else 6

    def script(life):
        guest = Deep(life, ORDERS[order], Dice(f"depths laps {size} {order}"))
        guest.bring_up("b", Setup(is_rich, is_packed, size, 0))
        if not is_packed:
            guest.behind = 65530
            restore(guest, saved(guest).but(lambda snapshot: setattr(snapshot.windows["b"].queues[0], "place", guest.behind)))
        for _ in range(14):
            while guest.outstanding() + most > size:
                guest.completes()
            guest.offers(2)
        while guest.asked:
            guest.completes()
        guest.ends("b", 0)
        guest.look(guest.base + REQUESTS, ROOM * guest.offered)

    kind, features = "packed" if is_packed else "split", "all_features" if is_rich else "no_feature"
    return Life(f"depths/laps_of_a_{kind}_ring_of_{size}_with_{features}_{order}", "A small ring goes round with up to three in flight.", script,
                [Wide(length=0x10000, disk="host:3")], shows=[("3 in flight over laps", f"{kind}, {order.replace('_', ' ')}")])
