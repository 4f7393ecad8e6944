"""Reads, writes, zeroes and flushes of the same sectors in one service, over caches that just hold them, and with each
call of the image failing."""
from .by_hand import written_out
from .drivers import NEXT, WRITE, Buffer, Split, number
from .places import shown
from .requests import FLUSH, IN, OUT, WRITE_ZEROES, header, segment
from .segments import IOERR, OK
from .story import BASE, SECTOR, Slot, Story, plain_image

TITLE = "The order of reads and writes over a cache"
HOW = ("Reads (r), writes (w), zeroes (z) and flushes (f) of sectors a to d are one service, over caches of 1 to 4 "
       "sectors. Each read gives what was written last, also where one call of the image fails; which calls there are, "
       "[the worked scenarios](rows/README.md#what-a-pair-is) say.")
COLUMNS = ("What", "Over caches of")
FOLDERS = {"cache_order": "What reads give behind writes in one service, over small caches.",
           "cache_calls": "The same where each call of the image fails in turn, so which calls there are decides."}

# A word is a request: what it does, and the sectors, one behind another.
ORDERS = {
    "one_sector": ["ra wa ra", "ra wa ra ra", "wa ra wa ra", "wa wa ra", "ra ra za ra ra", "za ra wa ra", "wa za ra",
                   "ra f ra wa f ra"],
    "two_sectors": ["ra rb wa ra rb", "ra wb ra rb wa rb ra", "wab rb ra", "rab wa rab", "zab rab zb rab",
                    "ra wb za rab wab ra rb"],
    "more_sectors": ["ra rb rc ra", "ra rb ra rc ra rb", "ra rb wa rc ra rb", "ra wb ra wc ra rb", "rab rcd rab",
                     "wab rb ra rc ra", "rabcd wbc rabcd ra"],
}
CAPACITIES, LETTERS = (1, 2, 3, 4), "abcdefgh"
HEADERS, STATUSES, TABLES, ROOMS, MARKS = BASE + 0x4000, BASE + 0x5000, BASE + 0x1000, BASE + 0x6000, BASE + 0xc000
# What is written: sectors of one byte each, which lie at MARKS.
MARKED = [bytes([0x40 + at]) * SECTOR for at in range(30)]


def stories():
    yield from shown("ra wa ra, call 0 fails", "1", [the_first_call()])
    yield from shown("all orders", "1, 2, 3, 4", map(in_order, CAPACITIES))
    for group, orders in ORDERS.items():
        what = f"{', '.join(orders)}: each call fails"
        yield from shown(what, "1, 2, 3, 4", (failing(group, capacity) for capacity in CAPACITIES))


def the_first_call():
    """The first read fails; the write behind it makes two calls, the read behind that none: call 3 is sector 1's."""
    return written_out("cache_calls/a_read_that_fails_before_a_write_and_a_read",
                       "A read fails; a write of the sector and another read of it, in the same service, don't.", """
        w 0 b 070 4 00000003 > 0 done - 0 0
        w 0 b 024 4 00000001 > 0 done - 0 0
        w 0 b 020 4 00000001 > 0 done - 0 0
        w 0 b 070 4 0000000b > 0 done - 0 0
        w 0 b 038 4 00000008 > 0 done - 0 0
        w 0 b 080 4 80001000 > 0 done - 0 0
        w 0 b 090 4 80002000 > 0 done - 0 0
        w 0 b 0a0 4 80003000 > 0 done - 0 0
        w 0 b 044 4 00000001 > 0 done - 0 0
        w 0 b 070 4 0000000f > 0 done - 0 0
        mw 0 80001000 00400080000000001000000001000100 > 0 done - 0 0
        mw 0 80001010 00600080000000000102000002000000 > 0 done - 0 0
        mw 0 80001020 10400080000000001002000001000300 > 0 done - 0 0
        mw 0 80001030 01500080000000000100000002000000 > 0 done - 0 0
        mw 0 80001040 00400080000000001000000001000500 > 0 done - 0 0
        mw 0 80001050 00700080000000000102000002000000 > 0 done - 0 0
        mw 0 80004000 {00*16}01000000{00*12}{77*512} > 0 done - 0 0
        mw 0 80006200 ee > 0 done - 0 0
        mw 0 80007200 ee > 0 done - 0 0
        mw 0 80005001 ee > 0 done - 0 0
        mw 0 80002002 0300000002000400 > 0 done - 0 0
        w 0 b 050 4 00000000 > 0 done - 1 0
        mr 0 80006000 1 > 0 b:00 - 1 0
        mr 0 80006200 1 > 0 b:01 - 1 0
        mr 0 80005001 1 > 0 b:00 - 1 0
        mr 0 80007000 201 > 0 b:{77*512}00 - 1 0
        mr 0 80003002 1a > 0 b:0300000000000000000002000000010000000400000001020000 - 1 0
        mw 0 80004008 01 > 0 done - 1 0
        mw 0 8000200a 0000 > 0 done - 1 0
        mw 0 80002002 0400 > 0 done - 1 0
        w 0 b 050 4 00000000 > 0 done - 1 0
        mr 0 80006200 1 > 0 b:01 - 1 0
        """, cache=1, fails=[0, 3])


class Sectors:
    """What the sectors hold, which are kept, and how often the image was called, by the worked scenarios' page."""

    def __init__(self, capacity, fails=()):
        self.capacity, self.fails, self.calls, self.flushes, self.kept = capacity, fails, 0, 0, []
        self.holds = [bytes([0x10 + sector]) * SECTOR for sector in range(8)]

    def call(self):
        self.calls += 1
        return self.calls - 1 not in self.fails

    def forget(self, sector):
        self.kept = [one for one in self.kept if one != sector]

    def keep(self, sector):
        self.forget(sector)
        self.kept = (self.kept + [sector])[-self.capacity:]

    def read(self, sectors):
        """The sectors up to the one that fails."""
        found = []
        for sector in sectors:
            if sector not in self.kept and not self.call():
                break
            self.keep(sector)
            found.append(self.holds[sector])
        return found

    def write(self, sectors, contents, is_kept):
        """Whether all is written and flushed."""
        for sector, content in zip(sectors, contents):
            self.forget(sector)
            if not self.call():
                self.holds[sector] = content[:256] + self.holds[sector][256:]
                return False
            self.holds[sector] = content
            if is_kept:
                self.keep(sector)
        return self.flush()

    def flush(self):
        self.flushes += 1
        return self.call()


def meant(word):
    """What a word does, and to which sectors."""
    return word[0], [LETTERS.index(letter) for letter in word[1:]]


class Disk:
    """Services of several requests, and what each must answer."""

    def __init__(self, story, sectors):
        self.story, self.sectors, self.mark = story, sectors, 0
        self.queue = Split(story, "b", 0, 32, areas=[TABLES, BASE + 0x2000, BASE + 0x3000]).bring_up()
        self.queue.put(MARKS, b"".join(MARKED))

    def serve(self, words):
        """One service of these requests, of which each has its header, its room or data, and its status."""
        queue, entries, headers, answers = self.queue, b"", b"", []
        for at, (what, which) in enumerate(map(meant, words)):
            kind = {"r": IN, "w": OUT, "z": WRITE_ZEROES, "f": FLUSH}[what]
            headers += header(kind, which[0] if what in "rw" else 0)
            headers += segment(which[0], len(which)) if what == "z" else bytes(16)
            self.mark = (self.mark + len(which)) % 20
            data = MARKS + SECTOR * self.mark if what == "w" else ROOMS + 4 * SECTOR * at
            size = SECTOR * len(which) if what in "rw" else 0
            first = Buffer(HEADERS + 32 * at, 32 if what == "z" else 16, NEXT, 3 * at + 1)
            second = Buffer(data, size, NEXT | (WRITE if what == "r" else 0), 3 * at + 2)
            entries += b"".join(queue.entry(one, 0) for one in (first, second, Buffer(STATUSES + at, 1, WRITE, 0)))
            if what == "r":
                for place in range(len(which)):
                    queue.put(data + SECTOR * place + 254, b"\xee" * 4)
            answers.append(self.answer(what, which, MARKED[self.mark:] if what == "w" else [bytes(SECTOR)] * 8))
        queue.put(queue.areas[0], entries)
        queue.put(HEADERS, headers)
        queue.put(STATUSES, b"\xff" * len(words))
        for at in range(len(words)):
            queue.offer_head(3 * at)
        queue.notify()
        self.compare(answers)

    def answer(self, what, which, contents):
        """Whether a request is OK, its used len, and the sectors that it reads; of one that isn't read none."""
        if what == "r":
            found = self.sectors.read(which)
            is_good = len(found) == len(which)
            return is_good, SECTOR * len(found) + is_good, found + [b"\xee" * SECTOR] * (len(which) - len(found))
        return self.sectors.flush() if what == "f" else self.sectors.write(which, contents, what == "w"), 1, []

    def compare(self, answers):
        """The statuses, the used lengths, and of each sector that is read the middle."""
        queue = self.queue
        queue.look(STATUSES, len(answers), bytes(OK if is_good else IOERR for is_good, _, _ in answers))
        for at, (_, length, found) in enumerate(answers):
            place = (queue.place - len(answers) + at) % 32
            queue.look(queue.areas[2] + 4 + 8 * place, 8, number(3 * at, 4) + number(length, 4))
            for sector, content in enumerate(found):
                queue.look(ROOMS + SECTOR * (4 * at + sector) + 254, 4, content[254:258])

    def sees_all(self):
        """All sectors by one read; those of the orders aren't kept then."""
        self.serve(["r" + LETTERS])


def story_of(name, about, sectors, **more):
    return Story(name, about, [Slot(identity=b"cached" + bytes(14))], cache=sectors.capacity, image=plain_image(),
                 **more)


def left(story, sectors):
    story.leaves = (b"".join(sectors.holds), sectors.flushes)
    return story


def in_order(capacity):
    """All orders, one behind another; no call fails."""
    sectors = Sectors(capacity)
    story = story_of(f"cache_order/all_over_a_cache_of_{capacity}",
                     "Reads, writes, zeroes and flushes of one service: each read gives what was written last.",
                     sectors)
    disk = Disk(story, sectors)
    for orders in ORDERS.values():
        for order in orders:
            disk.serve(order.split())
            disk.sees_all()
    return left(story, sectors)


def calls_of(order, sectors):
    """How many calls an order makes as the cache is: of those that are tried if none fails."""
    other = Sectors(sectors.capacity)
    other.kept = list(sectors.kept)
    for what, which in map(meant, order.split()):
        if what == "r":
            other.read(which)
        elif what == "f":
            other.flush()
        else:
            other.write(which, MARKED, what == "w")
    return other.calls


def failing(group, capacity):
    """Each order again and again: its first call fails, then the second, up to the last."""
    fails = set()
    sectors = Sectors(capacity, fails)
    story = story_of(f"cache_calls/{group}_over_a_cache_of_{capacity}",
                     "Each call of a service's requests fails in turn: just that request is IOERR.", sectors)
    disk = Disk(story, sectors)
    disk.sees_all()
    for order in ORDERS[group]:
        for turn in range(calls_of(order, sectors)):
            fails.add(sectors.calls + turn)
            disk.serve(order.split())
            disk.sees_all()
    story.fails = sorted(fails)
    return left(story, sectors)
