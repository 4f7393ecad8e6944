"""Entropy devices, network cards, consoles and disks on rings of both kinds, with and without event indices, in tables or not.

What a chain gets is worked out here by the sections of the standard and the rules of docs/model.md: a pool is bytes, what waits in a
card a list of frames, what waits in a console bytes each way, and a disk's request is used as its host says, or at once.
"""
import itertools

from mutants.model import FLUSH, GET_ID, IN, OUT

from .drivers import EVENT_IDX, INDIRECT_DESC, INTERRUPT_ACK, KINDS, NOTIFY, WRITE, Buffer, number
from .first_rows import first
from .follows import EXTENDED, Wide
from .story import BASE, USED, Story, spelled

TITLE = "Further devices"
HOW = ("Chains of some shapes go round a small ring: of an entropy device, of both queues of a network card and of a console, and of a disk. Bytes and frames come "
       "before a chain and behind it, fewer, as many and more than it holds; what is sent is taken; requests are done, fail or ask nothing. "
       "The driver names an event 0 to 2 places away, or wants none.")
COLUMNS = ("Device", "Ring")
FOLDERS = {"further_rings": "Entropy devices, network cards, consoles and disks on rings of both kinds, with each feature of a ring on and off."}

# The one further device, its rings' sizes, and how often a chain is offered.
DEVICE, SIZES, TURNS = 0, {"split": 4, "packed": 5}, 30
# From a memory's base on: the areas of both queues, and of each queue's chains the buffers and a table.
AREAS, BUFFERS, TABLES = (0x1000, 0x8000), (0x5000, 0xc000), (0x7000, 0xb000)
# The buffers of chains: lengths, and whether they are writable.
OF_ENTROPY = [[(3, WRITE)], [(2, 0), (4, WRITE)], [(1, WRITE), (0, WRITE), (5, WRITE)], [(4, 0)], [(6, WRITE), (1, 0)]]
RECEIVING = [[(40, WRITE)], [(12, WRITE), (3, WRITE)], [(6, 0), (5, WRITE), (30, WRITE)], [(13, WRITE), (0, WRITE)], [(1, WRITE), (1, WRITE), (50, WRITE)]]
SENDING = [[(12, 0), (4, 0)], [(30, 0)], [(5, 0), (9, 0), (3, 0)], [(12, 0), (0, 0)], [(20, 0), (6, WRITE)]]
# Requests of a disk of 8 sectors: type, sector and the buffers behind the header, of which the last is the status. The first three ask its
# host, a GET_ID is answered with 20 bytes and the status, and a read past the end is refused.
DISK, IDENTITY = "disk 8 rw", bytes(range(0x41, 0x55))
REQUESTS = [(IN, 7, [(512, WRITE), (1, WRITE)]), (OUT, 3, [(300, 0), (212, 0), (1, WRITE)]), (FLUSH, 0, [(1, WRITE)]),
            (GET_ID, 0, [(20, WRITE), (1, WRITE)]), (IN, 8, [(512, WRITE), (1, WRITE)])]
# Before a frame that is received (5.1.6): all zeros, and num_buffers is 1.
HEADER = bytes(10) + number(1, 2)
ROWS = list(itertools.product(KINDS, (False, True), (False, True)))


def stories():
    yield by_hand()
    for row in ROWS:
        yield entropy(row)
        yield card(row)
        yield console(row)
        yield disk(row)


def by_hand():
    """A split ring with EVENT_IDX; a table of 2 and 3 bytes is offered twice, and used_event stays 0."""
    return first("further_rings/a_table_of_random_bytes_by_hand", "The second chain is used without a notification.", """
plug 0 0 entropy > 0 done - 0 0
dw 0 0 070 4 00000003 > 0 done - 0 0
dw 0 0 020 4 30000000 > 0 done - 0 0
dw 0 0 024 4 00000001 > 0 done - 0 0
dw 0 0 020 4 00000001 > 0 done - 0 0
dw 0 0 070 4 0000000b > 0 done - 0 0
dw 0 0 038 4 00000004 > 0 done - 0 0
dw 0 0 080 4 80001000 > 0 done - 0 0
dw 0 0 090 4 80002000 > 0 done - 0 0
dw 0 0 0a0 4 80003000 > 0 done - 0 0
dw 0 0 044 4 00000001 > 0 done - 0 0
dw 0 0 070 4 0000000f > 0 done - 0 0
mw 0 80007000 00500080000000000200000003000100 > 0 done - 0 0
mw 0 80007010 00510080000000000300000002000000 > 0 done - 0 0
mw 0 80001000 00700080000000002000000004000000 > 0 done - 0 0
mw 0 80002000 000001000000 > 0 done - 0 0
supply 0 0 a1a2a3 > 0 took:3 - 0 0
mr 0 80003000 c > 0 b:000001000000000003000000 - 0 0
mr 0 80005000 2 > 0 b:a1a2 - 0 0
mr 0 80005100 3 > 0 b:a30000 - 0 0
mr 0 80003024 2 > 0 b:0100 - 0 0
dr 0 0 060 4 > 0 v:00000001 - 0 0
dw 0 0 064 4 00000001 > 0 done - 0 0
mw 0 80002002 020000000000 > 0 done - 0 0
supply 0 0 b1b2b3b4b5b6 > 0 took:6 - 0 0
mr 0 80003002 2 > 0 b:0200 - 0 0
mr 0 8000300c 8 > 0 b:0000000005000000 - 0 0
mr 0 80005100 3 > 0 b:b3b4b5 - 0 0
mr 0 80003024 2 > 0 b:0200 - 0 0
dr 0 0 060 4 > 0 v:00000000 - 0 0
""", slots=[Wide()])


class Plugged(Story):
    """A scenario of one further device."""

    def __init__(self, what, row, kind):
        ring, has_events, has_tables = row
        words = [f"{ring} ring", *(["EVENT_IDX"] if has_events else []), *(["INDIRECT_DESC"] if has_tables else [])]
        features = ("_with_events" if has_events else "") + ("_in_tables" if has_tables else "")
        super().__init__(f"further_rings/{what}_on_a_{ring}_ring{features}", "Each chain gets what is due to it.", [Wide()],
                         shows=[(what.replace("_", " "), ", ".join(words))])
        self.words[0, DEVICE] = 0
        self.tell_device("plug", kind, "done")

    def head(self):
        return [EXTENDED, f"cache {self.cache:x}"]

    def tell_device(self, word, field, reply):
        """An event of the device."""
        self.event(" ".join([word, "0", f"{DEVICE:x}", *([field] if field else [])]), 0, reply)

    def write(self, window, offset, value, slot=0):
        self.tell_device("dw", f"{offset:03x} 4 {value:08x}", "done")

    def is_told(self, is_notified):
        """InterruptStatus is read, and cleared."""
        self.tell_device("dr", "060 4", f"v:{USED if is_notified else 0:08x}")
        if is_notified:
            self.write(DEVICE, INTERRUPT_ACK, USED)


class Ring:
    """A queue of the device, on which one chain is on offer at a time."""

    # How far a chain's buffers are apart.
    spacing = 0x100

    def __init__(self, story, row, index):
        kind, self.has_events, self.has_tables = row
        low = (EVENT_IDX if self.has_events else 0) | (INDIRECT_DESC if self.has_tables else 0)
        self.story, self.index = story, index
        self.queue = KINDS[kind](story, DEVICE, index, SIZES[kind], low, BASE + AREAS[index])

    def offer(self, turn, shape):
        """A chain of this shape, whose writable bytes are ff and whose readable ones rise."""
        at = BASE + BUFFERS[self.index]
        self.chain = [Buffer(at + self.spacing * place, *one) for place, one in enumerate(shape)]
        self.before = [b"\xff" * one.length if one.flags & WRITE else self.written(turn, place, one.length) for place, one in enumerate(self.chain)]
        for one, content in zip(self.chain, self.before):
            self.story.put(one.address, content)
        self.choose_event(turn % 3)
        offered = [self.queue.table(BASE + TABLES[self.index], self.chain)] if self.has_tables else self.chain
        self.queue.offer(offered)
        self.places = len(offered) if self.queue.is_packed else 1
        self.story.write(DEVICE, NOTIFY, self.index)

    def written(self, turn, place, length):
        """What the driver writes into a buffer that the device reads."""
        return rising(turn + place, length)

    def choose_event(self, away):
        """With event indices the driver names the place so far away; without them it wants no notification if that is 2."""
        queue, driver_area = self.queue, self.queue.areas[1]
        self.is_wanted = lambda places: away < places if self.has_events else away < 2
        if not self.has_events:
            queue.put(driver_area + (2 if queue.is_packed else 0), number(away // 2, 2))
        elif queue.is_packed:
            place = (queue.place + away) % (2 * queue.size)
            queue.put(driver_area, number(place % queue.size | (place < queue.size) << 15, 2) + number(2, 2))
        else:
            queue.put(driver_area + 4 + 2 * queue.size, number((queue.place + away) % 65536, 2))

    @property
    def room(self):
        return sum(one.length for one in self.chain if one.flags & WRITE)

    @property
    def readable(self):
        return b"".join(content for one, content in zip(self.chain, self.before) if not one.flags & WRITE)

    def waits(self):
        """The chain isn't used."""
        queue = self.queue
        if queue.is_packed:
            self.story.look(queue.areas[0] + 16 * (queue.place % queue.size) + 8, 4, number(self.first_length(), 4))
        else:
            self.story.look(queue.areas[2] + 2, 2, number(queue.place, 2))
        self.story.is_told(False)

    def first_length(self):
        """The length of the chain's first descriptor in the ring."""
        return 16 * len(self.chain) if self.has_tables else self.chain[0].length

    def is_used(self, given):
        """The chain is used, and these are the first of its writable bytes."""
        self.has_length(len(given), given != b"")
        for one, content in zip(self.chain, self.before):
            part = given[:one.length] if one.flags & WRITE else b""
            self.story.look(one.address, one.length, part + content[len(part):])
            given = given[len(part):]

    def has_length(self, length, wrote):
        """The chain is used with this len, and told if the driver wants it."""
        self.queue.place = self.queue.offered
        if self.queue.is_packed:
            self.queue.look_at_used(length, wrote=wrote, count=self.places)
        else:
            self.queue.look_at_used(length)
        self.story.is_told(self.is_wanted(self.places))


class Requests(Ring):
    """The queue of a disk."""

    spacing = 0x200

    def request(self, turn):
        """Offers a request; its type."""
        kind, sector, behind = REQUESTS[turn % 5]
        self.header = number(kind, 4) + bytes(4) + number(sector, 8)
        self.offer(turn, [(len(self.header), 0), *behind])
        return kind

    def written(self, turn, place, length):
        return super().written(turn, place, length) if place else self.header

    def is_answered(self, length, status, data):
        """The request is used with this len and status, and its data are these."""
        self.has_length(length, True)
        self.story.look(self.chain[-1].address, 1, bytes([status]))
        if data:
            self.story.look(self.chain[1].address, len(data), data)


def rising(first_byte, count):
    return bytes((first_byte + place) % 251 for place in range(count))


def entropy(row):
    """Chains wait for bytes, or bytes for chains."""
    story = Plugged("an_entropy_device", row, "entropy")
    ring, pool = Ring(story, row, 0), b""
    ring.queue.bring_up()
    for turn in range(TURNS):
        pool = filled(story, ring, pool, turn)
    return story


def filled(story, ring, pool, turn):
    """A chain is filled from a pool, which gets bytes before the chain or behind it; what is left."""
    shape = OF_ENTROPY[turn % 5]
    room = sum(length for length, flags in shape if flags)
    more = rising(0x20 + 7 * turn, max(1, (1, room, room + 2)[turn % 3]))
    if turn % 2:
        pool += supplied(story, more)
    ring.offer(turn, shape)
    if not pool:
        ring.waits()
        pool += supplied(story, more)
    ring.is_used(pool[:room])
    return pool[room:]


def supplied(story, content):
    story.tell_device("supply", spelled(content), f"took:{len(content):x}")
    return content


def card(row):
    """Chains wait for frames, or frames for chains; what is sent is taken."""
    story, waiting = Plugged("a_network_card", row, "network:525400123456:5dc"), []
    receive, transmit = both_rings(story, row)
    for turn in range(TURNS):
        received(story, receive, waiting, turn)
        sent(story, transmit, turn)
    return story


def both_rings(story, row):
    """Both queues of a device that is live."""
    receive, transmit = Ring(story, row, 0), Ring(story, row, 1)
    receive.queue.begin()
    receive.queue.make_ready()
    transmit.queue.make_ready()
    receive.queue.go()
    return receive, transmit


def handed(story, frame):
    story.tell_device("frame", spelled(frame), f"took:{len(frame):x}")
    return frame


def first_that_fits(waiting, room):
    """What a chain with so much room gets; those before it are dropped, or all."""
    while waiting:
        found = HEADER + waiting.pop(0)
        if len(found) <= room:
            return found
    return None


def received(story, ring, waiting, turn):
    """Frames that are a byte too long, fit exactly, and are short, before a chain or behind it."""
    shape = RECEIVING[turn % 5]
    most = sum(length for length, flags in shape if flags) - len(HEADER)
    sizes = ([most], [], [most + 1, max(1, most // 2), most], [most + 1])[turn % 4]
    waiting += [handed(story, rising(0x40 + turn + at, size)) for at, size in enumerate(sizes)]
    ring.offer(turn, shape)
    given = first_that_fits(waiting, ring.room)
    for size in (most + 1, most):
        if given is None:
            ring.waits()
            given = first_that_fits([handed(story, rising(0x80 + turn, size))], ring.room)
    ring.is_used(given)


def sent(story, ring, turn):
    """The frame behind the header waits for the host, where there is one."""
    ring.offer(turn, SENDING[turn % 5])
    ring.is_used(b"")
    frame = ring.readable[len(HEADER):]
    story.tell_device("take", "", f"b:{spelled(frame)}")
    if frame:
        story.tell_device("take", "", "b:-")


def console(row):
    """Chains wait for what is typed, or that for chains; output of one, two and three chains is taken at once."""
    story, pending, output = Plugged("a_console", row, "console:50:19"), b"", b""
    receive, transmit = both_rings(story, row)
    for turn in range(TURNS):
        pending = filled(story, receive, pending, turn)
        transmit.offer(turn, SENDING[turn % 5])
        transmit.is_used(b"")
        output += transmit.readable
        if turn % 6 in (0, 2, 5):
            story.tell_device("take", "", f"b:{spelled(output)}")
            story.tell_device("take", "", "b:-")
            output = b""
    return story


def disk(row):
    """One request after another: the host does it, or it fails, where it asks for anything."""
    story = Plugged("a_disk", row, f"{DISK} {IDENTITY.hex()} {1 + row[1]}")
    ring = Requests(story, row, 0)
    ring.queue.bring_up()
    for turn in range(TURNS):
        kind = ring.request(turn)
        if turn % 5 == 3:
            ring.is_answered(21, 0, IDENTITY)
        elif turn % 5 == 4:
            ring.is_answered(0, 1, b"\xff" * 512)
        else:
            hosted(story, ring, turn, kind)
    return story


def hosted(story, ring, turn, kind):
    """The request waits for the host, whose third one fails."""
    ring.waits()
    story.tell_device("dio", "1 done", "idle")
    is_done, data = turn % 3 < 2, rising(turn, 512) if kind == IN else b""
    if data:
        story.put(ring.chain[1].address, data)
    story.tell_device("dio", "0 done" if is_done else "0 failed", "done")
    ring.is_answered(ring.room if is_done or kind != IN else 0, 0 if is_done else 1, data)
