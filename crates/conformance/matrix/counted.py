"""Jumps from each place of a ring, evictions from caches of 3 to 9 sectors, and 65,537 accesses of a kind."""
from .by_hand import up, written_out
from .cuts import pattern
from .drivers import FAULT, INTERRUPT_ACK, QUEUE_SEL, SERVED, STATUS, Buffer, Split, number
from .follows import Guest, Life, Setup
from .requests import FLUSH, IN, IOERR, OK, OUT, WRITE_ZEROES, header, segment
from .story import BASE, SECTOR, Disagrees, Slot, Story

TITLE = "Jumps, evictions and accesses by the thousand"
HOW = ("The available idx jumps by more than the ring has, from each place of rings of three sizes, in each of three rounds. A cache is filled, each of its sectors "
       "is used once more in each way, and new ones come: which are still kept shows by the calls of the image that fail. Registers and memory are read and "
       "written 65,537 times.")
COLUMNS = ("What", "How often, or where")
FOLDERS = {"counted": "Jumps from each place of a ring, and 65,537 accesses of a kind.",
           "counted_cache": "Which sectors a cache of 3 to 9 keeps, by calls of the image that fail."}

JUMPS = (1, 2, 7, 0x7ffe, 0x7fff, 0x8000)
CAPACITIES, MANY = (3, 4, 5, 6, 7, 9), 65537


def stories():
    yield by_hand()
    for size in (4, 8, 16):
        yield shown(f"jumps, a ring of {size}", "from each place of three rounds", jumps(size))
    for capacity in CAPACITIES:
        yield shown("evictions", f"a cache of {capacity}", evictions(capacity))
    for name, events in OFTEN.items():
        yield shown(name.replace("_", " "), "65,537", often(name, events))


def shown(what, where, story):
    story.shows = [(what, where)]
    return story


def by_hand():
    """Three chains of a ring of 4, and then an idx that is 5 further."""
    return written_out("counted/a_jump_from_the_second_half_by_hand", "A ring of 4 is at its place 3, and the idx says that five chains are on offer.", up(1) + """
        mw 0 80004000 74 > 0 done - 0 0
        mw 0 80001000 00400080000000000100000000000000 > 0 done - 0 0
        mw 0 80002002 03000000000000000000 > 0 done - 0 0
        w 0 c 050 4 00000001 > 0 done 747474 0 1
        mr 0 80003002 2 > 0 b:0300 - 0 1
        mw 0 80002002 0800 > 0 done - 0 1
        w 0 c 050 4 00000001 > 0 done - 0 3
        r 0 c 070 4 > 0 v:0000004f - 0 3
        mr 0 80003002 2 > 0 b:0300 - 0 3
        """)


# --- jumps

def jumps(size):
    """One chain is all that is offered, as often as wanted; then there are too many, and then as many as may be."""
    story = Story(f"counted/jumps_in_a_ring_of_{size}", "From each place of a ring the idx jumps over more chains than it has; as many as it has are served.")
    queue = Split(story, "c", 1, size).bring_up()
    story.put(BASE, b"t")
    queue.put_chain([Buffer(BASE, 1)])
    queue.put(queue.areas[1], bytes(4 + 2 * size))
    for place in range(3 * size):
        for jump in JUMPS if place < 2 * size else JUMPS[:2]:
            comes(queue, place)
            queue.put(queue.areas[1] + 2, number((place + size + jump) % 65536, 2))
            queue.notify(FAULT)
            queue.look(queue.areas[2] + 2, 2, number(place, 2)) if place else None
            queue.bring_up_again()
        comes(queue, place)
        comes(queue, size)
        queue.write(STATUS, 0)
        queue.bring_up_again()
    return story


def comes(queue, count):
    """So many chains are served, as many at once as the ring has."""
    while count:
        now = min(count, queue.size)
        queue.offered += now
        queue.put(queue.areas[1] + 2, number(queue.offered, 2))
        queue.notify(output=b"t" * now)
        count -= now


# --- evictions

class Kept:
    """The sectors that a cache keeps, the one that goes first at the front."""

    def __init__(self, capacity):
        self.capacity, self.sectors = capacity, []

    def use(self, sector):
        self.sectors = ([one for one in self.sectors if one != sector] + [sector])[-self.capacity:]

    def forget(self, sector):
        self.sectors = [one for one in self.sectors if one != sector]


def evictions(capacity):
    """Each place of the cache is read, written and zeroed; then one to three new sectors come, and each sector is read while all calls fail."""
    def script(life):
        guest, kept = Guest(life), Kept(capacity)
        guest.bring_up("b", Setup())
        for place in range(capacity):
            for turn, use in enumerate((read, write, zero)):
                for sector in range(capacity):
                    read(guest, kept, sector)
                use(guest, kept, place)
                for new in range(1 + (place + turn) % 3):
                    read(guest, kept, capacity + new)
                read_all(guest, kept, range(capacity + 3))

    count = capacity + 3
    story = Life(f"counted_cache/a_cache_of_{capacity}", "A cache is filled, one of its sectors is used in each way, and new ones come: which are kept shows where all calls fail.",
                 script, [Slot(count=count)], image=b"".join(map(pattern, range(count))), cache=capacity, fails=[])
    return story


def read(guest, kept, sector, status=OK):
    guest.request(header(IN, sector), SECTOR)
    says(guest, status)
    if status == OK:
        kept.use(sector)


def write(guest, kept, sector):
    guest.request(header(OUT, sector) + pattern(sector + guest.turn))
    says(guest, OK)
    kept.use(sector)


def zero(guest, kept, sector):
    guest.request(header(WRITE_ZEROES) + segment(sector, 1))
    says(guest, OK)
    kept.forget(sector)


def says(guest, status):
    """The last request's status, by the rules of the worked scenarios."""
    if guest.memory().number(guest.done, 1) != status:
        raise Disagrees(f"{guest.life.name}: request {guest.turn} has another status than {status}")


def read_all(guest, kept, sectors):
    """All calls fail: only kept sectors can be read. Then a flush is a call that does not."""
    disk = guest.life.disk
    first = disk.calls
    disk.fails.update(range(first, first + len(sectors)))
    for sector in sectors:
        read(guest, kept, sector, OK if sector in kept.sectors else IOERR)
    disk.fails.difference_update(range(disk.calls, first + len(sectors)))
    guest.life.fails = sorted(disk.fails)
    guest.request(header(FLUSH))


# --- by the thousand

def often(name, events):
    story = Story(f"counted/{name}", "The same accesses come 65,537 times: each time the same comes of them.", [Slot(identity=bytes(20))])
    for turn in range(MANY):
        events(story, turn)
    queue = Split(story, "c", 1, 4).bring_up()
    story.put(BASE, b"then")
    queue.offer([Buffer(BASE, 4)])
    queue.notify(output=b"then")
    return story


def accesses_of_registers(story, turn):
    """A register is read or written, by turns."""
    if turn % 2:
        story.read("b", STATUS, 0)
    else:
        story.write("b", (QUEUE_SEL, INTERRUPT_ACK)[turn // 2 % 2], 0)


def accesses_of_memory(story, turn):
    """A byte is written, and read."""
    if turn % 2:
        story.look(BASE + 0x100, 1, bytes([turn // 2 % 7]))
    else:
        story.put(BASE + 0x100, bytes([turn // 2 % 7]))


OFTEN = {"accesses_of_registers": accesses_of_registers, "accesses_of_memory": accesses_of_memory}
