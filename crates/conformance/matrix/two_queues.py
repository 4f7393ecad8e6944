"""A console's two queues that differ in one thing: each kind of text and input over both, in turns."""
import dataclasses

from .actions import event_at, offer_room, see_room, serves, text
from .first_rows import of_two_queues
from .drivers import NOTIFY, QUEUE_READY, QUEUE_SEL, STATUS, WRITE, Buffer, number
from .follows import ROOM, TEXT, Guest, Life, Setup
from .histories import outside
from .story import Slot

TITLE = "A console's two queues"
HOW = ("The two queues of a console differ in one thing: their size, where they lie, whether they take tables, what they say of "
       "notifications, how far they have come, whether they are ready. Texts, typed bytes and notifies go over both in turns, "
       "and each queue goes by what is its own.")
COLUMNS = ("How they differ", "Rings")
FOLDERS = {"two_queues": "A console whose two queues differ in one thing, each used in turns with the other."}


@dataclasses.dataclass(frozen=True)
class Differing:
    """What is the receive queue's and what the transmit queue's; `before` comes once both are live."""

    sizes: tuple = (4, 4)
    homes: tuple = (0, 0)
    rich: bool = False
    tables: tuple = (False, False)
    flags: tuple = (None, None)
    events: tuple = (None, None)
    before: object = None


class Console(Guest):
    """A console whose queues are brought up each in its own way."""

    def __init__(self, life, differing, is_packed):
        super().__init__(life)
        self.differing, self.is_packed = differing, is_packed

    def setup_of(self, index):
        return Setup(self.differing.rich, self.is_packed, self.differing.sizes[index], self.differing.homes[index])

    def come_up(self, order=(0, 1)):
        self.reset("c")
        for index in order:
            self.clear("c", self.setup_of(index))
        self.accept("c", self.setup_of(0))
        for index in order:
            self.make_ready("c", index, self.setup_of(index))
        self.go("c")

    def come_up_in_turns(self):
        """Each register of one queue is written, then the same one of the other."""
        self.reset("c")
        setups = [self.setup_of(index) for index in (0, 1)]
        for setup in setups:
            self.clear("c", setup)
        self.accept("c", setups[0])
        values = [self.values("c", index, setups[index]) for index in (0, 1)]
        for offset in values[0]:
            for index in (0, 1):
                self.write("c", QUEUE_SEL, index)
                self.write("c", offset, values[index][offset])
        self.go("c")

    # --- what both queues do in turns

    def works(self):
        """Texts and typed bytes in turns; a chain of one queue stands on offer while the other is notified."""
        for _ in range(3):
            for index in (0, 1):
                self.wants(index)
                serves(self, "c", index, self.differing.tables[index])
            self.wants(1)
            self.text_while_room_waits()
        self.notifies_the_other()

    def wants(self, index):
        """What the driver says of notifications, for the chain that comes."""
        flag, away = self.differing.flags[index], self.differing.events[index]
        ring = self.ring("c", index)
        if flag is not None:
            self.put(ring.areas[1] + (2 if ring.is_packed else 0), number(flag, 2))
        if away is not None:
            event_at(self, "c", index, away)

    def text_while_room_waits(self):
        """Room is on offer while a text goes out, then it takes what is typed."""
        self.wants(0)
        offer_room(self, 2, self.differing.tables[0])
        text(self, 2, self.differing.tables[1])
        self.type(b"zyx")
        see_room(self)
        self.notify("c", 0)
        offer_room(self, 4)
        self.notify("c", 0)
        see_room(self)

    def notifies_the_other(self):
        """A chain of each is on offer, and each is notified while the other's stands."""
        for first in (0, 1):
            self.type(b"q")
            self.offer("c", 0, [Buffer(self.room + ROOM, 1, WRITE)])
            self.offer("c", 1, [Buffer(self.room + TEXT, 1)])
            for index in (first, 1 - first):
                self.write("c", NOTIFY, index)
                for either in (0, 1):
                    self.ends("c", either)

    # --- what comes before

    def goes_ahead(self, index):
        """One queue has come five chains further."""
        for _ in range(5):
            serves(self, "c", index)

    def both_go_on(self):
        """Each queue has come two or three chains far."""
        for which in (0, 1, 0, 1, 1):
            serves(self, "c", which)

    def stops(self, index):
        """One queue is stopped while the other is at a later place."""
        self.both_go_on()
        self.write("c", QUEUE_SEL, index)
        self.write("c", QUEUE_READY, 0)
        self.ends("c", index)

    def starts_again(self, index):
        """One queue is stopped and begins anew."""
        self.stops(index)
        ring = self.ring("c", index)
        self.put(ring.areas[1], bytes(4))
        if self.is_packed:
            self.put(ring.areas[0], bytes(16 * ring.number))
        self.write("c", QUEUE_READY, 1)

    def faults(self, index):
        """A fault of one queue ends both."""
        outside(self, "c", index)
        self.type(b"f")
        self.write("c", NOTIFY, index)
        self.read("c", STATUS)


def both_ways(one, other):
    return ((one, other), (other, one))


def of_each(step):
    return [lambda console, index=index: step(console, index) for index in (0, 1)]


def with_events(**more):
    """Each queue's event is at the place that comes."""
    return Differing(rich=True, events=(0, 0), **more)


# What differs.
WAYS = {
    "sizes": [Differing(sizes=pair) for pair in both_ways(1, 8) + both_ways(2, 4) + both_ways(4, 32)],
    "sizes_and_events": [with_events(sizes=pair) for pair in both_ways(2, 8) + both_ways(4, 16)],
    "tables": [Differing(rich=True, tables=pair) for pair in both_ways(True, False)],
    "tables_and_sizes": [Differing(rich=True, sizes=pair, tables=(True, True)) for pair in both_ways(1, 4)],
    "flags": [Differing(flags=pair) for pair in both_ways(0, 1)],
    "events": [Differing(rich=True, events=pair) for pair in both_ways(0, 8)],
    "flags_and_events": [with_events(flags=pair) for pair in both_ways(0, 1)],
    "places_of_areas": [Differing(homes=pair) for pair in both_ways(0, 1)],
    "how_far_they_are": [Differing(before=step) for step in of_each(Console.goes_ahead)],
    "how_far_they_are_with_events": [with_events(before=step) for step in of_each(Console.goes_ahead)],
    "one_that_is_stopped": [Differing(before=step) for step in of_each(Console.stops)],
    "one_that_began_anew": [Differing(before=step) for step in of_each(Console.starts_again)],
    "one_that_began_anew_with_events": [with_events(before=step) for step in of_each(Console.starts_again)],
    "a_fault_of_one": [Differing(before=step) for step in of_each(Console.faults)],
}


def stories():
    yield of_two_queues()
    for name, ways in WAYS.items():
        for is_packed in (False, True):
            for number_of, differing in enumerate(ways):
                yield story_of(name, number_of, differing, is_packed)
    for is_packed in (False, True):
        for index in (0, 1):
            for has_tables in (False, True):
                yield one_alone(index, is_packed, has_tables)
        yield across_four_gigabytes(is_packed)
        yield set_up_in_turns(is_packed)


def story_of(name, number_of, differing, is_packed):
    def script(life):
        console = Console(life, differing, is_packed)
        console.come_up(order=(0, 1) if number_of % 2 == 0 else (1, 0))
        if differing.before:
            differing.before(console)
        console.works()

    kind = "packed" if is_packed else "split"
    return Life(f"two_queues/{kind}_{name}_{number_of + 1}",
                f"Both queues in turns; they differ in this: {name.replace('_', ' ')}.", script,
                shows=[(name.replace("_", " "), "split, packed")])


def one_alone(index, is_packed, has_tables):
    """One queue is never made ready; then it is, while the other is at work."""
    def script(life):
        tables = Differing(sizes=(4, 2), rich=has_tables, tables=(has_tables, has_tables))
        console = Console(life, tables, is_packed)
        console.come_up(order=(1 - index,))
        console.works()
        console.clear("c", console.setup_of(index))
        console.make_ready("c", index, console.setup_of(index))
        console.works()

    kind, which = "packed" if is_packed else "split", ("receive", "transmit")[index]
    return Life(f"two_queues/{kind}_no_{which}_queue_at_first" + ("_with_tables" if has_tables else ""),
                f"Only the other queue is ready; then the {which} queue is made ready too.", script,
                shows=[("one that comes later", "split, packed")])


def across_four_gigabytes(is_packed):
    """One queue's areas lie below 2^32, the other's above."""
    def script(life):
        for homes in both_ways(0, 1):
            console = Console(life, Differing(homes=homes), is_packed)
            console.come_up()
            console.works()

    kind = "packed" if is_packed else "split"
    return Life(f"two_queues/{kind}_areas_on_both_sides_of_2_to_32",
                "One queue's areas lie below 2^32, the other's above.", script,
                [Slot(base=0xffffe000, length=0x8000)], shows=[("high halves of addresses", "split, packed")])


def set_up_in_turns(is_packed):
    """The registers of both queues are written in turns."""
    def script(life):
        for sizes in ((4, 4), (2, 8)):
            console = Console(life, Differing(sizes=sizes, homes=(0, 1)), is_packed)
            console.come_up_in_turns()
            console.works()

    kind = "packed" if is_packed else "split"
    return Life(f"two_queues/{kind}_registers_written_in_turns", "Each register of one queue is written, then the other queue's.", script,
                shows=[("when each register is written", "split, packed")])
