"""Boards with disks of both kinds: requests of a guest on the image, and of one whose disk the host serves, in each other's way."""
from .actions import event_at, text
from .drivers import NOTIFY, QUEUE_READY, STATUS, WRITE, Buffer
from .first_rows import of_both_kinds
from .follows import DATA, EXTENDED, HEADER, Guest, Life, Setup, Wide
from .guests import EIGHT
from .histories import outside
from .in_flight import REQUESTS, Asking, kind_of
from .requests import FLUSH, GET_ID, IN, OUT, header
from .saved import restore, saved
from .story import SECTOR, Story, plain_image

TITLE = "Disks of both kinds"
HOW = ("A guest on an extent of the image stands beside one whose disk the host serves. Each kind of request of one is in flight while the other "
       "makes each kind, is reset, falls or is restored; and is made at once while the other has something on offer, in flight or broken. "
       "Of 64 slots each is of either kind.")
COLUMNS = ("What", "Where")
FOLDERS = {"beside_a_flight": "What a guest on the image does while each request of a hosted disk is in flight.",
           "beside_an_extent": "Each request of a guest on the image beside a hosted disk in each state.",
           "among_both_kinds": "Slots of both kinds among 64, and four guests in each other's flights."}

SECTORS = 12
# The image has the sectors of the first extent elsewhere than the host's disk begins.
EXTENT, HOSTED = Wide(0x80000000, 0x10000, start=3), Wide(0x80000000, 0x10000, start=4, disk="host:1")
MORE = {"an_identity": (header(GET_ID), (20,)), "no_type": (header(5), (4,)), "a_read_past_the_end": (header(IN, 8), (SECTOR,)),
        "a_read_of_eight_sectors": (header(IN), (8 * SECTOR,))}
KNOWN = {**REQUESTS, **MORE}


class Both(Asking):
    """A driver on either kind of disk; its host completes when it is told to where `completes` is false."""

    requests, completes = KNOWN, True

    def notify(self, window, index):
        return super().notify(window, index) if self.completes else Guest.notify(self, window, index)

    def goes_on(self):
        """What is in flight is done or failed, and the guest comes up again where it isn't."""
        self.completes = True
        while self.flight():
            self.finish(None)
        seen(self)
        self.acknowledge("b")
        comes_up(self)


def comes_up(guest):
    """The window comes up again where it isn't live, or its queue was stopped."""
    if guest.window("b").status != 0xf or not guest.queue("b", 0).ready:
        guest.bring_up("b", guest.setup)


def stories():
    yield of_both_kinds()
    for turn, name in enumerate(REQUESTS):
        for is_packed in (False, True):
            yield beside_a_flight(turn, name, is_packed)
    for turn, name in enumerate(KNOWN):
        for is_packed in (False, True):
            yield beside_an_extent(turn, name, is_packed)
    for is_packed in (False, True):
        yield with_failing_calls(is_packed)
        yield four_guests(is_packed)
    for is_turned in (False, True):
        yield among_64("that_begin_outside", is_turned, lambda slot: slot % 2, lambda slot, kinds: (1 << 63) + slot)
        yield among_64("that_share_later_sectors", is_turned, ones, lambda slot, kinds: extent_beside(slot, kinds, 1))
        yield among_64("that_share_earlier_sectors", is_turned, ones, lambda slot, kinds: extent_beside(slot, kinds, -1))
    yield from map(too_large, range(55, 64))
    yield from map(too_large_among_64, EIGHT)
    yield notified_apart()


def board(turn):
    """The slots, and which of them is over the image."""
    return ([HOSTED, EXTENT], 1) if turn % 2 else ([EXTENT, HOSTED], 0)


def both(life, at, setup, other=None):
    """The guest on the image, and the one whose disk the host serves, both up."""
    guests = Both(life, slot=at), Both(life, slot=1 - at)
    for guest, one in zip(guests, (setup, other or setup)):
        guest.bring_up("b", one)
        guest.bring_up("c", one)
    return guests


# --- what the guest on the image does meanwhile

def asking(name):
    return lambda guest: guest.asks(name)


def offers(guest):
    """A chain that is served with the next one."""
    guest.request(header(FLUSH), notifies=False)


def falls(guest):
    outside(guest, "b", 0)
    guest.notify("b", 0)
    guest.read("b", STATUS)


def is_reset(guest):
    guest.reset("b")
    guest.begin("b", guest.setup)


def stops(guest):
    guest.write("b", QUEUE_READY, 0)
    guest.write("b", NOTIFY, 0)
    guest.write("b", QUEUE_READY, 1)


def is_restored(guest):
    restore(guest, saved(guest).but(lambda snapshot: setattr(snapshot, "size", [7, guest.turn % 100])))


def uses_the_console(guest):
    text(guest, 4)
    guest.type(b"typed")
    guest.resize(guest.turn, 9)


def completes_nothing(guest):
    guest.do("io", "0 done")
    guest.do("io", "0 failed")


def held_and_dropped(guest):
    """Over an image there is nothing to hold, to release or to drop."""
    for word in ("hold", "drop", "release"):
        guest.do(word)


ACTS = [*map(asking, KNOWN), offers, asking("a_read"), falls, is_reset, asking("a_write"), stops, is_restored, uses_the_console, completes_nothing,
        held_and_dropped, asking("a_flush")]


def seen(guest):
    """Nothing of a ring moves by what another guest does."""
    guest.ring("b", 0).look()
    guest.look(guest.done, 1)
    guest.look(guest.room + DATA, 16)
    guest.read("b", 0x060)


def beside_a_flight(turn, name, is_packed):
    slots, at = board(turn)

    def script(life):
        setup = Setup(turn % 2 == 0, is_packed, 8, 0)
        guest, host = both(life, at, setup)
        for act in ACTS:
            host.meanwhile = lambda _, act=act: in_the_flight(guest, host, act)
            for host.completed in (0, 2):
                host.asks(name)

    def in_the_flight(guest, host, act):
        comes_up(guest)
        act(guest)
        seen(host)

    return Life(f"beside_a_flight/{kind_of(is_packed)}_{name}", f"{name.replace('_', ' ').capitalize()} in flight, and what a guest on the image does.",
                script, slots, image=plain_image(SECTORS), cache=2, shows=[(f"{name.replace('_', ' ')} in flight", "beside a guest on the image")])


# --- what the hosted guest has, while the other's requests are made

def nothing(host):
    """The window is as after a reset."""
    host.reset("b")


def on_offer(host):
    offers(host)


def in_flight(name):
    def state(host):
        host.completes = False
        host.asks(name)
    return state


STATES = [nothing, on_offer, falls, stops, is_restored, *map(in_flight, REQUESTS)]


def beside_an_extent(turn, name, is_packed):
    slots, at = board(turn + 1)

    def script(life):
        guest, host = Both(life, slot=at), Both(life, slot=1 - at)
        for one, setup in ((guest, Setup(turn % 2 == 1, is_packed, 4, 1)), (host, Setup(turn % 3 == 0, not is_packed, 8, 0))):
            one.bring_up("b", setup)
            one.bring_up("c", setup)
        for state in STATES:
            state(host)
            for _ in range(2):
                guest.asks(name)
            seen(host)
            host.goes_on()

    return Life(f"beside_an_extent/{kind_of(is_packed)}_{name}", f"{name.replace('_', ' ').capitalize()} of a guest on the image, beside a hosted disk.",
                script, slots, image=plain_image(SECTORS), cache=3, shows=[(f"{name.replace('_', ' ')} of a guest on the image", "beside a hosted disk")])


def with_failing_calls(is_packed):
    """Every third call of the image fails; no operation is one."""
    slots, at = board(is_packed)

    def script(life):
        guest, host = both(life, at, Setup(False, is_packed, 8, 0))
        for name in REQUESTS:
            for other in REQUESTS:
                host.meanwhile = lambda _, other=other: guest.asks(other)
                host.asks(name)

    return Life(f"beside_a_flight/{kind_of(is_packed)}_where_calls_of_the_image_fail", "Each third call of the image fails beside each request in flight.",
                script, slots, image=plain_image(SECTORS), cache=2, fails=list(range(2, 900, 3)),
                shows=[("failing calls of the image", "beside each request in flight")])


def four_guests(is_packed):
    """Two guests on the image and two hosted ones: flights end in turned order, and beside each each other request is made."""
    slots = [Wide(0x80000000, 0x10000, start=0, count=4, disk="host:1"), Wide(0x80000000, 0x10000, start=0, count=4),
             Wide(0x80000000, 0x10000, start=4, count=8), Wide(0x80000000, 0x10000, start=4, count=8, disk="host:1")]

    def script(life):
        hosts, guests = [Both(life, slot=at) for at in (0, 3)], [Both(life, slot=at) for at in (1, 2)]
        for turn, one in enumerate([*hosts, *guests]):
            one.bring_up("b", Setup(turn % 2 == 0, is_packed == (turn % 3 == 0), 4, 0))
        for turn, name in enumerate(REQUESTS):
            for other in REQUESTS:
                for host, asked in zip(hosts, (name, other)):
                    host.completes = False
                    host.asks(asked)
                for guest in guests:
                    guest.asks(other if guest.slot == 1 else name)
                for host in hosts[::1 if turn % 2 else -1]:
                    host.goes_on()

    return Life(f"among_both_kinds/four_{kind_of(is_packed)}_guests", "Two guests on the image and two hosted ones, in each other's flights.", script, slots,
                image=plain_image(SECTORS), cache=2, shows=[("each two requests", "in flight beside two guests on the image")])


def ones(slot):
    """Whether a slot's number has an odd number of ones."""
    return bin(slot).count("1") % 2


def extent_beside(slot, kinds, step):
    """Where the next slot that is over the image has its sector, in one direction or the other."""
    return next(other % 64 for other in range(slot + step, slot + 64 * step, step) if kinds[other % 64] == "image")


def among_64(what, is_turned, kind_of_slot, start_of):
    """Each slot of 64 asks or is served: of which kind it is, its number says; turned, it is of the other. `start_of` is where the
    lines of hosted disks say that these begin."""
    kinds = ["image" if kind_of_slot(slot) == int(is_turned) else "host:1" for slot in range(64)]
    starts = [slot if kind == "image" else start_of(slot, kinds) for slot, kind in enumerate(kinds)]
    slots = [Wide(0x80000000 + 0x1000 * slot, 0x5000, start=starts[slot], count=1, disk=kind) for slot, kind in enumerate(kinds)]

    def script(life):
        guests = [Both(life, slot=slot) for slot in range(64)]
        for guest in guests:
            guest.read("b", 0x100)
            guest.bring_up("b", Setup(size=4))
            guest.completes = False
            guest.put(guest.room + HEADER, header(OUT if guest.slot % 3 else IN))
            data = Buffer(guest.room + DATA, SECTOR, 0 if guest.slot % 3 else WRITE)
            guest.put(guest.room + DATA, bytes([0xa0 ^ guest.slot]) * SECTOR)
            guest.put(guest.done, b"\xee")
            guest.offer("b", 0, [Buffer(guest.room + HEADER, 16), data, Buffer(guest.done, 1, WRITE)])
        for guest in guests:
            guest.notify("b", 0)
        for guest in guests[::-1]:
            guest.do("io", "0 failed" if guest.slot % 5 == 0 else "0 done")
            guest.look(guest.done, 1)
            guest.look(guest.room + DATA, 2)
            guest.ends("b", 0)

    return Life(f"among_both_kinds/64_slots_{what}{'_turned' if is_turned else ''}", "Each of 64 slots is over the image or the host's.", script, slots,
                image=plain_image(64), cache=1, shows=[("of which kind a slot is", "each of 64")])


class Refused(Story):
    """A board of an extended trace that is refused."""

    def head(self):
        return [EXTENDED, f"cache {self.cache:x}"]


def too_large(bit):
    """A hosted disk of so many sectors is ExtentOutside, wherever the extent beside it lies."""
    return Refused(f"among_both_kinds/a_hosted_disk_of_2_to_{bit}_sectors", "A hosted disk has fewer than 2^55 sectors.",
                   [EXTENT, Wide(0x80000000, 0x10000, start=0, count=1 << bit, disk="host:1")], fault="board ExtentOutside", image=plain_image(SECTORS),
                   shows=[("sectors of a hosted disk", "bits 55 to 63")])


def too_large_among_64(slot):
    """One hosted disk of 64 is too large, the others aren't."""
    slots = [Wide(0x80000000, 0x1000, count=1 << 55 if at == slot else (1 << 55) - 1, disk="host:1") for at in range(64)]
    return Refused(f"among_both_kinds/a_hosted_disk_that_is_too_large_in_slot_{slot}", "Each hosted disk is judged.", slots,
                   fault="board ExtentOutside", shows=[("sectors of a hosted disk", "each of eight slots")])


def notified_apart():
    """What one driver says of notifications counts for its own disk alone."""
    def script(life):
        guest, host = both(life, 0, Setup(True, False, 4, 0), Setup(True, True, 4, 0))
        for away in (0, 1, 8):
            for other in (0, 1, 8):
                event_at(guest, "b", 0, away)
                event_at(host, "b", 0, other)
                host.meanwhile = lambda _: guest.asks("a_read")
                host.asks("a_read")

    return Life("beside_a_flight/events_of_both", "Each driver names an event of its own.", script, [EXTENT, HOSTED], image=plain_image(SECTORS), cache=2,
                shows=[("events that both drivers name", "0, 1 and 8 places away")])
