"""A notification that one service doesn't give isn't owed by a later one: what a driver wants counts of each service alone."""
from .actions import event_at, serves
from .by_hand import up, written_out
from .drivers import QUEUE_READY, QUEUE_SEL, number
from .follows import Guest, Life, Setup
from .histories import LEGS, outside
from .in_flight import Asking
from .restored import ONE
from .saved import restore, saved

TITLE = "Notifications that nobody owes"
HOW = ("The driver wants no notification, by its flags or by an event that doesn't come, while one to three chains are served. Something "
       "comes between; then it wants one, of a place that was passed or of the next. A service of nothing tells it nothing, and the next "
       "chain what that service passed.")
COLUMNS = ("What comes between", "Of which queue")
FOLDERS = {"owed": "Services of nothing behind those that told the driver nothing, and the chain behind."}

QUEUES = {"disk": ("b", 0), "receive": ("c", 0), "transmit": ("c", 1)}


# --- what comes between

def nothing(guest, window, index):
    """Nothing."""


def acknowledged(guest, window, index):
    """An acknowledgement."""
    guest.acknowledge(window)


def notified_of_nothing(guest, window, index):
    """A service of nothing while no notification is wanted."""
    guest.notify(window, index)


def the_other_queue(guest, window, index):
    """A chain of another queue, which is told."""
    serves(guest, *(LEGS["c"] if window == "b" else ("c", 1 - index)))


def stopped_and_ready(guest, window, index):
    """The queue is stopped and made ready again."""
    ring = guest.ring(window, index)
    guest.write(window, QUEUE_SEL, index)
    guest.write(window, QUEUE_READY, 0)
    guest.put(ring.areas[1], bytes(4))
    if ring.is_packed:
        guest.put(ring.areas[0], bytes(16 * ring.number))
    guest.write(window, QUEUE_READY, 1)


def restored(guest, window, index):
    """The slot is saved and restored."""
    restore(guest, saved(guest))


def reset(guest, window, index):
    """A reset, and the window comes up again."""
    guest.bring_up(window, guest.setup)


def reset_behind_a_fault(guest, window, index):
    """A fault, a reset, and the window comes up again."""
    outside(guest, window, index)
    guest.type(b"f") if (window, index) == ("c", 0) else guest.notify(window, index)
    guest.bring_up(window, guest.setup)


def sized_and_typed(guest, window, index):
    """A resize, and an input of no bytes."""
    guest.resize(0x20 + guest.turn % 64, 9)
    guest.type(b"")


MEANWHILE = [nothing, acknowledged, notified_of_nothing, the_other_queue, stopped_and_ready, restored, reset, reset_behind_a_fault,
             sized_and_typed]


def stories():
    yield by_hand()
    for leg in QUEUES:
        for is_packed in (False, True):
            for is_rich in (False, True):
                yield of(leg, Setup(is_rich, is_packed, 4, 0), False)
                if leg == "disk":
                    yield of(leg, Setup(is_rich, is_packed, 4, 0), True)


def by_hand():
    """The flags say no, then yes: the service of nothing sets no bit, the next chain does."""
    return written_out("owed/flags_of_a_transmit_queue_by_hand",
                       "A text goes out without a notification. The driver then wants them: a service of nothing tells it nothing.", f"""
        {up(index=1)}
        mw 0 80005000 6162 > 0 done - 0 0
        mw 0 80001000 00500080000000000100000000000000 > 0 done - 0 0
        mw 0 80001010 01500080000000000100000000000000 > 0 done - 0 0
        mw 0 80002000 010001000000 > 0 done - 0 0
        w 0 c 050 4 00000001 > 0 done 61 0 0
        mw 0 80002000 0000 > 0 done - 0 0
        w 0 c 050 4 00000001 > 0 done - 0 0
        mr 0 80003002 2 > 0 b:0100 - 0 0
        mw 0 80002002 020000000100 > 0 done - 0 0
        w 0 c 050 4 00000001 > 0 done 62 0 1
        mr 0 80003002 2 > 0 b:0200 - 0 1
        """)


def of(leg, setup, is_hosted):
    window, index = QUEUES[leg]

    def script(life):
        guest = (Asking if is_hosted else Guest)(life)
        guest.bring_up("c" if window == "b" else "b", setup)
        for turn, meanwhile in enumerate(MEANWHILE):
            for count in (1, 2, 3):
                for away in (-1, -count, 0, 1, None) if setup.rich else (None,):
                    once(guest, window, index, setup, meanwhile, count, away)

    kind, features = "packed" if setup.packed else "split", "all_features" if setup.rich else "no_feature"
    device = f"{'hosted_' if is_hosted else ''}{leg}"
    return Life(f"owed/{kind}_{device}_with_{features}",
                f"A {device.replace('_', ' ')} queue tells nothing; then its driver wants a notification.", script, [ONE], hosted=is_hosted,
                shows=[("each of nine", f"{device.replace('_', ' ')}, {kind}")])


def wants(guest, window, index, is_wanted, away):
    """The driver's flags, or its event, so many places behind the next one."""
    ring = guest.ring(window, index)
    if away is not None:
        event_at(guest, window, index, away)
    if away is None or not ring.is_packed:
        guest.put(ring.areas[1] + (2 if ring.is_packed else 0), number(0 if is_wanted else 1, 2))


def once(guest, window, index, setup, meanwhile, count, away):
    """Chains that tell nothing, what comes between, a service of nothing, and a chain."""
    guest.acknowledges = False
    guest.bring_up(window, setup)
    for _ in range(count):
        wants(guest, window, index, False, None if away is None else guest.ring(window, index).number)
        serves(guest, window, index)
    meanwhile(guest, window, index)
    wants(guest, window, index, True, away)
    guest.notify(window, index)
    if (window, index) == ("c", 0):
        guest.type(b"")
    serves(guest, window, index)
    guest.acknowledge(window)
