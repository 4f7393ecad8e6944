"""Two disks that the host serves: a guest's request is in flight while the other guest does each thing, and has requests of its own."""
from .actions import ACTIONS
from .drivers import STATUS, WRITE, Buffer
from .first_rows import BEGINS, FIRST_QUEUE, GOES, first
from .follows import Guest, Life, Setup, Wide
from .histories import LIVES
from .in_flight import REQUESTS, Asking
from .saved import restore, saved

TITLE = "Beside a request in flight"
HOW = ("Two slots whose disks the host serves. A request of the first is in flight while the second takes each action, is restored, or has a "
       "request in flight too, which is completed before that of the first or behind it. Neither sees the other.")
COLUMNS = ("What the second does", "While the first has in flight")
FOLDERS = {"beside_flight": "What a guest does while another one's request is in flight."}

SLOTS = [Wide(0x80000000, 0x10000), Wide(0x80000000, 0x10000, start=3, count=5, identity=b"the other one's disk")]


def stories():
    yield by_hand()
    for turn, name in enumerate(REQUESTS):
        for is_packed in (False, True):
            yield actions_beside(turn, name, is_packed)
    for is_packed in (False, True):
        for is_turned in (False, True):
            yield both_in_flight(is_packed, is_turned)


def by_hand():
    """A flush of slot 0 is in flight; slot 1 is restored, and its completion finds nothing."""
    lines = """
mw 0 80004000 04000000000000000000000000000000 > 0 done - 0 0
mw 0 80005000 ee > 0 done - 0 0
mw 0 80001000 00400080000000001000000001000100 > 0 done - 0 0
mw 0 80001010 00500080000000000100000002000000 > 0 done - 0 0
mw 0 80002000 000001000000 > 0 done - 0 0
w 0 b 050 4 00000000 > 0 done - 0 0 0=flush:0:0:-
w 1 b 070 4 00000003 > 1 done - 0 0
w 1 b 070 4 00000000 > 1 done - 0 0
w 0 b 070 4 00000000 > 0 busy - 0 0
io 1 0 done > 1 idle - 0 0
mr 0 80005000 1 > 0 b:ee - 0 0
io 0 0 failed > 0 done - 1 0
mr 0 80005000 1 > 0 b:01 - 1 0
io 0 0 done > 0 idle - 1 0
r 1 b 070 4 > 1 v:00000000 - 0 0
"""
    return first("beside_flight/a_reset_by_hand", "Slot 1 is reset while a flush of slot 0 is in flight, whose reset waits.",
                 BEGINS + FIRST_QUEUE + GOES + lines, slots=SLOTS, hosted=True)


# --- what the second guest does

def is_restored(guest, window, setup):
    """It is restored, with another size."""
    restore(guest, saved(guest).but(lambda snapshot: setattr(snapshot, "size", [guest.turn % 256, 7])))


def restored_after_a_life(guest, window, setup):
    """It lives, is reset, and restored."""
    snapshot = saved(guest)
    guest.reset("b")
    restore(guest, snapshot)


def a_bad_restore(guest, window, setup):
    """It is given bytes that are no snapshot."""
    guest.do("st", "00")


def completes_nothing(guest, window, setup):
    """A completion of it finds nothing in flight."""
    for verdict in ("done", "failed"):
        guest.do("io", f"0 {verdict}")


def is_held(guest, window, setup):
    """It is held, and what it has on offer is asked, and dropped, behind the release."""
    guest.do("hold")
    begins(guest, "a_flush")
    guest.do("drop")
    guest.do("release")
    guest.do("drop")


def stays_held(guest, window, setup):
    """It is held while the other's request ends."""
    guest.do("hold")


OWN = [is_restored, restored_after_a_life, a_bad_restore, completes_nothing]
# What its host says of it.
SAID = [is_held, stays_held, is_held]
WHAT = [(window, action) for window in "bc" for action in ACTIONS[window].values()] + [("b", action) for action in OWN] \
    + [(("b", "c")[turn % 2], history) for turn, history in enumerate(LIVES.values())]
# Each request has every fourth of these beside it.
SHARE = 4


def guests_of(life, setup, other):
    """Both guests, up."""
    guests = Asking(life), Asking(life, slot=1)
    for guest, one in zip(guests, (setup, other)):
        guest.bring_up("b", one)
        guest.bring_up("c", one)
    return guests


def actions_beside(turn, name, is_packed):
    setup, other = Setup(turn % 2 == 0, is_packed, 4, 0), Setup(turn // 2 % 2 == 0, (turn + is_packed) % 2 == 0, 4, 1)

    def script(life):
        guest, beside = guests_of(life, setup, other)
        guest.acknowledges = beside.acknowledges = False
        for window, action in WHAT[(turn + 2 * is_packed) % SHARE::SHARE] + [("b", action) for action in OWN + SAID]:
            guest.meanwhile = lambda _: acts(beside, window, action, other)
            guest.asks(name)
            guest.acknowledge("b")

    kind = "packed" if is_packed else "split"
    return Life(f"beside_flight/{kind}_{name}", f"{name.replace('_', ' ').capitalize()}, in flight while another guest takes each action.",
                script, SLOTS, hosted=True, shows=[("each action", f"{name.replace('_', ' ')}, {kind}")])


def acts(guest, window, action, setup):
    """The action, and what is seen; a window that isn't live then comes up again."""
    action(guest, window, setup)
    guest.read(window, STATUS)
    guest.do("mr", f"{guest.done:x} 1")
    for one in "bc":
        if guest.window(one).status != 0xf:
            guest.bring_up(one, setup)


# --- requests of both

def begins(guest, name):
    """A request that stays in flight."""
    content, _ = REQUESTS[name]
    at = guest.room + 0x3a00
    guest.put(at, content[:64])
    guest.put(guest.done, b"\xee")
    Guest.offer(guest, "b", 0, [Buffer(at, 16), *([Buffer(at + 16, len(content) - 16)] if 16 < len(content) <= 64 else []),
                                Buffer(guest.done, 1, WRITE)])
    Guest.notify(guest, "b", 0)


def both_in_flight(is_packed, is_turned):
    def script(life):
        guests = guests_of(life, Setup(is_turned, is_packed, 4, 0), Setup(not is_turned, is_packed, 4, 0))
        for first_name in SHORT:
            for second_name in SHORT:
                for verdicts in (("done", "failed"), ("failed", "done")):
                    for guest, name in zip(guests, (first_name, second_name)):
                        begins(guest, name)
                    order = guests[::-1] if is_turned else guests
                    for guest, verdict in zip(order, verdicts):
                        guest.do("io", f"0 {verdict}")
                        for one in guests:
                            one.look(one.done, 1)
                    for guest in guests:
                        guest.ends("b", 0)

    kind, order = "packed" if is_packed else "split", "the_second_first" if is_turned else "in_order"
    return Life(f"beside_flight/both_{kind}_{order}", "Both guests have a request in flight; each completion is its own slot's.", script,
                SLOTS, hosted=True, shows=[("a request of its own", f"each of four, {kind}")])


SHORT = ["a_read_of_nothing", "a_flush", "zeroes", "zeroes_of_no_sector_with_room"]
