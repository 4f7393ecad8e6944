"""Restores in the middle of a bring-up: the driver goes on with its next step, or begins again by a reset."""
from .actions import LEFT_OUT, comes_up_without, goes_on, reads_registers, serves_each
from .drivers import (ACKNOWLEDGE, DRIVER, DRIVER_FEATURES, DRIVER_SEL, FEATURES_OK, QUEUE_SEL, STATUS)
from .first_rows import SNAPSHOT, first
from .follows import INDICES, Guest, Life, Setup, Wide
from .in_flight import Asking
from .restored import BETWEEN, ONE, THREE
from .saved import restore, saved

TITLE = "Restores in the middle of a bring-up"
HOW = ("A driver is saved after each step of its bring-up. Other histories come, the snapshot brings the step back, and the driver takes the "
       "next ones. Or its ready queues are at other places before DRIVER_OK; or a reset follows the restore, and a bring-up that leaves one "
       "register out.")
COLUMNS = ("What follows", "Of a window")
FOLDERS = {"midway": "Restores in the middle of a bring-up."}

PLACES = {False: (1, 3, 4, 5, 0x7fff, 0x8000, 0xfffe, 0xffff), True: (1, 3, 4, 5, 7)}


def stories():
    yield by_hand()
    for turn, (window, is_packed) in enumerate((window, kind) for window in "bc" for kind in (False, True)):
        for is_hosted in (False, True) if window == "b" else (False,):
            yield of(steps, "next_steps", "the next steps", window, Setup(turn % 2 == 0, is_packed, 4, turn % 2), is_hosted)
            yield of(places, "driver_ok_at_places", "DRIVER_OK at other places", window, Setup(turn % 2 == 1, is_packed, 4, 0), is_hosted)
            yield of(resets, "a_reset", "a reset and a bring-up without a register", window, Setup(is_packed, is_packed, 4, 0), is_hosted)


def by_hand():
    """A disk's queue of 4 is ready at place 5 before DRIVER_OK: its place is kept, also in the ring's second turn."""
    area = "0030008000000000"
    snapshot = SNAPSHOT.replace(area + "00", area + "01" + "0500000000000000", 1)
    return first("midway/a_ready_queue_before_driver_ok_by_hand",
                 "A queue that is ready at place 5 is restored before DRIVER_OK, and serves from there on.", f"""
st 0 {snapshot} > 0 done - 2 0
r 0 b 044 4 > 0 v:00000001 - 2 0
mw 0 80001000 00400080000000000100000002000000 > 0 done - 2 0
mw 0 80002002 06000000ffff > 0 done - 2 0
w 0 b 050 4 00000000 > 0 done - 2 0
mr 0 80003000 4 > 0 b:00000000 - 2 0
w 0 b 070 4 0000000f > 0 done - 2 0
mw 0 80002004 ffff0000 > 0 done - 2 0
w 0 b 050 4 00000000 > 0 done - 3 0
mr 0 80003000 14 > 0 b:0000060000000000000000000000000001000000 - 3 0
""", slots=[Wide(length=0x10000)])


def of(what, name, shown, window, setup, is_hosted):
    def script(life):
        what((Asking if is_hosted else Guest)(life), window, setup)

    device = "hosted_disk" if is_hosted else "disk" if window == "b" else "console"
    kind = "packed" if setup.packed else "split"
    return Life(f"midway/{kind}_{name}_of_a_{device}", f"A restore of a {device.replace('_', ' ')} before DRIVER_OK: then {shown}.", script,
                [ONE if setup.packed else THREE], hosted=is_hosted, shows=[(shown, f"{device.replace('_', ' ')}, {kind}")])


# --- the steps of a bring-up

def bring_up(guest, window, setup):
    """Each step from a reset up to DRIVER_OK, as a call."""
    yield lambda: guest.write(window, STATUS, ACKNOWLEDGE)
    yield lambda: guest.write(window, STATUS, ACKNOWLEDGE | DRIVER)
    for selector, value in ((0, guest.low(window, setup)), (1, setup.high())):
        yield lambda selector=selector: guest.write(window, DRIVER_SEL, selector)
        yield lambda value=value: guest.write(window, DRIVER_FEATURES, value)
    yield lambda: guest.write(window, STATUS, ACKNOWLEDGE | DRIVER | FEATURES_OK)
    for index in INDICES[window]:
        yield lambda index=index: guest.write(window, QUEUE_SEL, index)
        for offset, value in guest.values(window, index, setup).items():
            yield lambda offset=offset, value=value: guest.write(window, offset, value)
    yield lambda: guest.go(window)


def begin(guest, window, setup):
    """A reset, areas of zeros, and the steps that follow."""
    guest.setup = setup
    guest.reset(window)
    guest.clear(window, setup)
    return list(bring_up(guest, window, setup))


def comes_between(guest, window, setup, turn):
    """Another history of the window, in other areas and of the other kind."""
    BETWEEN[turn % len(BETWEEN)](guest, window, Setup(not setup.rich, not setup.packed, 8, 1 - setup.home))
    guest.setup = setup


def steps(guest, window, setup):
    """A cut after each step."""
    for cut in range(len(begin(guest, window, setup)) + 1):
        calls = begin(guest, window, setup)
        for call in calls[:cut]:
            call()
        snapshot = saved(guest)
        comes_between(guest, window, setup, cut)
        guest.clear(window, setup)
        restore(guest, snapshot)
        for call in calls[cut:]:
            call()
        guest.read(window, STATUS)
        serves_each(guest, window)
        serves_each(guest, window)


def places(guest, window, setup):
    """Each ready queue is at another place in the snapshot, which no driver makes before DRIVER_OK."""
    for turn, place in enumerate(PLACES[setup.packed]):
        calls = begin(guest, window, setup)
        for call in calls[:-1]:
            call()
        snapshot = saved(guest)
        for at, queue in enumerate(snapshot.windows[window].queues[:len(INDICES[window])]):
            queue.place = PLACES[setup.packed][(turn + at) % len(PLACES[setup.packed])]
        comes_between(guest, window, setup, turn)
        restore(guest, snapshot)
        start_at_place(guest, window)
        guest.notify(window, INDICES[window][-1])
        if turn % 2:
            restore(guest, saved(guest))
        calls[-1]()
        goes_on(guest, window, setup)


def start_at_place(guest, window):
    """The driver's half of each ring, as the device's place has it: nothing is on offer."""
    for index in INDICES[window]:
        queue, ring = guest.queue(window, index), guest.ring(window, index)
        if ring.is_packed:
            used = [ring.mark(ring.place + at) ^ 0x8080 for at in range(ring.number)]
            for at, mark in enumerate(used):
                guest.put(ring.areas[0] + 16 * ((ring.place + at) % ring.number) + 14, mark.to_bytes(2, "little"))
        else:
            guest.put(queue.areas[1], bytes(2) + (ring.place % 65536).to_bytes(2, "little"))


def resets(guest, window, setup):
    """A restore into a new window, then a reset; behind it each register is as a reset leaves it."""
    for turn, left_out in enumerate(LEFT_OUT):
        guest.bring_up(window, setup)
        goes_on(guest, window, setup)
        snapshot = saved(guest)
        comes_between(guest, window, setup, turn)
        restore(guest, snapshot)
        if turn % 2:
            serves_each(guest, window)
        guest.reset(window)
        reads_registers(guest, window, setup)
        comes_up_without(left_out, guest, window, Setup(setup.rich, setup.packed, (4, 8)[turn // 2 % 2], 0))
