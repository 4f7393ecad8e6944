"""What a restore brings back of a slot whose disk the host serves: what is on offer waits for a notify, and is asked then."""
from .actions import goes_on, notifies_by_other_values, reads_registers, stops_and_starts, wants_one_at_a_place
from .drivers import NOTIFY, WRITE, Buffer, number
from .first_rows import BEGINS, FIRST_QUEUE, GOES, SNAPSHOT, first
from .follows import DATA, HEADER, Life, Setup, Wide
from .histories import LIVES
from .in_flight import REQUESTS, Asking
from .restored import BETWEEN, ONE, THREE, guest_of
from .saved import restore, saved

TITLE = "Restores of disks that the host serves"
HOW = ("After each history a slot whose disk the host serves is saved, and restored behind other ones. Or a request of each kind is on offer when "
       "it is saved or restored: the restore asks nothing, and neither do other events; a notify does.")
COLUMNS = ("What", "Where")
FOLDERS = {"restored_hosted": "Restores of slots whose disks the host serves."}

USES = [reads_registers, wants_one_at_a_place, notifies_by_other_values, stops_and_starts, goes_on]


def stories():
    yield by_hand()
    for turn, (name, history) in enumerate(LIVES.items()):
        yield after(turn, name, history)
    for is_packed in (False, True):
        for is_rich in (False, True):
            yield on_offer(is_packed, is_rich)


def by_hand():
    """A flush is on offer when a snapshot of a live disk is taken up; it is asked by the notify."""
    area = "0030008000000000"
    live = SNAPSHOT.replace("4442003045000000" + "0b", "4442003045000000" + "0f", 1).replace(area + "00", area + "01" + "0000000000000000", 1)
    lines = f"""
mw 0 80004000 04000000000000000000000000000000 > 0 done - 0 0
mw 0 80001000 00400080000000001000000001000100 > 0 done - 0 0
mw 0 80001010 00500080000000000100000002000000 > 0 done - 0 0
mw 0 80002000 000001000000 > 0 done - 0 0
st 0 {live} > 0 done - 2 0
io 0 0 done > 0 idle - 2 0
in 0 61 > 0 took:1 - 2 0
st 0 {live} > 0 done - 2 0
w 0 b 050 4 00000000 > 0 done - 2 0 0=flush:0:0:-
st 0 {live} > 0 busy - 2 0
io 0 0 done > 0 done - 3 0
mr 0 80003000 c > 0 b:000001000000000001000000 - 3 0
"""
    return first("restored_hosted/a_flush_on_offer_by_hand", "A flush on offer when a disk is restored is asked by the next notify.",
                 BEGINS + FIRST_QUEUE + GOES + lines, slots=[Wide(length=0x10000)], hosted=True)


def asking(life, turn):
    """A driver whose areas and data lie in one region, or each in another one."""
    plain, guest = guest_of(life, turn), Asking(life)
    guest.base, guest.room, guest.done = plain.base, plain.room, plain.done
    return guest


def after(turn, name, history):
    setup = Setup(turn % 2 == 0, turn // 2 % 2 == 0, 4, turn % 2)

    def script(life):
        guest = asking(life, turn)
        guest.acknowledges = False
        history(guest, "b", setup)
        snapshot = saved(guest)
        for at, use in enumerate(USES):
            guest.acknowledges = False
            BETWEEN[(turn + at) % len(BETWEEN)](guest, "b", Setup(not setup.rich, not setup.packed, (8, 4)[at % 2], 1 - setup.home))
            guest.acknowledges, guest.setup = True, setup
            restore(guest, snapshot)
            for request in list(REQUESTS)[(turn + at) % 2::2]:
                guest.asks(request)
            use(guest, "b", setup)

    return Life(f"restored_hosted/after_{name}", f"{history.__doc__} Then a restore, and requests of each kind.", script,
                [ONE if turn % 3 == 0 else THREE], hosted=True, shows=[("requests of each kind", name.replace("_", " "))])


def on_offer(is_packed, is_rich):
    """Each request is on offer when the slot is saved and restored; nothing is asked but by a notify."""
    setup = Setup(is_rich, is_packed, 8, 0)

    def script(life):
        guest = Asking(life)
        guest.bring_up("b", setup)
        guest.bring_up("c", setup)
        for at, name in enumerate(REQUESTS):
            for is_late in (False, True):
                snapshot = saved(guest)
                offers(guest, name)
                if not is_late:
                    snapshot = saved(guest)
                restore(guest, snapshot)
                waits(guest, at)
                restore(guest, snapshot if is_late else saved(guest))
                offers(guest, name)
                guest.notify("b", 0)
                guest.look(guest.done, 1)
                guest.ends("b", 0)

    kind, features = "packed" if is_packed else "split", "all_features" if is_rich else "no_feature"
    return Life(f"restored_hosted/{kind}_requests_on_offer_with_{features}", "Each request is on offer at a restore, and another behind it.", script,
                [ONE], hosted=True, shows=[("requests on offer", f"{kind}, {features.replace('_', ' ')}")])


def offers(guest, name):
    """A request on offer, without a notify."""
    content, rooms = REQUESTS[name]
    guest.put(guest.room + HEADER, content)
    guest.put(guest.done, b"\xee")
    at, data = guest.room + DATA, []
    for count in rooms:
        data.append(Buffer(at, count, WRITE))
        at += count
    guest.offer("b", 0, [Buffer(guest.room + HEADER, len(content)), *data, Buffer(guest.done, 1, WRITE)], in_table=bool(guest.turn % 2))


def waits(guest, turn):
    """Other events ask nothing."""
    guest.do("io", ("0 done", "0 failed")[turn % 2])
    guest.look(guest.done, 1)
    guest.type(b"w")
    guest.resize(turn, 3)
    guest.write("c", NOTIFY, 1)
    for offset, value in ((0x014, turn % 2), (0x064, 3), (0x070, 0xf), (0x044, 1), (NOTIFY, 1)):
        guest.write("b", offset, value)
    guest.put(guest.ring("b", 0).areas[1], number(0, 2))
