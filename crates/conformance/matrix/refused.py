"""What a refused restore leaves: all of a slot, whichever field of the snapshot is wrong."""
from .actions import offer_room, reads_by_selectors, reads_registers, see_room, serves_each
from .follows import Guest, Life, Setup, Wide
from .first_rows import SNAPSHOT, first
from .histories import a_life, faulty
from .saved import saved

TITLE = "Restores that are refused"
HOW = ("A snapshot that differs from its slot in all that may differ has one wrong field, is cut, or has bytes behind it. It is refused, and "
       "registers, features, queues, sizes, pending input and places are as before.")
COLUMNS = ("What is wrong", "Of a slot")
FOLDERS = {"refused": "Restores that are refused, and all that they leave."}


def stories():
    yield by_hand()
    for is_packed in (False, True):
        for window in "bc":
            yield refusals(window, is_packed, "fields", fields_of)
            yield refusals(window, is_packed, "lengths", lengths_of)


def by_hand():
    """A byte behind a snapshot that has a status, a selector and an interrupt."""
    return first("refused/a_byte_behind_a_snapshot_by_hand", "A snapshot with a byte behind it is refused, and nothing of it is taken.", f"""
sz 0 12 34 > 0 done - 0 0
in 0 61 > 0 took:1 - 0 0
st 0 {SNAPSHOT}00 > 0 badstate - 0 0
r 0 b 070 4 > 0 v:00000000 - 0 0
r 0 b 010 4 > 0 v:30004244 - 0 0
r 0 c 100 4 > 0 v:00340012 - 0 0
r 0 c 0fc 4 > 0 v:00000001 - 0 0
in 0 {'62' * 4096} > 0 took:fff - 0 0
""", slots=[Wide(length=0x10000)])


# --- what is wrong

def of(snapshot, **changes):
    """A copy with these fields."""
    def change(copied):
        for name, value in changes.items():
            setattr(copied, name, value)
    return snapshot.but(change)


def of_window(snapshot, window, **changes):
    def change(copied):
        for name, value in changes.items():
            setattr(copied.windows[window], name, value)
    return snapshot.but(change)


def of_queue(snapshot, window, index, **changes):
    def change(copied):
        for name, value in changes.items():
            setattr(copied.windows[window].queues[index], name, value)
    return snapshot.but(change)


def fields_of(snapshot):
    """Snapshots with one wrong field each, as bytes."""
    wrong = [of(snapshot, base=snapshot.base + 4096), of(snapshot, span=snapshot.span + 1), of(snapshot, sectors=snapshot.sectors - 1),
             of(snapshot, read_only=not snapshot.read_only), of(snapshot, identity=b"x" * 20), of(snapshot, pending=b"p" * 4097),
             *(of(snapshot, held=one) for one in (1, 2, 0xff))]
    for window in "bc":
        one = snapshot.windows[window]
        wrong += [of_window(snapshot, window, offered=one.offered ^ 1 << bit) for bit in (0, 33, 63)]
        wrong += [of_window(snapshot, window, status=0x1f), of_window(snapshot, window, status=0x2f), of_window(snapshot, window, interrupts=4)]
        wrong += [of_window(snapshot, window, accepted=1 << 32 | 1 << 40), of_window(snapshot, window, accepted=0, status=8)]
        wrong += [of_window(snapshot, window, generation=1)] if window == "b" else []
        for index, queue in enumerate(one.queues):
            if queue.ready:
                wrong += of_ready_queue(snapshot, window, index, queue)
    content = snapshot.spelled()
    return [one.spelled() for one in wrong] + [b"k" + content[1:], content[:8] + b"\2" + content[9:]]


def of_ready_queue(snapshot, window, index, queue):
    wrong = [{"number": 0}, {"number": 257}, {"number": 1 << 31}, {"ready": 2}, {"left": 1, "passed": queue.number}, {"passed": 2 * queue.number}]
    wrong += [{"left": 1, "ahead": queue.number}, {"passed": 1, "ahead": 2 * queue.number - 1}, {"ahead": 0xffff}]
    if snapshot.windows[window].accepted >> 34 & 1:
        wrong += [{"place": 2 * queue.number}, {"place": 0xffff}]
    else:
        wrong += [{"number": 3}, {"left": queue.number + 1}, {"ahead": queue.number + 1}]
    for area in range(3):
        for more in (1 if area != 1 else 1, 1 << 40):
            areas = list(queue.areas)
            areas[area] += more
            wrong.append({"areas": areas})
    return [of_queue(snapshot, window, index, **one) for one in wrong]


def lengths_of(snapshot):
    """The snapshot cut at each of its fields and behind its first bytes, and with bytes behind it."""
    content = snapshot.spelled()
    cuts = sorted({0, 1, 7, 8, 11, 12, 20, 28, 36, 37, 57, 59, 61, *range(62, len(content), 9), len(content) - 1, len(content) - 2})
    return [content[:cut] for cut in cuts] + [content + bytes(more) for more in (1, 2, 4096)] + [content + content]


# --- what stays

def refusals(window, is_packed, what, wrong):
    """The snapshot is of another life: other features, sizes, places, typed bytes and interrupts."""
    def script(life):
        guest = Guest(life)
        other, setup = Setup(True, not is_packed, 8, 1), Setup(False, is_packed, 4, 0)
        snapshot = of_another_life(guest, window, other)
        guest.bring_up("b", setup)
        guest.bring_up("c", setup)
        a_life(guest, window, setup)
        guest.resize(0x33, 0x11)
        for turn, content in enumerate(wrong(snapshot)):
            guest.type(b"stay") if turn % 8 == 0 else None
            guest.do("st", content.hex() or "-")
            stands(guest, window, setup, turn)

    device, kind = "disk" if window == "b" else "console", "packed" if is_packed else "split"
    return Life(f"refused/{kind}_{what}_of_a_{device}", f"Snapshots with wrong {what} are refused, and a {device} is as before.", script,
                [Wide(length=0x10000)], shows=[(what, f"{device}, {kind}")])


def of_another_life(guest, window, setup):
    """What is saved: both windows at work, one of them fallen, with typed bytes that wait."""
    guest.acknowledges = False
    a_life(guest, "b" if window == "c" else "c", setup)
    a_life(guest, window, setup)
    if window == "b":
        faulty("a_buffer_outside", guest, window, setup)
    guest.resize(0x77, 0x66)
    guest.acknowledges = True
    snapshot = saved(guest)
    snapshot.pending = b"of another life"
    for one in snapshot.windows.values():
        one.selectors = [1, 1, 1, 7]
    return snapshot


def stands(guest, window, setup, turn):
    """Registers and queues, and now and then what waits."""
    reads_registers(guest, window, setup)
    if turn % 4 == 0:
        serves_each(guest, window)
    if turn % 8 == 7:
        reads_by_selectors(guest, window, setup)
        offer_room(guest, 8)
        guest.notify("c", 0)
        see_room(guest)
