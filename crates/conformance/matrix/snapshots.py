"""Each bit of a snapshot, and what the numbers of a ready queue may be together."""
from .actions import serves
from .first_rows import SNAPSHOT, first
from .follows import INDICES, Guest, Life, Setup, Wide
from .histories import a_life
from .in_flight import Asking
from .saved import restore, saved

TITLE = "Bits of a snapshot"
HOW = ("A snapshot of a slot at work differs in one bit from what was saved: it is refused, or it is taken and registers show it. Place and "
       "chains left and passed of a ready queue have each of the numbers at which something begins or ends, together; and so have "
       "those passed, left and in flight.")
FOLDERS = {"snapshot_bits": "Each bit of a snapshot, and the numbers of a ready queue together."}

# What is read of each window after a snapshot that was taken.
SEEN = (0x010, 0x034, 0x044, 0x070, 0x0fc, 0x100)


def stories():
    yield by_hand()
    for is_packed in (False, True):
        for window in "bc":
            yield bits(window, is_packed)
            yield numbers(window, is_packed)
            yield in_flight(window, is_packed)
        yield bits("b", is_packed, hosted=True)


def by_hand():
    """A snapshot in which bit 4 of the disk's status is set, and one in which bit 2 is."""
    content = bytearray.fromhex(SNAPSHOT)
    at = 8 + 4 + 24 + 1 + 20 + 4 + 1 + 8
    lines = ""
    for bit, reply, status in ((4, "badstate", 0), (2, "done", 0xf)):
        content[at] = 0xb | 1 << bit
        lines += f"st 0 {content.hex()} > 0 {reply} - {2 if status else 0} 0\nr 0 b 070 4 > 0 v:{status:08x} - {2 if status else 0} 0\n"
    return first("snapshot_bits/two_bits_of_a_status_by_hand", "A status has a bit without a name, and then DRIVER_OK.", lines,
                 slots=[Wide(length=0x10000)])


def at_work(life, window, is_packed):
    """A slot whose window has lived, beside one that is up."""
    guest, setup = Asking(life) if life.hosted else Guest(life), Setup(True, is_packed, 4, 0)
    guest.bring_up("c" if window == "b" else "b", Setup(False, not is_packed, 2, 1))
    a_life(guest, window, setup)
    guest.type(b"ab")
    return guest, setup


def named(window, is_packed, what):
    return f"snapshot_bits/{what}_of_a_{'packed' if is_packed else 'split'}_{'disk' if window == 'b' else 'console'}"


def bits(window, is_packed, hosted=False):
    def script(life):
        guest, setup = at_work(life, window, is_packed)
        snapshot = saved(guest)
        content = snapshot.spelled()
        for at in range(8 * len(content)):
            other = bytearray(content)
            other[at // 8] ^= 1 << at % 8
            if guest.do("st", other.hex()).split(" ")[1] == "done":
                for offset in SEEN:
                    guest.read("bc"[at % 2], offset)
                    guest.read("cb"[at % 2], offset)
                restore(guest, snapshot)
    what = "each_bit_where_the_host_serves" if hosted else "each_bit"
    return Life(named(window, is_packed, what), "Each bit of a snapshot is turned.", script, [Wide(length=0x10000)], hosted=hosted,
                shows=[("a slot's snapshot", "each bit")])


def numbers(window, is_packed):
    """Queue numbers of a snapshot in a grid; those that are taken serve a chain."""
    def script(life):
        guest, setup = at_work(life, window, is_packed)
        snapshot, index = saved(guest), INDICES[window][-1]
        some = (0, 1, 3, 4, 5, 7, 8, 0x7fff, 0x8000, 0xfffc, 0xffff)
        for place in (0, 3, 7, 8, 0x8003, 0xffff):
            for left in some:
                for passed in some:
                    queue = snapshot.windows[window].queues[index]
                    queue.place, queue.left, queue.passed = place, left, passed
                    if restore(guest, snapshot).split(" ")[1] == "done":
                        guest.setup = setup
                        serves(guest, window, index)
    return Life(named(window, is_packed, "place_left_and_passed"), "Place and chains left and passed of a ready queue in a grid.", script,
                [Wide(length=0x10000)], shows=[("place, chains left and passed", "0 to 8, 2^15, 2^16 - 1, together")])


def in_flight(window, is_packed):
    """How much of a queue is in flight beside what its service left and passed; those that are taken serve two chains."""
    def script(life):
        guest, setup = at_work(life, window, is_packed)
        snapshot, index = saved(guest), INDICES[window][-1]
        for place in (0, 3, 7, 0xffff):
            for left, passed in ((0, 0), (1, 0), (0, 1), (1, 1), (0, 3), (2, 2)):
                for ahead in (1, 2, 3, 4, 5, 7, 8, 0x8000, 0xffff):
                    queue = snapshot.windows[window].queues[index]
                    queue.place, queue.left, queue.passed, queue.ahead = place, left, passed, ahead
                    if restore(guest, snapshot).split(" ")[1] == "done":
                        guest.setup = setup
                        serves(guest, window, index)
                        serves(guest, window, index)
    return Life(named(window, is_packed, "place_left_passed_and_in_flight"), "Place, and chains left, passed and in flight of a ready queue in a grid.",
                script, [Wide(length=0x10000)], shows=[("chains left, passed and in flight", "0 to 8, 2^15, 2^16 - 1, together")])
