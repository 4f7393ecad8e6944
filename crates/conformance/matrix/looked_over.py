"""Looks that go on behind a chain that asks, over what a chain that is answered at once has written into the rings."""
from .drivers import WRITE, Buffer, number
from .first_rows import BEGINS, FIRST_QUEUE, GOES, first
from .follows import Life, Setup, Wide
from .further_apart import Far, room_of
from .further_walks import Device
from .lots import Dice
from .requests import FLUSH, GET_ID, header
from .story import BASE

TITLE = "Looks over written rings"
HOW = ("Of four requests of a disk of the host three ask, and one is an identity, whose bytes lie over the available idx, the next entry or descriptor, the flags or the named "
       "event. It stands at each place among them, and each of six disks has an identity that says another number there. Then all is completed, in falling order.")
COLUMNS = ("What is written over", "Ring and depth")
FOLDERS = {"looked_over": "Requests in flight beside one that is written over the rings."}

LENGTH, SIZE, REQUESTS = 0x10000, 8, 4
# What the disks' identities say, over and over.
VALUES = (0, 1, 2, 5, 0x80, 0x8080)


def stories():
    yield by_hand()
    for is_packed in (False, True):
        for depth in (1, 2, 4):
            for what in OVER[is_packed]:
                yield story(Setup(True, is_packed, SIZE), depth, what)


def by_hand():
    """A flush is in flight, and an identity of ones lies over the available idx: the second flush is still asked for."""
    begins = (BEGINS + FIRST_QUEUE + GOES).replace(" W ", " b ")
    return first("looked_over/the_idx_by_hand", "The available idx is read once for three chains; then its flags, as they now are, want no notification.", f"""{begins}
mw 0 80001000 00400080000000001000000001000100 > 0 done - 0 0
mw 0 80001010 00410080000000000100000002000000 > 0 done - 0 0
mw 0 80001020 10400080000000001000000001000300 > 0 done - 0 0
mw 0 80001030 f01f0080000000001500000002000000 > 0 done - 0 0
mw 0 80004000 04000000000000000000000000000000 > 0 done - 0 0
mw 0 80004010 08000000000000000000000000000000 > 0 done - 0 0
mw 0 80002000 00000300000002000000 > 0 done - 0 0
w 0 b 050 4 00000000 > 0 done - 0 0 0=flush:0:0:-;1=flush:0:0:-
mr 0 80002000 6 > 0 b:010101010000 - 0 0
mr 0 80003000 c > 0 b:000001000200000015000000 - 0 0
""", slots=[Wide(disk="host:4", identity=b"\1" * 20)])


class Six(Far):
    """The driver and the host of six disks, whose identities say different numbers."""

    def __init__(self, life, depth):
        super().__init__(life, 0, [], Dice("over"))
        for place, value in enumerate(VALUES):
            self.do("plug", f"{place:x} disk 8 rw {(number(value, 2) * 10).hex()} {depth:x}")
            self.devices.append(Device(place, "disk", 1))


def story(setup, depth, what):
    def script(life):
        driver = Six(life, depth)
        for device in driver.devices:
            for place in range(REQUESTS):
                driver.bring_up(device, setup)
                offers(driver, device, place, what)
                completed(driver, device, depth)

    ring = "packed" if setup.packed else "split"
    return Life(f"looked_over/{what}_{ring}_{depth}", f"An identity lies over the {what.replace('_', ' ')}, at each place among three flushes: a depth of {depth}.", script,
                [Wide(BASE, LENGTH, count=8, disk="host:1")], shows=[(what.replace("_", " "), f"{ring}, {depth}")])


def offers(driver, device, own_place, what):
    """Three flushes and the identity, at its place among them; then one notify."""
    at = room_of(driver, device)
    driver.put(at, header(FLUSH) + header(GET_ID))
    ring = driver.ring(device, 0)
    for place in range(REQUESTS):
        status = Buffer(at + 0x40 + place, 1, WRITE)
        over = [Buffer(OVER[ring.is_packed][what](ring, own_place), 20, WRITE)] if place == own_place else []
        driver.offer(device, 0, [Buffer(at + 16 * (place == own_place), 16), *over, status], in_table=True)
    driver.notify(device, 0)
    shows(driver, device, ring)


def completed(driver, device, depth):
    """What is in flight is completed, in falling order, until nothing is."""
    for _ in range(REQUESTS):
        for tag in range(depth)[::-1]:
            driver.tell(device, "io", f"{tag:x} done")
        shows(driver, device, driver.ring(device, 0))


def shows(driver, device, ring):
    for at, length in zip(ring.areas, ring.lengths):
        driver.look(at, length)
    driver.look(room_of(driver, device) + 0x40, REQUESTS)
    for offset in (0x060, 0x070):
        driver.read(device, offset)


# Where an identity lies whose first or last two bytes are over a field of a ring.
OVER = {False: {"idx": lambda ring, place: ring.areas[1] + 2 - 18, "flags": lambda ring, place: ring.areas[1] - 18, "used_event": lambda ring, place: ring.areas[1] + 4 + 2 * SIZE,
                "next_entry": lambda ring, place: ring.areas[1] + 4 + 2 * (place + 1)},
        True: {"event": lambda ring, place: ring.areas[1], "flags_of_the_next": lambda ring, place: ring.areas[0] + 16 * (place + 1) + 14}}
