"""Completions behind a fault, each of which frees its tag and does nothing else; and faults that wait for a look."""
from .drivers import INDIRECT, STATUS, WRITE, Buffer, number
from .first_rows import BEGINS, FIRST_QUEUE, GOES, first
from .follows import Life, Setup, Wide
from .further_apart import Far, Own
from .further_walks import Device
from .lots import Dice
from .requests import FLUSH, GET_ID, IN, OUT, header
from .story import BASE, SECTOR

TITLE = "Completions behind a fault"
HOW = ("A disk of the host, a slot's own or a further one, has one to three operations in flight when a look meets a fault, at once or behind a completion. The driver then "
       "writes over all that the device writes. Each operation is completed, in rising or in falling order, on hold or not, or the last is dropped: the areas and the statuses "
       "stay as the driver left them. Or a fault "
       "waits on hold, or where no tag is free: a notify does nothing, and the look that comes meets it, or finds it withdrawn. Then the driver begins anew.")
COLUMNS = ("Disk and fault", "Ring")
FOLDERS = {"behind_faults": "Completions, holds and drops behind a fault, and before one."}

DEPTH, SIZE, LENGTH = 4, 16, 0x10000
REQUESTS = [(IN, SECTOR, 0), (FLUSH, 0, 0), (OUT, 0, SECTOR)]


def stories():
    yield by_hand()
    for is_packed in (False, True):
        for is_rich in (False, True):
            for fault in FAULTS:
                for driver_of in (Own, Further):
                    yield story("behind", "One to three operations are in flight before a fault", behind, Setup(is_rich, is_packed, SIZE), fault, driver_of)
                    yield story("before", "A fault waits on hold, or for a tag", waiting, Setup(is_rich, is_packed, SIZE), fault, driver_of)


def by_hand():
    """A flush is in flight behind which the available idx jumps; its completion leaves the used ring as the driver wrote it."""
    begins = (BEGINS + FIRST_QUEUE + GOES).replace(" W ", " b ").replace(" - 0 0", " - 0 0 -")
    return first("behind_faults/a_flush_before_a_jump_by_hand", "The completion frees the tag, and writes nothing.", f"""{begins}
mw 0 80001000 00400080000000001000000001000100 > 0 done - 0 0 -
mw 0 80001010 00410080000000000100000002000000 > 0 done - 0 0 -
mw 0 80004000 04000000000000000000000000000000 > 0 done - 0 0 -
mw 0 80004100 ee > 0 done - 0 0 -
mw 0 80002002 01000000 > 0 done - 0 0 -
w 0 b 050 4 00000000 > 0 done - 0 0 0=flush:0:0:-
mw 0 80002002 0900 > 0 done - 0 0 -
w 0 b 050 4 00000000 > 0 done - 2 0 -
mw 0 80003000 ffffffff > 0 done - 2 0 -
io 0 0 done > 0 done - 2 0 -
io 0 0 done > 0 idle - 2 0 -
mr 0 80003000 4 > 0 b:ffffffff - 2 0 -
mr 0 80004100 1 > 0 b:ee - 2 0 -
r 0 b 070 4 > 0 v:0000004f - 2 0 -
""", slots=[Wide(disk="host:2")])


class Further(Far):
    """The driver and the host of a further disk."""

    depth = DEPTH

    def __init__(self, life, slot, words, dice):
        super().__init__(life, slot, words, dice)
        self.do("plug", f"0 disk 8 rw {bytes(range(20)).hex()} {self.depth:x}")
        self.devices = [Device(0, "disk", 1)]


def story(name, about, deeds, setup, fault, driver_of):
    def script(life):
        driver = driver_of(life, 0, [], Dice(fault))
        deeds(driver, driver.devices[0], setup, fault)

    disk, ring = "a_further_disk" if driver_of is Further else "its_own_disk", "packed" if setup.packed else "split"
    features = "_with_features" if setup.rich else ""
    return Life(f"behind_faults/{name}_{fault}_on_{disk}_{ring}{features}", f"{about}, {fault.replace('_', ' ')}.", script,
                [Wide(BASE, LENGTH, count=8, disk=f"host:{DEPTH:x}")], shows=[(f"{disk}, {name} one {fault}".replace("_", " "), ring)])


def behind(driver, device, setup, fault):
    for count in (1, 2, 3):
        for is_at_once in (True, False):
            for end in ENDS:
                driver.bring_up(device, setup)
                meets(driver, device, count, fault, is_at_once)
                ends(driver, device, count, end)


def waiting(driver, device, setup, fault):
    """A notify does nothing on hold and where no tag is free; the look that comes then meets the fault, or finds it withdrawn."""
    for count in (0, 1, 2, DEPTH):
        for is_held in (True, False) if count == DEPTH else (True,):
            for is_withdrawn in (True, False):
                driver.bring_up(device, setup)
                for place in range(count):
                    asks(driver, device, place, *REQUESTS[place % 3])
                driver.notify(device, 0)
                if is_held:
                    driver.tell(device, "hold")
                FAULTS[fault](driver, device)
                driver.notify(device, 0)
                shows(driver, device)
                comes_to_it(driver, device, count, is_withdrawn)


def comes_to_it(driver, device, count, is_withdrawn):
    """Two completions, and a release."""
    if count and not is_withdrawn:
        driver.tell(device, "io", f"{count - 1:x} done")
        shows(driver, device)
    if is_withdrawn:
        ring = driver.ring(device, 0)
        driver.put(*((ring.areas[0] + 16 * (ring.place % SIZE), bytes(16)) if ring.is_packed else (ring.areas[1] + 2, number(ring.place % 65536, 2))))
    driver.tell(device, "io", "0 done")
    shows(driver, device)
    driver.tell(device, "release")
    shows(driver, device)
    driver.tell(device, "drop")


def meets(driver, device, count, fault, is_at_once):
    """So many operations are in flight, an identity was told among them, and a look meets the fault, at once or when one more is done."""
    for place in range(count + (not is_at_once)):
        asks(driver, device, place, *REQUESTS[place % 3])
    asks(driver, device, 6, GET_ID, 20, 0)
    if not is_at_once:
        driver.notify(device, 0)
    FAULTS[fault](driver, device)
    if is_at_once:
        driver.notify(device, 0)
    else:
        driver.tell(device, "io", f"{count:x} done")
    shows(driver, device)


def asks(driver, device, place, kind, room, length):
    """A request, whose status is ee before."""
    at = driver.base + 0x8000 + 0x600 * place
    driver.put(at, header(kind, place) + bytes([place]) * length)
    driver.put(at + 0x500, b"\xee")
    chain = [Buffer(at, 16 + length), *([Buffer(at + 0x200, room, WRITE)] if room else []), Buffer(at + 0x500, 1, WRITE)]
    driver.offer(device, 0, chain)


def outside(driver, device):
    driver.offer(device, 0, [Buffer(driver.base + 0x8000, 16), Buffer(driver.base + LENGTH, 1, WRITE)])


def jump(driver, device):
    """The available idx is too far; in a packed ring a table has no length."""
    ring = driver.ring(device, 0)
    if ring.is_packed:
        driver.offer(device, 0, [Buffer(driver.base + 0x8000, 0, INDIRECT)])
    else:
        driver.put(ring.areas[1] + 2, number((ring.place + SIZE + 1) % 65536, 2))


FAULTS = {"outside": outside, "too_far": jump}


def marks(driver, device):
    """The driver writes over what a device writes."""
    ring = driver.ring(device, 0)
    driver.put(ring.areas[2], b"\xff" * ring.lengths[2])
    if ring.is_packed:
        driver.put(ring.areas[0], b"\xff" * ring.lengths[0])


def shows(driver, device):
    ring = driver.ring(device, 0)
    for at, length in zip(ring.areas, ring.lengths):
        driver.look(at, length)
    for place in range(4):
        driver.look(driver.base + 0x8000 + 0x600 * place + 0x500, 1)
    for offset in (0x060, STATUS):
        driver.read(device, offset)


def completed(driver, device, tags):
    for turn, tag in enumerate(tags):
        driver.tell(device, "io", f"{tag:x} {('done', 'failed')[turn % 2]}")
        shows(driver, device)
        driver.acknowledge(device)
    driver.tell(device, "io", f"{tags[-1] if tags else 0:x} done")


def ends(driver, device, count, end):
    """What is in flight ends; behind it a notify, a hold and a release do nothing."""
    marks(driver, device)
    driver.acknowledge(device)
    if end == "on_hold":
        driver.tell(device, "hold")
    completed(driver, device, [*range(count)][::-1 if end == "falling" else 1][:-1 if end == "dropped" else count])
    driver.tell(device, "drop")
    driver.notify(device, 0)
    if end != "on_hold":
        driver.tell(device, "hold")
    driver.tell(device, "release")
    shows(driver, device)


ENDS = ("rising", "falling", "on_hold", "dropped")
