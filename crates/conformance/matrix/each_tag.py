"""Of 64 operations in flight one alone is left, or one tag alone is free."""
from .behind_faults import Further
from .drivers import INDIRECT, QUEUE_READY, STATUS, WRITE, Buffer
from .first_rows import first
from .follows import Life, Setup, Wide, joined
from .further_apart import Own
from .lots import Dice
from .requests import FLUSH, header
from .story import BASE

TITLE = "One tag of 64"
HOW = ("A disk of the host, a slot's own or a further one, has 64 operations in flight. All but one are completed: writes of Status and QueueReady and a restore wait for that "
       "one, and it is completed or dropped. Or one alone is completed, on hold or not, and the next request takes its tag.")
COLUMNS = ("Disk and tag", "Ring")
FOLDERS = {"each_tag": "The one operation that is left of 64, and the one tag that is free."}

DEPTH, LENGTH, REQUEST, TABLE = 64, 0x10000, BASE + 0x8000, BASE + 0x8100
TAGS = (0, 1, 7, 8, 15, 16, 31, 32, 33, 62, 63)


def stories():
    yield by_hand()
    for is_packed in (False, True):
        for driver_of in (Own, Deep):
            for begin in range(0, len(TAGS), 4):
                yield story(Setup(True, is_packed, DEPTH), driver_of, TAGS[begin:begin + 4])


def by_hand():
    """Nothing is in flight at tags up to 63, and none of what would wait does."""
    tags = "".join(f"io 0 {tag:x} done > 0 idle - 0 0 -\n" for tag in range(65))
    return first("each_tag/none_of_64_by_hand", "No tag of a depth of 64 has anything in flight.", f"""
{tags}drop 0 > 0 idle - 0 0 -
w 0 b 044 4 00000000 > 0 done - 0 0 -
st 0 - > 0 badstate - 0 0 -
""", slots=[Wide(disk="host:40")])


class Deep(Further):
    """The driver and the host of a further disk of this depth."""

    depth = DEPTH


def story(setup, driver_of, tags):
    def script(life):
        driver = driver_of(life, 0, [], Dice("tags"))
        for tag in tags:
            alone(driver, driver.devices[0], setup, tag)

    disk, ring = "a_further_disk" if driver_of is Deep else "its_own_disk", "packed" if setup.packed else "split"
    named = "_".join(str(tag) for tag in tags)
    return Life(f"each_tag/{named}_of_{disk}_{ring}", f"Of 64 operations in flight one alone is left, at tag {named.replace('_', ', ')}.", script,
                [Wide(BASE, LENGTH, count=8, disk=f"host:{DEPTH:x}")], shows=[(f"{disk.replace('_', ' ')}, {', '.join(map(str, tags))}", ring)])


def fills(driver, device, setup, count=DEPTH):
    """So many flushes are in flight, whose table is one."""
    driver.bring_up(device, setup)
    ring = driver.ring(device, 0)
    chain = [Buffer(REQUEST, 16), Buffer(REQUEST + 0x80, 1, WRITE)]
    driver.put(REQUEST, header(FLUSH))
    driver.put(TABLE, b"".join(ring.entry(one, place + 1) for place, one in enumerate(chain if ring.is_packed else joined(chain))))
    for _ in range(count):
        asks(driver, device)


def asks(driver, device):
    driver.offer(device, 0, [Buffer(TABLE, 32, INDIRECT)])
    driver.notify(device, 0)


def leaves(driver, device, tag):
    for other in range(DEPTH):
        if other != tag:
            driver.tell(device, "io", f"{other:x} done")


def waits(driver, device):
    for offset, value in ((STATUS, 0), (QUEUE_READY, 0), (STATUS, 0x80)):
        driver.write(device, offset, value)
    driver.do("st", "-")


def alone(driver, device, setup, tag):
    fills(driver, device, setup)
    driver.tell(device, "io", f"{tag:x} done")
    asks(driver, device)
    driver.tell(device, "hold")
    driver.tell(device, "io", f"{tag:x} failed")
    asks(driver, device)
    driver.tell(device, "release")
    leaves(driver, device, tag)
    waits(driver, device)
    driver.tell(device, "io", f"{tag:x} done")
    fills(driver, device, setup)
    leaves(driver, device, tag)
    driver.tell(device, "drop")
    driver.tell(device, "io", f"{tag:x} done")
    waits(driver, device)
    for offset in (0x060, STATUS):
        driver.read(device, offset)
