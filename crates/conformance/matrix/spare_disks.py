"""Four disks over the spare sectors of a slot, plugged in in each order: which sectors are taken then."""
import itertools

from .drivers import WRITE, Buffer
from .first_rows import first
from .follows import Life, Setup, Wide
from .further_apart import Far, Own
from .further_walks import Device
from .lots import Dice
from .requests import IN, IOERR, OK, OUT, UNSUPP, WRITE_ZEROES, header, segment
from .story import BASE, SECTOR

TITLE = "Disks over spare sectors, in each order"
HOW = ("Four disks of one to four sectors are plugged in in each of 24 orders, over spare sectors behind an extent, or behind none. Before each, every disk that is there is "
       "met by one that shares its first sector, its last, both, all or one more; these and those past the last spare sector are BadDevice, and take no number. Then "
       "each disk has its own sectors read. Disks on both sides of spare sectors 255 and 65535 are written and read. A WRITE_ZEROES of up to 32 segments has one that is refused, "
       "at each place, on such a disk, on one of the host and on a slot's own.")
COLUMNS = ("Disks", "Order")
FOLDERS = {"spare_disks": "Disks over the spare sectors of a slot, in each order."}

# First sectors and counts among 12 spare ones; sectors 2 and 8 are nobody's.
DISKS, SPARE, START = ((0, 2), (3, 1), (4, 4), (9, 3)), 12, 1


def stories():
    yield by_hand()
    for turn, order in enumerate(itertools.permutations(range(len(DISKS)))):
        yield plugged(turn, order)
    for word in ("b", "disk", "image"):
        yield zeroed(word)
    for name, disks in FAR.items():
        yield far(name, disks)


def by_hand():
    """The second of three disks has sector 2 alone."""
    name = "00" * 20
    return first("spare_disks/the_second_of_three_by_hand", "Sector 2 is of the second of three disks, and of no fourth.", f"""
plug 0 0 image 0 1 rw {name} > 0 done - 0 0
plug 0 1 image 2 1 rw {name} > 0 done - 0 0
plug 0 2 image 4 1 rw {name} > 0 done - 0 0
plug 0 3 image 2 1 rw {name} > 0 baddevice - 0 0
plug 0 3 image 1 2 rw {name} > 0 baddevice - 0 0
plug 0 3 image 3 1 rw {name} > 0 done - 0 0
dr 0 3 100 4 > 0 v:00000001 - 0 0
""", slots=[Wide(count=0, disk="image+5"), Wide(disk="host:1")])


def plugged(turn, order):
    def script(life):
        driver = Far(life, 0, [], Dice("spare"))
        for place, disk in enumerate(order):
            for begin, count in [*itertools.chain(*(overlaps(*DISKS[other]) for other in order[:place])), (SPARE - 1, 2), (SPARE, 1), (SPARE, 0), (0, 0)]:
                comes(driver, place, begin, count)
            assert comes(driver, place, *DISKS[disk]).split(" ")[1] == "done"
            driver.devices.append(Device(place, "image", 1))
        for device, disk in zip(driver.devices, order):
            shows(driver, device, DISKS[disk][1])

    extent = turn % 3
    slot = Wide(BASE, 0x10000, start=START, count=extent, disk=f"image+{SPARE:x}")
    return Life("spare_disks/" + "_".join(str(disk) for disk in order), "Four disks over spare sectors, one after another.", script, [slot],
                image=b"".join(bytes([0x20 + at]) * SECTOR for at in range(16)), shows=[("disks of 2, 1, 4 and 3 sectors", ", ".join(str(disk) for disk in order))])


def overlaps(begin, count):
    """Runs that share a sector of this one."""
    return [(begin, 1), (begin + count - 1, 1), (begin, count), (max(0, begin - 1), 2 if begin else 1), (begin + count - 1, 2), (max(0, begin - 1), count + 2)]


def comes(driver, place, begin, count):
    return driver.do("plug", f"{place:x} image {begin:x} {count:x} rw {bytes([place] * 20).hex()}")


def shows(driver, device, count):
    """The disk's capacity, each of its sectors, and one more, which it hasn't."""
    driver.read(device, 0x100)
    driver.bring_up(device, Setup())
    for sector in range(count + 1):
        moves(driver, device, IN, sector)


def moves(driver, device, kind, sector, byte=0xee):
    """An OUT of one sector of this byte, or an IN over such bytes; both ends of the data, and the status."""
    at = BASE + 0x8000
    driver.put(at, header(kind, sector) + bytes([byte]) * SECTOR)
    driver.put(at + 0xfff, b"\xee")
    driver.offer(device, 0, [Buffer(at, 16), Buffer(at + 16, SECTOR, WRITE if kind == IN else 0), Buffer(at + 0xfff, 1, WRITE)])
    driver.notify(device, 0)
    driver.look(at + 16, 2)
    driver.look(at + 16 + SECTOR - 2, 2)
    driver.look(at + 0xfff, 1)


# --- one segment that is refused

# A segment on a disk of eight sectors, and the status of a request with it.
REFUSED = (((7, 2), IOERR), ((8, 1), IOERR), ((2**64 - 1, 1), IOERR), ((0, 65537), IOERR), ((0, 1, 2), UNSUPP), ((8, 1, 2**31), UNSUPP))


def zeroed(word):
    def script(life):
        driver = (Own if word == "b" else Far)(life, 0, [], Dice("zeroes"))
        if word != "b":
            fields = "image {:x} 8 rw {}" if word == "image" else "disk 8 rw {1} 1"
            for place in range(2):
                driver.do("plug", f"{place:x} " + fields.format(8 * place, bytes([place] * 20).hex()))
            driver.devices = [Device(place, word, 1) for place in range(2)]
        device = driver.devices[0]
        driver.bring_up(device, Setup())
        for count in (1, 2, 3, 4, 16, 31, 32):
            for place in sorted({0, 1, 2, count // 2, count - 2, count - 1} & set(range(count))):
                for turn, (bad, status) in enumerate(REFUSED):
                    segments = [((turn + other) % 8, 1, other % 2) for other in range(count)]
                    segments[place] = bad
                    zeroes(driver, device, segments)
                    assert driver.life.records[-1].split(" ")[1] == f"b:{status:02x}"
        zeroes(driver, device, [(1, 2), (8, 0), (5, 1)])
        if word == "image":
            for one in driver.devices:
                shows(driver, one, 8)

    slot = Wide(BASE, 0x10000, count=8, disk="host:1" if word == "b" else "image+10")
    return Life(f"spare_disks/a_refused_segment_of_{word}", "One segment of up to 32 is refused, and so is the request, at each place.", script, [slot],
                image=b"".join(bytes([0x20 + at]) * SECTOR for at in range(24)), shows=[("a segment that is refused", "each place of up to 32")])


def zeroes(driver, device, segments):
    """A WRITE_ZEROES, which the host says is done where it asks for its disk; then its status is looked at."""
    at = BASE + 0x8000
    driver.put(at, header(WRITE_ZEROES) + b"".join(segment(*one) for one in segments))
    driver.put(at + 0xfff, b"\xee")
    driver.offer(device, 0, [Buffer(at, 16 + 16 * len(segments)), Buffer(at + 0xfff, 1, WRITE)])
    driver.notify(device, 0)
    driver.tell(device, "io", "0 done")
    driver.look(at + 0xfff, 1)


# --- far spare sectors

FAR = {"255": ((0, 1), (1, 0xfe), (0xff, 1), (0x100, 1), (0x101, 0x102), (0x203, 1)),
       "65535": ((0, 1), (0xff, 1), (0x100, 0xfeff), (0xffff, 1), (0x10000, 1), (0x10001, 0x10002))}


def far(name, disks):
    """Each disk's first and last sector gets bytes of its own; then all are read."""
    def script(life):
        driver = Far(life, 0, [], Dice("far"))
        for place, (begin, count) in enumerate(disks):
            for other, sectors in disks[:place]:
                for at in (other, other + sectors - 1):
                    assert comes(driver, place, at, 1).split(" ")[1] == "baddevice"
            assert comes(driver, place, begin, count).split(" ")[1] == "done"
            driver.devices.append(Device(place, "image", 1))
            driver.bring_up(driver.devices[place], Setup())
        for kind in (OUT, IN):
            for device, (_, count) in zip(driver.devices, disks):
                for sector in sorted({0, count - 1, count}):
                    moves(driver, device, kind, sector, (0x20 + 2 * device.number + (sector > 0)) if kind == OUT else 0xee)
                    assert driver.life.records[-1].split(" ")[1] == f"b:{IOERR if sector == count else OK:02x}"

    last, sectors = disks[-1]
    total = START + 2 + last + sectors
    image = {"zeros": total} if total > 65536 else {"image": bytes(total * SECTOR)}
    slot = Wide(BASE, 0x10000, start=START, count=2, disk=f"image+{last + sectors:x}")
    return Life(f"spare_disks/past_sector_{name}", f"Disks over spare sectors on both sides of sector {name}.", script, [slot], **image,
                shows=[("first and last sectors of six disks", f"on both sides of spare sector {name}")])
