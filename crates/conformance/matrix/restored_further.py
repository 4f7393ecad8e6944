"""Windows of further devices restored from snapshots that were changed: generations, how a window stands, places, and what is in flight."""
import functools
import itertools

from .drivers import AREAS, DRIVER_FEATURES, QUEUE_NUM, QUEUE_READY, RING_PACKED, STATUS, VERSION_1, WRITE, Buffer, number
from .first_rows import first
from .follows import Life, Setup, Wide
from .further_apart import Far, Own, asks, room_of
from .further_walks import Device
from .lots import Dice
from .requests import FLUSH, header
from .story import BASE

TITLE = "Further devices restored"
HOW = ("A window of each further device is restored with a ConfigGeneration near each end of its bytes, and the next change counts from there. With each Status, with "
       "what a driver may accept and what it may not, and with a queue ready or not, a window stands so or the snapshot is refused; so is one with some bytes more or "
       "fewer at its end. Each bit of the selectors, of QueueNum and of the areas is restored. Chains passed, left and in flight are each of some numbers. With places in "
       "flight the next chain is taken ahead, and used at the place, near the ring's ends. Holds are those of the snapshot, or of the disks, while another slot has "
       "something in flight.")
COLUMNS = ("What", "Device")
FOLDERS = {"restored_further": "Windows of further devices from snapshots that were changed."}

LENGTH = 0x20000
DEVICE_FEATURES, QUEUE_NUM_MAX = 0x010, 0x034
# A device's kind by its word: the queues that it has, and its `plug` line's fields.
KINDS = {"entropy": (1, "entropy"), "card": (2, "network:525400000001:5dc"), "console": (2, "console:50:19"), "disk": (1, f"disk 8 rw {bytes(range(20)).hex()} 40"),
         "image": (1, f"image 0 4 rw {bytes(range(20)).hex()}")}
GENERATIONS = (0, 0xfe, 0xff, 0x7fff, 0xfffe, 0xffff, 0xffffff, 0x7fffffff, 0xfffffffe, 0xffffffff)
# Combinations of DRIVER_OK, FEATURES_OK, a bit without a name, DEVICE_NEEDS_RESET and FAILED beside the first two bits.
STATUSES = [3 | sum(bits) for bits in itertools.product((0, 4), (0, 8), (0, 0x10), (0, 0x40), (0, 0x80))]
ACCEPTED = (0, VERSION_1, VERSION_1 << 32 | RING_PACKED << 32, VERSION_1 << 32 | 1 << 1)


def stories():
    yield by_hand()
    yield beside_flights()
    for word, (queues, _) in KINDS.items():
        yield story(f"generations_of_{word}", word, generations, "ConfigGeneration")
        yield story(f"fields_of_{word}", word, fields, "each bit of the selectors, and of QueueNum and the areas of a queue that isn't ready")
        yield story(f"ends_of_{word}", word, ends, "bytes behind a snapshot, and bytes that it lacks")
        yield story(f"statuses_of_{word}", word, statuses, "Status, what is accepted, InterruptStatus and QueueReady together")
        for is_packed in (False, True):
            ring = "packed" if is_packed else "split"
            yield story(f"counts_of_{word}_{ring}", word, functools.partial(counts, setup=Setup(True, is_packed, 8)), f"chains passed, left and in flight, a {ring} ring")
            for index in range(queues):
                yield story(f"in_flight_of_{word}_{index}_{ring}", word, functools.partial(in_flight, index=index, is_packed=is_packed), f"places in flight, a {ring} ring")


def by_hand():
    """An entropy device's window is restored; everything else is as it was."""
    own = "4b414c5955424f53 02000000 0000008000000000 0000010000000000 0800000000000000 00 767265706c61792d626c6f636b00000000000000 5000 1900 00"
    rest = "00" * (1 + 8 + 16 + 29 + 29)
    windows = f"4442003045000000 {rest} 00 00000000 0500003045000000 {rest} 00 00000000"
    further = f"01000000 04000000 000000000000 0000 0000000000000000 {'00' * 20} 0000003045000000 03{rest[2:]} 02 ffffffff"
    return first("restored_further/an_entropy_device_by_hand", "Status, InterruptStatus and ConfigGeneration of an entropy device are those of the snapshot.", f"""
plug 0 0 entropy > 0 done - 0 0
st 0 {(own + windows + further + "00000000").replace(" ", "")} > 0 done - 0 0
dr 0 0 070 4 > 0 v:00000003 - 0 0
dr 0 0 060 4 > 0 v:00000002 - 0 0
dr 0 0 0fc 4 > 0 v:ffffffff - 0 0
dr 0 0 044 4 > 0 v:00000000 - 0 0
st 0 {(own + windows + further.replace("0000003045000000", "0000003044000000") + "00000000").replace(" ", "")} > 0 badstate - 0 0
""", slots=[Wide()])


class One(Far):
    """A slot with one further device of a kind."""

    def __init__(self, life, word):
        super().__init__(life, 0, [], Dice(word))
        queues, fields = KINDS[word]
        self.do("plug", f"0 {fields}")
        self.devices = [Device(0, word, queues)]

    def areas(self, window, index, home=None):
        return [self.base + 0x2000 * index + more for more in (0, 0x1000, 0x1400)]

    def restore(self, change):
        return self.do("st", self.snapshot(lambda own, windows: change(windows[0])).hex())


def story(name, word, script, what):
    def written(life):
        driver = One(life, word)
        script(driver, driver.devices[0])

    return Life(f"restored_further/{name}", f"{what} of a further device, {word}.", written, [Wide(BASE, LENGTH, count=8, disk="image+8")],
                image=bytes(16 * 512), shows=[(what, word)])


# --- holds

def beside_flights():
    """Slots over the image and of the host, each with two disks of the host, are restored from snapshots on hold and not; a third one has operations in flight."""
    def script(life):
        image, hosted, busy = [Far(life, slot, ["disk", "disk"], Dice("holds")) for slot in range(3)]
        own = Own(life, 2, [], Dice("holds"))
        for driver, device in ((busy, busy.devices[1]), (own, own.devices[0])):
            driver.bring_up(device, Setup())
            asks(driver, device)
        for driver in (image, hosted):
            for held in itertools.product((False, True), repeat=3):
                for in_snapshot in (0, 1, 2):
                    restored_on_hold(driver, held, in_snapshot)
        busy.do("st", busy.snapshot().hex())

    slots = [Wide(BASE, LENGTH, count=8, disk=disk) for disk in ("image", "host:2", "host:2")]
    return Life("restored_further/holds_beside_flights", "Slots on hold with disks on hold are restored while another slot has operations in flight.", script, slots,
                image=bytes(8 * 512), shows=[("holds of a slot and of its disks", "beside what is in flight of another slot")])


def restored_on_hold(driver, held, in_snapshot):
    """Whatever was on hold, what is then is told by a hold and a release of each."""
    for word, field, is_held in zip(("hold", "dhold", "dhold"), ("", "0", "1"), held):
        if is_held:
            driver.do(word, field)
    driver.do("st", driver.snapshot(lambda own, windows: vars(own).update(held=in_snapshot)).hex())
    for then in ("hold", "release"):
        for word, field in ((then, ""), (f"d{then}", "0"), (f"d{then}", "1")):
            driver.do(word, field)


# --- where a snapshot ends

def ends(driver, device):
    """With no input that is pending, with some and with the most, a snapshot is whole; with bytes more or fewer it is none."""
    for length, many in ((0, (1, 2, 3, 4, 7, 8, 16, 255, 256, 4096)), (5, (1, 4, 5, 6)), (4096, (1, 4, 4096))):
        content = driver.snapshot(lambda own, windows: vars(own).update(pending=bytes(length)))
        assert is_taken_up(driver, content)
        at = len(content) - length - 4
        others = [content[:at] + number(count, 4) + content[at + 4:] for count in range(max(0, length - 2), length + 3) if count != length]
        others += [content + byte * count for count in many for byte in (b"\0", b"\1", b"\xff")] + [content[:-count] for count in many if count <= at]
        for other in others:
            assert not is_taken_up(driver, other)
        driver.read(device, STATUS)


def is_taken_up(driver, content):
    return driver.do("st", content.hex()).split(" ")[1] == "done"


# --- what a window has

def generations(driver, device):
    """The next change of a card's link, of a console's size and of the slot's own counts from there; another device's stays."""
    driver.bring_up(device, Setup())
    for generation in GENERATIONS:
        driver.restore(lambda window: vars(window).update(generation=generation))
        driver.read(device, 0x0fc)
        for turn in range(2):
            driver.do("link", driver.at(device, ("down", "up")[turn]))
            driver.do("dsz", driver.at(device, f"{turn:x} 7"))
            for offset in (0x0fc, 0x060):
                driver.read(device, offset)
    for generation in GENERATIONS:
        driver.do("st", driver.snapshot(lambda own, windows: vars(own.windows["c"]).update(generation=generation)).hex())
        for turn in range(2):
            driver.do("sz", f"{turn:x} 7")
            driver.do("r", "c 0fc 4")


def statuses(driver, device):
    driver.bring_up(device, Setup())
    for turn, (status, accepted, is_ready) in enumerate(itertools.product(STATUSES, ACCEPTED, (True, False))):
        def change(window):
            vars(window).update(status=status, accepted=accepted, interrupts=turn % 4)
            window.queues[0].ready = is_ready
        driver.restore(change)
        if driver.life.records[-1].split(" ")[1] == "done":
            for offset in (STATUS, 0x060, QUEUE_READY):
                driver.read(device, offset)
            driver.bring_up(device, Setup())


def fields(driver, device):
    """A field differs in one bit: the selectors decide what is shown or accepted, the queue's numbers whether it can be made ready."""
    driver.bring_up(device, Setup())
    index = device.queues - 1
    for bit in range(32):
        for place, offset in ((0, DEVICE_FEATURES), (2, QUEUE_NUM_MAX)):
            driver.restore(lambda window: window.selectors.__setitem__(place, index ^ 1 << bit))
            driver.read(device, offset)
        driver.restore(lambda window: vars(window).update(status=3, selectors=[0, 1 << bit, 0, 0]))
        driver.write(device, DRIVER_FEATURES, 2)
        driver.write(device, STATUS, 0xb)
        driver.read(device, STATUS)
        driver.bring_up(device, Setup())
    changes = [lambda queue, bit=bit: vars(queue).update(number=4 ^ 1 << bit) for bit in range(32)]
    changes += [lambda queue, area=area, bit=bit: queue.areas.__setitem__(area, queue.areas[area] ^ 1 << bit) for area in range(3) for bit in range(64)]
    for change in changes:
        is_made_ready(driver, device, index, change)


def is_made_ready(driver, device, index, change):
    """A queue that isn't ready is restored with a change, and the driver tries to make it ready."""
    def without(window):
        window.selectors[2], window.queues[index].ready = index, False
        change(window.queues[index])
    driver.restore(without)
    driver.write(device, QUEUE_READY, 1)
    driver.read(device, QUEUE_READY)
    driver.write(device, QUEUE_READY, 0)
    for offset, area in zip(AREAS, driver.areas(device, index)):
        driver.write(device, offset, area % 2**32)
        driver.write(device, offset + 4, 0)
    driver.write(device, QUEUE_NUM, 4)


def counts(driver, device, setup):
    """Each count is none, a part of the ring, and the ring whole, so that two of them do and three of them don't; each place is at an end."""
    size = setup.size
    driver.bring_up(device, setup)
    index = device.queues - 1
    for place in (0, size - 1, 2 * size - 1, 2 * size) if setup.packed else (0, 65535):
        for passed, left, ahead in itertools.product((0, 3, size - 3, size, size + 1, 2 * size - 1), (0, 3, size), (0, 3, size - 3, size, size + 1)):
            driver.restore(lambda window: vars(window.queues[index]).update(place=place, passed=passed, left=left, ahead=ahead))


# --- places in flight

def in_flight(driver, device, index, is_packed):
    """Of a restored window two chains are used, which are taken ahead of the place, and the driver names the place that is used first."""
    for size in (8, 256):
        setup = Setup(True, is_packed, size)
        for place, ahead in itertools.product((0, size - 1, size, 2 * size - 1) if is_packed else (0, size - 1, 65534, 65535), (0, 1, 3, size // 2 + 1, size - 2)):
            driver.bring_up(device, setup)
            driver.restore(lambda window: vars(window.queues[index]).update(place=place, ahead=ahead))
            ring = driver.ring(device, index)
            if is_packed:
                driver.put(ring.areas[1], number(place % size | (place < size) << 15, 2) + number(2, 2))
            else:
                driver.put(ring.areas[1] + 4 + 2 * size, number(place, 2))
                driver.put(ring.areas[1] + 2, number((place + ahead) % 65536, 2))
            for turn in range(2):
                flows(driver, device, index, turn)
                shows(driver, device, index, ring, place, turn)


def flows(driver, device, index, turn):
    """A chain is offered and used: it gets bytes or a frame, or has some, or is a flush."""
    at = room_of(driver, device)
    if device.word in ("disk", "image"):
        driver.put(at, header(FLUSH))
        driver.offer(device, 0, [Buffer(at, 16), Buffer(at + 0x100 + turn, 1, WRITE)])
        driver.notify(device, 0)
        driver.tell(device, "io", "0 done")
    elif index == 1:
        driver.put(at, bytes(12) + number(0x5141 + turn, 2))
        driver.offer(device, 1, [Buffer(at, 14)])
        driver.notify(device, 1)
        driver.do("take", driver.at(device))
    else:
        driver.offer(device, 0, [Buffer(at, 14, WRITE)])
        driver.do("frame" if device.word == "card" else "supply", driver.at(device, f"a{turn}b1"))
        driver.look(at, 14)


def shows(driver, device, index, ring, place, turn):
    """The used entry, and what the device writes beside the entries."""
    desc, _, used = ring.areas
    at = (place + turn) % ring.number
    driver.look(*((desc + 16 * at, 16) if ring.is_packed else (used + 4 + 8 * at, 8)))
    driver.look(used, 4)
    if not ring.is_packed:
        driver.look(used + 4 + 8 * ring.number, 2)
    driver.read(device, 0x060)
    driver.acknowledge(device)
