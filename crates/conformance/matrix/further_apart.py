"""Boards of 64 slots with further devices, most with six that are alike: what is done to one is seen at no other one and in no other slot."""
from .drivers import STATUS, WRITE, Buffer
from .first_rows import first
from .follows import Guest, Life, Setup, Wide
from .further_walks import Device, Driver
from .lots import Dice
from .requests import FLUSH, header
from .story import BASE

TITLE = "Each event of a further device among many slots"
HOW = ("64 slots have six further devices each, alike or of several kinds, and windows of their own. Each event of a device, and each of a disk that the host serves, "
       "is had by half of them, so that two whose slots or numbers differ in one bit never both have it; or each has its own value. Then all show what they have: "
       "bytes, frames, sizes, links, operations, holds and restored windows. The slots come in rising and in falling order.")
COLUMNS = ("What", "Order")
FOLDERS = {"further_apart": "Each event of a further device, and of a disk of the host, in each of 64 slots."}

SLOTS, LENGTH, ROOM, IN_QUEUE = 64, 0x10000, 0x8000, (0, 0x400, 0x500)
ORDERS = {"rising": range(SLOTS), "falling": range(SLOTS - 1, -1, -1)}
SEEN = (0x060, 0x070, 0x0fc, 0x100)
# By its word: how many queues a device has, and its `plug` line's fields.
ALIKE = {"entropy": (1, "entropy"), "card": (2, "network:525400000001:5dc"), "console": (2, "console:50:19"), "disk": (1, f"disk 8 rw {bytes(range(20)).hex()} 2")}


def stories():
    yield by_hand()
    for order in ORDERS:
        for name, (drivers_of, words, script) in BOARDS.items():
            yield board(name, drivers_of, words, script, order)


def by_hand():
    """Slots 1 and 33 have a console each: a size, a byte and a hold are one slot's own."""
    return first("further_apart/a_size_in_slot_33_by_hand", "The consoles of slots 1 and 33 have sizes and output of their own.", """
plug 1 0 console:1:2 > 1 done - 0 0
plug 21 0 console:3:4 > 21 done - 0 0
dsz 21 0 5 6 > 21 done - 0 0
dr 1 0 100 4 > 1 v:00020001 - 0 0
dr 21 0 100 4 > 21 v:00060005 - 0 0
dr 1 0 0fc 4 > 1 v:00000000 - 0 0
dr 21 0 0fc 4 > 21 v:00000001 - 0 0
dw 21 0 108 1 41 > 21 done - 0 0
take 1 0 > 1 b:- - 0 0
take 21 0 > 21 b:41 - 0 0
""", slots=[Wide(BASE, 0x1000, count=0)] * 34)


class Far(Driver):
    """A slot's driver and host, whose devices of a kind are alike."""

    def plug(self, place, word):
        queues, fields = ALIKE[word]
        self.do("plug", f"{place:x} {fields}")
        self.devices.append(Device(place, word, queues))

    def areas(self, window, index, home=None):
        return [self.base + 0x800 * (2 * window.number + index) + more for more in IN_QUEUE]

    def place_of(self, device):
        return device.number

    def tell(self, device, word, more=""):
        """An event of a further disk, which a slot's own has without a d."""
        return self.do(f"d{word}", self.at(device, more))

    def at(self, device, more=""):
        return f"{device.number:x}" + (f" {more}" if more else "")


class Own(Guest):
    """The driver and the host of a slot's own disk, which counts as its eighth device."""

    def __init__(self, life, slot, words, dice):
        super().__init__(life, slot)
        self.devices = ["b"]

    def areas(self, window, index, home=None):
        return [self.base + 0x7000 + more for more in IN_QUEUE]

    def place_of(self, window):
        return 7

    def tell(self, window, word, more=""):
        return self.do(word, more)


def room_of(driver, device):
    return driver.base + ROOM + 0x200 * driver.place_of(device)


def value_of(driver, device):
    """Each device's own."""
    return 6 * driver.slot + driver.place_of(device) + 1


def is_chosen(driver, device):
    """Whether a device is of the half that has an event; one whose slot or number differs in a bit is of the other half."""
    return (bin(driver.slot) + bin(driver.place_of(device))).count("1") % 2 == 1


def board(name, drivers_of, words, script, order):
    """A board whose own windows all have DRIVER_OK, so that a record would show an interrupt of theirs."""
    def written(life):
        drivers = [driver_of(life, slot, words(slot), Dice(name)) for slot in ORDERS[order] for driver_of in drivers_of]
        for slot in ORDERS[order]:
            for window in "bc":
                life.do(f"w {slot:x} {window} 070 4 00000004")
        script(drivers)
        for driver, device in each(drivers):
            for offset in SEEN:
                driver.read(device, offset)
        for slot in ORDERS[order]:
            for window in "bc":
                life.do(f"r {slot:x} {window} 070 4")

    return Life(f"further_apart/{name}_{order}", f"64 slots in {order} order: {name.replace('_', ' ')}.", written, [Wide(BASE, LENGTH, count=8, disk="host:1")] * SLOTS,
                shows=[(name.replace("_", " "), order)])


def each(drivers):
    return [(driver, device) for driver in drivers for device in driver.devices]


# --- what waits

def what_waits(drivers):
    """Each device gets bytes or a frame of its own; consoles and cards of one half have another size or link, and their output is taken."""
    for driver, device in each(drivers):
        content = f"{value_of(driver, device):04x}"
        driver.do("frame" if device.word == "card" else "supply", driver.at(device, content))
        if device.word == "console":
            driver.write(device, 0x108, value_of(driver, device) % 256, 1)
    for driver, device in each(drivers):
        if device.word == "console" and is_chosen(driver, device):
            driver.do("dsz", driver.at(device, f"{value_of(driver, device):x} 3"))
        if device.word == "card" and is_chosen(driver, device):
            driver.do("link", driver.at(device, "down"))
    for word in ("take", "dsent"):
        for driver, device in each(drivers):
            if device.word == "console" and is_chosen(driver, device) == (word == "take"):
                driver.do(word, driver.at(device))
    for driver, device in each(drivers):
        driver.bring_up(device, Setup())
        driver.offer(device, 0, [Buffer(room_of(driver, device), 16, WRITE)])
        driver.notify(device, 0)
        driver.look(room_of(driver, device), 14)


# --- disks

def asked(drivers):
    """Half of the disks are held and released, then half of what is in flight is done or fails, and the other half is dropped."""
    told(drivers, "hold", lambda chosen: chosen)
    for driver, device in each(drivers):
        driver.bring_up(device, Setup())
        asks(driver, device)
    told(drivers, "hold")
    told(drivers, "release", lambda chosen: chosen)
    told(drivers, "io", lambda chosen: chosen, "0 done")
    told(drivers, "drop", lambda chosen: not chosen)
    for word, more in (("io", "0 done"), ("drop", ""), ("release", "")):
        told(drivers, word, more=more)
    for driver, device in each(drivers):
        driver.look(room_of(driver, device) + 0x100, 1)


def told(drivers, word, is_had=lambda chosen: True, more=""):
    for driver, device in each(drivers):
        if is_had(is_chosen(driver, device)):
            driver.tell(device, word, more)


def asks(driver, device):
    """A flush, of which the status is ee before."""
    at = room_of(driver, device)
    driver.put(at, header(FLUSH))
    driver.put(at + 0x100, b"\xee")
    driver.offer(device, 0, [Buffer(at, 16), Buffer(at + 0x100, 1, WRITE)])
    driver.notify(device, 0)


# --- snapshots

def restored(drivers):
    """Half of the slots are restored from snapshots with sizes and interrupts of their own."""
    snapshots = {}
    for driver in drivers:
        driver.do("sz", f"{driver.slot + 1:x} 7")
        for device in driver.devices:
            driver.write(device, STATUS, 1 + value_of(driver, device) % 6)
        snapshots[driver.slot] = driver.snapshot()
        driver.do("sz", "50 19")
        for device in driver.devices:
            driver.write(device, STATUS, 0)
    for driver, device in [(driver, driver.devices[0]) for driver in drivers]:
        if is_chosen(driver, device):
            driver.do("st", snapshots[driver.slot].hex())
    for driver in drivers:
        driver.do("r", "c 100 4")
        driver.do("r", "c 0fc 4")


def of_kinds(*kinds):
    """Six devices a slot, by turns of these kinds."""
    return lambda slot: [kinds[(slot + place) % len(kinds)] for place in range(6)]


BOARDS = {"bytes_that_wait": ([Far], of_kinds("entropy"), what_waits), "frames_that_wait": ([Far], of_kinds("card"), what_waits),
          "consoles": ([Far], of_kinds("console"), what_waits), "bytes_frames_and_consoles": ([Far], of_kinds("entropy", "card", "console"), what_waits),
          "disks": ([Own, Far], of_kinds("disk"), asked), "snapshots": ([Far], lambda slot: ["entropy", "console"], restored)}
