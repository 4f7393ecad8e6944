"""Slots with six further devices each, whose driver and host choose by lot what they do next."""
import typing

from .drivers import DEVICE_SEL, DRIVER_FEATURES, DRIVER_SEL, INTERRUPT_ACK, NOTIFY, QUEUE_NUM, QUEUE_READY, QUEUE_SEL, STATUS, WRITE, Buffer, number
from .first_rows import first
from .follows import IN_QUEUE, OF_QUEUE, Guest, Life, Setup, Wide
from .histories import interrupts_stand
from .lots import Dice
from .requests import FLUSH, GET_ID, IN, OUT, WRITE_ZEROES, header, segment
from .saved import saved, saved_window, waiting
from .story import SECTOR

TITLE = "Walks among further devices"
HOW = ("Two slots have six further devices each: an entropy device, a network card, consoles, and disks of the host and over spare sectors. By lot a device is "
       "brought up, reset or written to, chains come, the host supplies bytes and frames, of lengths at each limit, takes what was sent, completes, drops, holds and "
       "releases, resizes and sets links, and a slot is restored from a snapshot, or from one with a bit that differs. After each step the device that it was of, and "
       "by turns each other one, shows its registers and its queues.")
COLUMNS = ("What", "Where")
FOLDERS = {"further_walks": "Slots with six further devices, by lot."}

LENGTH, AREA, HEADERS, ROOMS = 0x40000, 0x2000, 0x20000, 0x24000
# By its word: how many queues a device has, and its `plug` line's fields.
PLUGS = {"entropy": (1, "entropy"), "card": (2, "network:5254{:02x}ab{:02x}01:{:x}"), "console": (2, "console:{:x}:{:x}"),
         "disk": (1, "disk {:x} {} {} {:x}"), "image": (1, "image {:x} {:x} {} {}")}
# Of both slots; the host serves the disk of the second one, which has no spare sectors.
BOARDS = {"one_of_each": [["entropy", "card", "console", "disk", "image", "disk"], ["disk", "entropy", "console", "card", "disk", "entropy"]],
          "disks_and_cards": [["card", "card", "disk", "disk", "image", "image"], ["disk", "disk", "disk", "card", "disk", "card"]],
          "consoles_and_pools": [["console", "entropy", "console", "entropy", "card", "console"], ["entropy", "console", "disk", "console", "entropy", "card"]]}
SEEN = (0x010, 0x034, 0x044, 0x060, 0x070, 0x0fc, 0x100, 0x104, 0x108)
STEPS, WALKS = 420, 4


def stories():
    yield by_hand()
    yield each_number()
    yield each_byte()
    for name, board in BOARDS.items():
        for turn in range(WALKS):
            yield walk(name, board, turn)


def by_hand():
    """Bytes wait in two pools, each of which is its own device's; the second device is reset."""
    return first("further_walks/two_pools_by_hand", "Two entropy devices, a card between them: each pool and each selector is a device's own.", """
plug 0 0 entropy > 0 done - 0 0
plug 0 1 network:525400000001:5dc > 0 done - 0 0
plug 0 2 entropy > 0 done - 0 0
supply 0 0 01020304 > 0 took:4 - 0 0
supply 0 1 05 > 0 baddevice - 0 0
supply 0 2 0607 > 0 took:2 - 0 0
dw 0 2 030 4 00000001 > 0 done - 0 0
dr 0 2 034 4 > 0 v:00000000 - 0 0
dr 0 0 034 4 > 0 v:00000100 - 0 0
dr 0 1 034 4 > 0 v:00000100 - 0 0
dw 0 2 070 4 00000000 > 0 done - 0 0
dr 0 2 034 4 > 0 v:00000100 - 0 0
link 0 1 down > 0 done - 0 0
link 0 1 down > 0 done - 0 0
dr 0 1 0fc 4 > 0 v:00000002 - 0 0
dr 0 0 0fc 4 > 0 v:00000000 - 0 0
""", slots=[Wide()])


class Own(Guest):
    """The driver of a slot's own windows, whose areas lie behind those of its further devices."""

    def areas(self, window, index, home=None):
        at = self.base + LENGTH - 0x6000 + OF_QUEUE[window, index]
        return [at + more for more in IN_QUEUE]


class Device(typing.NamedTuple):
    """A further device, as a window of its slot's driver."""

    number: int
    word: str
    queues: int


class Driver(Guest):
    """A slot's driver and its host; a window is a device."""

    def __init__(self, life, slot, words, dice):
        super().__init__(life, slot)
        self.dice, self.snapshots, self.devices = dice, [], []
        self.acknowledges = True
        for place, word in enumerate(words):
            self.plug(place, word)

    def plug(self, place, word):
        queues, fields = PLUGS[word]
        name = bytes((31 * place + 7 * self.slot + 3 * at) % 256 for at in range(20)).hex()
        image = sum(device.word == "image" for device in self.devices)
        own = {"card": (place, self.slot, (0x5dc, 68, 65521)[place % 3]), "console": (0x50 + place, 0x19 + self.slot), "entropy": (),
               "disk": (6 + place, "ro" if place == 3 else "rw", name, (1, 2, 3, 64)[(place + self.slot) % 4]), "image": (3 * image, 3, ("rw", "ro")[image % 2], name)}[word]
        self.do("plug", f"{place:x} " + fields.format(*own))
        self.devices.append(Device(place, word, queues))

    # --- a window is a device

    def window(self, name):
        return self.life.board[self.slot].devices[name.number].window

    def model_of(self, device):
        return self.life.board[self.slot].devices[device.number]

    def read(self, window, offset, width=4):
        return self.do("dr", f"{window.number:x} {offset:03x} {width}")

    def write(self, window, offset, value, width=4):
        return self.do("dw", f"{window.number:x} {offset:03x} {width} {value % (1 << 8 * width):0{2 * width}x}")

    def areas(self, window, index, home=None):
        at = self.base + AREA * (2 * window.number + (self.setup.home if home is None else home)) + 0x800 * index
        return [at, at + 0x400, at + 0x500]

    def clear(self, window, setup):
        for index in range(window.queues):
            desc, driver, _ = self.areas(window, index, setup.home)
            self.put(driver, bytes(4 if setup.packed else 6 + 2 * setup.size))
            if setup.packed:
                self.put(desc, bytes(16 * setup.size))

    def begin(self, window, setup, without=None, last=None):
        self.setup = setup
        self.clear(window, setup)
        self.accept(window, setup)
        for index in range(window.queues):
            self.make_ready(window, index, setup)
        self.go(window)

    # --- what is done, by lot

    def step(self, device):
        dice = self.dice
        deeds = [(self.comes_up, 1 if self.window(device).live() else 12), (self.chain, 12), (self.of_host, 16), (self.of_register, 2), (self.acknowledge_one, 2),
                 (self.is_restored, 2)]
        deed = dice.one([one for one, weight in deeds for _ in range(weight)])
        deed(device)

    def comes_up(self, device):
        setup = Setup(self.dice.is_one_in(2), self.dice.is_one_in(2), self.dice.one((2, 4, 8)), self.dice.below(2))
        if self.dice.is_one_in(4):
            self.write(device, STATUS, 0)
        else:
            self.bring_up(device, setup)

    def chain(self, device):
        """A chain that the device knows, or one that lacks something; two of them now and then."""
        for _ in range(self.dice.one((1, 1, 2, 3))):
            index = self.dice.below(device.queues)
            at = self.room + ROOMS + 0x1000 * (self.turn % 4)
            buffers = self.readable(device, at) if self.is_sending(device, index) else self.writable(device, at)
            self.setup = self.setup_of(device)
            self.offer(device, index, buffers, self.dice.is_one_in(3) and self.may_use_tables(device))
            if not self.dice.is_one_in(6):
                self.notify(device, index)

    def setup_of(self, device):
        queue = self.window(device).queues[0]
        return Setup(home=int(queue.areas[0] == self.areas(device, 0, 1)[0]))

    def is_sending(self, device, index):
        return device.word in ("disk", "image") or device.queues == 2 and index == 1

    def readable(self, device, at):
        """A text, a frame behind its header, or a request."""
        dice = self.dice
        if device.word in ("disk", "image"):
            return self.request_of(device, at)
        length = dice.one((0, 1, 5, 60, 200))
        self.put(at, bytes((dice.below(256) + place) % 256 for place in range(12 + length)))
        cut = dice.one((12, 12, 1, 5))
        more = [Buffer(at + 0x800, 4, WRITE)] if dice.is_one_in(5) else []
        return [Buffer(at, cut), Buffer(at + cut, 12 + length - cut), *more]

    def writable(self, device, at):
        """Room, which a frame of each length may just fill."""
        dice = self.dice
        length = dice.one((0, 1, 5, 13, 72, 73, 1526, 1527)) if device.word == "card" else dice.one((0, 1, 3, 100, 0x800))
        self.put(at, b"\xee" * min(length, 32))
        cut = dice.below(length + 1)
        return [Buffer(at, cut, WRITE), Buffer(at + cut, length - cut, WRITE)] if dice.is_one_in(2) else [Buffer(at, length, WRITE)]

    def request_of(self, device, at):
        dice, head = self.dice, self.room + HEADERS + 0x400 * (self.turn % 8)
        kind, sector = dice.one((IN, OUT, FLUSH, GET_ID, WRITE_ZEROES, IN, OUT)), dice.below(6)
        data = bytes([dice.below(256)]) * SECTOR if kind == OUT else segment(sector, dice.below(3), dice.below(2)) if kind == WRITE_ZEROES else b""
        room = SECTOR * dice.one((0, 1, 2)) if kind == IN else 20 if kind == GET_ID else 0
        self.put(head, header(kind, sector) + data)
        self.put(at + 0xfff, b"\xee")
        return [Buffer(head, 16), *([Buffer(head + 16, len(data))] if data else []), *([Buffer(at, room, WRITE)] if room else []), Buffer(at + 0xfff, 1, WRITE)]

    def of_host(self, device):
        dice, at = self.dice, f"{device.number:x}"
        if device.word in ("entropy", "console"):
            length = dice.one((0, 1, 2, 3, 7, 100, 1000, 4095, 4096, 4097) if dice.is_one_in(3) else (0, 1, 2, 3, 7))
            self.do("supply", f"{at} {number(dice.below(251) + 1, 1).hex() * (length - 1) + 'a5' if length else '-'}")
        if device.word == "console":
            dice.one((lambda: self.do("take", at), lambda: self.do("dsent", at), lambda: self.do("dsz", f"{at} {dice.below(65536):x} {dice.below(300):x}"),
                      lambda: self.write(device, 0x108, 0x41 + dice.below(26), dice.one((1, 2, 4)))))()
        elif device.word == "card":
            mtu = self.model_of(device).mtu
            dice.one([lambda: self.do("frame", f"{at} {bytes([dice.below(256)]).hex() * dice.one((1, 1, 59, 60, min(mtu + 14, 1514), min(mtu + 14, 1514), 100))}")] * 3
                     + [lambda: self.do("frame", f"{at} {'ab' * (mtu + 15)}"), lambda: self.do("take", at), lambda: self.do("take", at), lambda: self.do("dsent", at),
                        lambda: self.do("link", f"{at} {dice.one(('up', 'down'))}")])()
        elif device.word == "disk":
            tag = dice.below(len(self.model_of(device).tags))
            dice.one([lambda: self.do("dio", f"{at} {tag:x} {dice.one(('done', 'done', 'failed'))}"), lambda: self.do("dio", f"{at} 0 done"),
                      lambda: self.do("dio", f"{at} 1 done")] * 3 + [lambda: self.do(dice.one(("ddrop", "dhold", "drelease", "drelease")), at)])()
        elif dice.is_one_in(3):
            self.do(*dice.one((("supply", f"{at} 00"), ("frame", f"{at} 00"), ("take", at), ("ddrop", at), ("drelease", at), ("link", f"{at} up"), ("dsz", f"{at} 1 2"))))

    def of_register(self, device):
        dice = self.dice
        offset, value = dice.one(((QUEUE_SEL, 1), (QUEUE_SEL, 7), (DEVICE_SEL, 1), (DRIVER_SEL, 1), (DRIVER_FEATURES, 0x20), (QUEUE_NUM, 4), (QUEUE_READY, 0), (QUEUE_READY, 1),
                                  (STATUS, 0x80), (STATUS, 0x100), (NOTIFY, 1), (NOTIFY, 7), (0x080, 0), (0x0ac, 3)))
        self.write(device, offset, value, dice.one((4, 4, 4, 2)))

    def acknowledge_one(self, device):
        self.write(device, INTERRUPT_ACK, self.dice.one((1, 2, 3)))

    def is_restored(self, device):
        """A snapshot that was kept, or one of now, with a bit that differs now and then."""
        dice = self.dice
        if not self.snapshots or dice.is_one_in(2):
            self.snapshots.append(self.snapshot())
        content = dice.one(self.snapshots[-3:])
        if dice.is_one_in(2):
            at = dice.below(len(content)) if dice.is_one_in(3) else len(content) - 5 - dice.below(len(content) // 2)
            content = content[:at] + bytes([content[at] ^ 1 << dice.below(8)]) + content[at + 1:]
        self.do("st", content.hex())

    def snapshot(self, change=lambda own, windows: None, version=2):
        """The slot's, with its further devices, in version 3 with what waits in them; a change is made to its own fields and to the devices' windows."""
        slot = self.life.board[self.slot]
        own, windows = saved(self), [saved_window(one.window) for one in slot.devices]
        change(own, windows)
        front, behind = own.spelled(), 4 + len(own.pending)
        devices = b"".join(number(one.window.device_id, 4) + one.address + number(one.mtu, 2) + number(one.sectors, 8) + one.identity
                           + window.spelled() for one, window in zip(slot.devices, windows))
        whole = front[:8] + number(version, 4) + front[12:-behind] + number(len(slot.devices), 4) + devices + front[-behind:]
        return whole + b"".join(map(waiting, slot.devices)) if version == 3 else whole

    # --- what is seen

    def shows(self, device):
        for offset in SEEN:
            self.read(device, offset)
        for index in range(device.queues):
            self.ring(device, index).look()
        self.look(self.room + ROOMS + 0x1000 * ((self.turn - 1) % 4), 24)


def each_number():
    """A slot with all six devices, and each number of one."""
    def script(life):
        driver = Driver(life, 0, BOARDS["one_of_each"][0], Dice("numbers"))
        for number_of in range(256):
            life.do(f"dr 0 {number_of:x} 008 4")
        for number_of in (6, 7, 8, 15, 16, 17, 31, 32, 64, 127, 128, 129, 254, 255):
            for line in ("dw 0 {:x} 030 4 00000001", "supply 0 {:x} 01", "frame 0 {:x} 01", "take 0 {:x}", "dsent 0 {:x}", "link 0 {:x} down", "dsz 0 {:x} 1 2",
                         "dio 0 {:x} 0 done", "ddrop 0 {:x}", "dhold 0 {:x}", "drelease 0 {:x}", "plug 0 {:x} entropy"):
                life.do(line.format(number_of))
        for device in driver.devices:
            driver.shows(device)

    return Life("further_walks/each_number_of_a_device", "Of 256 numbers a slot with six further devices has the first six.", script,
                [Wide(0x80000000, LENGTH, start=0, count=2, disk="image+8")], image=bytes(10 * SECTOR), shows=[("a device's number", "each")])


def each_byte():
    """A snapshot of a slot with a card, a disk and a console differs in one bit of each byte; its number is each near the right one."""
    def script(life):
        driver = Driver(life, 0, ["card", "disk", "console"], Dice("bytes"))
        for device in driver.devices:
            driver.bring_up(device, Setup(device.number == 1, device.number == 2, 4, device.number % 2))
        content = driver.snapshot()
        for version in (0, 1, 3, 4, 0x102):
            driver.do("st", (content[:8] + number(version, 4) + content[12:]).hex())
        for at in range(len(content)):
            driver.do("st", (content[:at] + bytes([content[at] ^ 1 << at % 8]) + content[at + 1:]).hex())
            if life.records[-1].split(" ")[1] == "done":
                driver.shows(driver.devices[at % 3])
                driver.do("st", content.hex())
        for device in driver.devices:
            driver.shows(device)

    return Life("further_walks/each_byte_of_a_snapshot", "A snapshot of a slot with three further devices differs in one bit of each byte.", script,
                [Wide(0x80000000, LENGTH, count=2, disk="host:1")], shows=[("a snapshot's bytes", "each")])


def walk(name, board, turn):
    def script(life):
        dice = Dice(f"{name} {turn}")
        drivers = [Driver(life, slot, words, dice) for slot, words in enumerate(board)]
        # Each record shows both words of the slot's own windows.
        for slot in (0, 1):
            own = Own(life, slot, 0x80000000 + LENGTH - 0x4000)
            for window in "cb"[slot:]:
                interrupts_stand(own, window, Setup())
        for place in range(STEPS):
            driver = dice.one(drivers)
            device = dice.one(driver.devices)
            driver.step(device)
            driver.shows(device)
            if place % 3 == 0:
                other = drivers[place % 2]
                other.shows(other.devices[place // 2 % 6])

    slots = [Wide(0x80000000, LENGTH, start=0, count=2, disk="image+8"), Wide(0x80000000, LENGTH, start=0, count=3, disk="host:3", identity=b"another slot's disk!")]
    return Life(f"further_walks/{name}_{turn}", "Two slots with six further devices each, whose driver and host choose by lot what they do next.", script, slots,
                image=b"".join(bytes([0x20 + at]) * SECTOR for at in range(10)), shows=[("steps by lot", name.replace("_", " "))])
