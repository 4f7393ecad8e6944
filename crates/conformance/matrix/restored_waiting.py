"""What waits in further devices, restored from snapshots of version 3: each bit, each end, each order of devices, and drivers that wait."""
import itertools

from .drivers import WRITE, Buffer
from .first_rows import first
from .follows import Life, Setup, Wide
from .further_apart import Far, room_of
from .further_walks import Device
from .lots import Dice
from .requests import FLUSH, header
from .story import BASE

TITLE = "What waits in further devices, restored"
HOW = ("Bytes, frames, input, output, a link, a size and a hold of each further device are restored. Each of their bits is turned, they end at each byte and go on behind their "
       "end: the snapshot is refused, or what comes out says what was taken. Six devices stand in each order that a turn or a mirror gives. Of each queue a chain is on offer "
       "when its slot is saved; what the host and the driver did then is taken back, and done again.")
COLUMNS = ("What", "Device")
FOLDERS = {"restored_waiting": "What waits in further devices, from snapshots."}

LENGTH = 0x20000
# A device's kind by its word: the queues that it has, and its `plug` line's fields.
KINDS = {"entropy": (1, "entropy"), "card": (2, "network:525400000001:5dc"), "console": (2, "console:50:19"), "disk": (1, f"disk 8 rw {bytes(range(20)).hex()} 2"),
         "image": (1, f"image 0 4 rw {bytes(range(20)).hex()}")}
SIX = ("entropy", "card", "console", "disk", "image", "entropy")


def stories():
    yield by_hand()
    for word in KINDS:
        yield story(f"bits_of_{word}", [word], bits, "each bit of what waits", word)
        yield story(f"ends_of_{word}", [word], ends, "where what waits ends", word)
        for is_packed in (False, True):
            ring = "packed" if is_packed else "split"
            yield story(f"chains_of_{word}_{ring}", [word], chains(is_packed), f"a chain on offer at a save, a {ring} ring", word)
    for turn in range(6):
        for way, words in (("rising", SIX), ("falling", SIX[::-1])):
            yield story(f"six_in_{way}_order_{turn}", words[turn:] + words[:turn], order, "the order of six devices", f"{way}, turned by {turn}")


def by_hand():
    """Two bytes of a pool and a frame of the driver, and the link is down."""
    own = "4b414c5955424f53 03000000 0000008000000000 0000010000000000 0800000000000000 00 767265706c61792d626c6f636b00000000000000 5000 1900 00"
    windows = f"4442003045000000 {'00' * 88} 0500003045000000 {'00' * 88}"
    devices = f"02000000 04000000 {'00' * 36} 0000003045000000 {'00' * 88} 01000000 525400000001 dc05 {'00' * 28} 2800013045000000 {'00' * 88}"
    waits = f"02000000 a1a2 00 {'00' * 16} 00000000 01000000 03000000 b1b2b3"
    good = (own + windows + devices + "00000000" + waits).replace(" ", "")
    return first("restored_waiting/two_bytes_and_a_frame_by_hand", "A pool has two bytes, a driver sent a frame, and a link is down.", f"""
plug 0 0 entropy > 0 done - 0 0
plug 0 1 network:525400000001:5dc > 0 done - 0 0
st 0 {good[:-2]} > 0 badstate - 0 0
dr 0 1 106 2 > 0 v:00000001 - 0 0
st 0 {good} > 0 done - 0 0
dr 0 1 106 2 > 0 v:00000000 - 0 0
supply 0 0 {'a3' * 4096} > 0 took:ffe - 0 0
take 0 1 > 0 b:b1b2b3 - 0 0
take 0 1 > 0 b:- - 0 0
""", slots=[Wide()])


class Full(Far):
    """A slot with these further devices, each live, with something waiting where it may."""

    def __init__(self, life, words):
        super().__init__(life, 0, [], Dice("waiting"))
        for place, word in enumerate(words):
            queues, fields = KINDS[word]
            self.do("plug", f"{place:x} {fields}")
            self.devices.append(Device(place, word, queues))

    def fill(self, device, value):
        """Bytes, frames each way, input and output; another link, size or hold."""
        at = room_of(self, device)
        if device.word in ("entropy", "console"):
            self.do("supply", self.at(device, f"{value:02x}{value + 1:02x}{value + 2:02x}"))
        if device.word == "console":
            for more in range(2):
                self.write(device, 0x108, 0x40 + value + more, 1)
            self.do("dsz", self.at(device, f"{0x84 + value:x} {0x2b + value:x}"))
        elif device.word == "card":
            for length in (2, 1):
                self.do("frame", self.at(device, f"{value:02x}" * length))
                self.put(at, bytes(12) + bytes([0x80 + value]) * length)
                self.offer(device, 1, [Buffer(at, 12 + length)])
                self.notify(device, 1)
            self.do("link", self.at(device, "down"))
        elif device.word == "disk":
            self.do("dhold", self.at(device))

    def comes_out(self, device):
        """What is told of it: what the host takes, what finds room, and what a driver gets."""
        for offset, width in ((0x100, 4), (0x104, 4), (0x060, 4), (0x0fc, 4)):
            self.read(device, offset, width)
        for _ in range(3):
            self.do("take", self.at(device))
        for word in ("dhold", "drelease"):
            self.do(word, self.at(device))
        if device.word in ("entropy", "card", "console"):
            at = room_of(self, device) + 0x100
            self.put(at, b"\xee" * 24)
            for place in (at, at + 32):
                self.offer(device, 0, [Buffer(place, 14 if device.word == "card" else 3, WRITE)])
            self.notify(device, 0)
            self.look(at, 56)
            self.do("supply", self.at(device, "5a" * 4096))


def story(name, words, script, what, of):
    def written(life):
        script(Full(life, words))

    return Life(f"restored_waiting/{name}", f"{what}: {of}.", written, [Wide(BASE, LENGTH, count=8, disk="image+8")], image=bytes(16 * 512), shows=[(what, of)])


def saved(driver):
    """The slot, and the guest's memory behind its queues' areas and its buffers."""
    return driver.snapshot(version=3), [(at, driver.life.board[0].memory.part(at, 0x800)) for at in range(BASE, BASE + 0xa000, 0x800)]


def rolled_back(driver, snapshot, pages):
    for at, page in pages:
        if driver.life.board[0].memory.part(at, len(page)) != page:
            driver.put(at, page)
    return driver.do("st", snapshot.hex())


def live(driver, setup=Setup()):
    for device in driver.devices:
        driver.bring_up(device, setup)


# --- bits, ends, orders

def bits(driver):
    """What is taken is seen, and taken back; what is refused is followed by what was right."""
    device = driver.devices[0]
    live(driver)
    driver.fill(device, 0x11)
    content, pages = saved(driver)
    for bit in range(8 * len(driver.snapshot()), 8 * len(content)):
        other = bytearray(content)
        other[bit // 8] ^= 1 << bit % 8
        if driver.do("st", other.hex()).split(" ")[1] == "done":
            driver.comes_out(device)
            rolled_back(driver, content, pages)
    driver.comes_out(device)


def ends(driver):
    device = driver.devices[0]
    live(driver)
    driver.fill(device, 0x21)
    content, pages = saved(driver)
    for length in range(len(driver.snapshot()) - 1, len(content)):
        driver.do("st", content[:length].hex())
    for more, byte in itertools.product((1, 2, 4, 16), (b"\0", b"\1", b"\xff")):
        driver.do("st", (content + more * byte).hex())
    driver.comes_out(device)
    rolled_back(driver, content, pages)
    driver.comes_out(device)


def order(driver):
    live(driver)
    for device in driver.devices:
        driver.fill(device, 0x31 + device.number)
    content, pages = saved(driver)
    for device in driver.devices:
        driver.comes_out(device)
    rolled_back(driver, content, pages)
    for device in driver.devices:
        driver.comes_out(device)


# --- chains on offer

def chains(is_packed):
    def script(driver):
        """A driver has notified of a chain of each queue; what is done then is done once more behind a restore."""
        device = driver.devices[0]
        live(driver, Setup(True, is_packed, 8))
        at = room_of(driver, device)
        if device.word == "disk":
            driver.do("dhold", driver.at(device))
        if device.word in ("disk", "image"):
            driver.put(at, header(FLUSH))
            driver.offer(device, 0, [Buffer(at, 16), Buffer(at + 0x100, 1, WRITE)])
        else:
            driver.offer(device, 0, [Buffer(at + 0x100, 16, WRITE)])
        if device.word != "image":
            driver.notify(device, 0)
        if device.word == "console":
            driver.write(device, 0x108, 0x41, 1)
        content, pages = saved(driver)
        for _ in range(2):
            served(driver, device)
            rolled_back(driver, content, pages)
        served(driver, device)

    return script


def served(driver, device):
    at = room_of(driver, device)
    driver.read(device, 0x060)
    if device.word == "image":
        driver.notify(device, 0)
    driver.do("drelease", driver.at(device))
    driver.do("dio", driver.at(device, "0 done"))
    driver.do("supply", driver.at(device, "c1c2c3"))
    driver.do("frame", driver.at(device, "d1d2"))
    driver.do("take", driver.at(device))
    driver.look(at + 0x100, 16)
    driver.look(driver.areas(device, 0)[2], 16)
    driver.read(device, 0x060)
