"""Each thing that a further device's driver or host does, 258 times."""
from .drivers import INTERRUPT_ACK, NOTIFY, STATUS, WRITE, Buffer
from .first_rows import first
from .follows import Life, Setup, Wide
from .further_walks import Driver
from .lots import Dice
from .requests import FLUSH, GET_ID, IN, OUT, header
from .story import SECTOR

TITLE = "Each thing of a further device 258 times"
HOW = ("Each thing that the driver or the host of a further device does is done 258 times, in a split ring and in a packed one, and what comes of it is looked at each "
       "time: the 256th and the 257th are as the first. Then each queue is used, and all registers are read.")
COLUMNS = ("What", "Rings")
FOLDERS = {"further_times": "Each thing of a further device, 258 times."}

TIMES, LENGTH = 258, 0x40000


def stories():
    yield by_hand()
    for word, deeds in DEEDS.items():
        for is_packed in (False, True):
            yield many(word, deeds, is_packed)


def by_hand():
    """Links that go up and down, and supplies of a byte, counted by hand."""
    lines = "\n".join(f"link 0 0 {('down', 'up')[turn % 2]} > 0 done - 0 0\ndr 0 0 0fc 4 > 0 v:{turn + 1:08x} - 0 0" for turn in range(258))
    return first("further_times/258_links_by_hand", "A link is set 258 times: each has its generation.", f"""
plug 0 0 network:525400000001:5dc > 0 done - 0 0
{lines}
dr 0 0 106 2 > 0 v:00000001 - 0 0
""", slots=[Wide()])


def many(word, deeds, is_packed):
    def script(life):
        driver = Driver(life, 0, [word], Dice(word))
        device, setup = driver.devices[0], Setup(True, is_packed, 4, 0)
        for deed in deeds:
            driver.bring_up(device, setup)
            for _ in range(TIMES):
                deed(driver, device)
                driver.read(device, 0x060)
                driver.write(device, INTERRUPT_ACK, 3)
            driver.shows(device)
        driver.bring_up(device, setup)
        for index in range(device.queues):
            driver.chain(device)
            driver.shows(device)

    kind = "packed" if is_packed else "split"
    slot = Wide(0x80000000, LENGTH, start=0, count=2, disk="image+8") if word == "image" else Wide(0x80000000, LENGTH, count=2, disk="host:1")
    return Life(f"further_times/{kind}_{word}", f"Each thing that a further device of this kind, {word}, is for is done 258 times.", script, [slot],
                image=b"".join(bytes([0x20 + at]) * SECTOR for at in range(10)), shows=[(word, kind)])


# --- what is done

def supplied_for_a_chain(driver, device):
    """Room for three bytes, of which two come."""
    receives(driver, device, lambda: driver.do("supply", f"{device.number:x} {driver.turn % 256:02x}5a"))


def supplied_before_a_chain(driver, device):
    driver.do("supply", f"{device.number:x} {driver.turn % 256:02x}")
    receives(driver, device, lambda: driver.write(device, NOTIFY, 0x5a0000))


def supplied_with_nothing(driver, device):
    driver.do("supply", f"{device.number:x} -")


def framed_for_a_chain(driver, device):
    receives(driver, device, lambda: driver.do("frame", f"{device.number:x} {driver.turn % 256:02x}"))


def framed_too_long(driver, device):
    """A frame that doesn't fit is dropped."""
    receives(driver, device, lambda: driver.do("frame", f"{device.number:x} {'ab' * 9}"))
    driver.do("frame", f"{device.number:x} cd")


def receives(driver, device, then, room=20):
    at = driver.room + 0x24000
    driver.put(at, b"\xee" * 24)
    driver.offer(device, 0, [Buffer(at, 2, WRITE), Buffer(at + 2, room - 2, WRITE)], driver.turn % 2 == 0)
    then()
    driver.look(at, 24)
    driver.ring(device, 0).look()


def sent_and_taken(driver, device):
    sends(driver, device)
    for _ in range(2):
        driver.do("take", f"{device.number:x}")


def sent_and_dropped(driver, device):
    sends(driver, device)
    driver.do("dsent", f"{device.number:x}")


def sends(driver, device):
    at = driver.room + 0x25000
    driver.put(at, bytes(12) + bytes([driver.turn % 256, 0x77]))
    driver.offer(device, 1, [Buffer(at, 14)], driver.turn % 2 == 0)
    driver.notify(device, 1)
    driver.ring(device, 1).look()


def linked(driver, device):
    driver.do("link", f"{device.number:x} {('up', 'down')[driver.turn % 2]}")
    driver.turn += 1
    driver.read(device, 0x0fc)


def resized(driver, device):
    driver.do("dsz", f"{device.number:x} {driver.turn % 65536:x} 7")
    driver.turn += 1
    for offset in (0x0fc, 0x100):
        driver.read(device, offset)


def puts_an_emergency_byte_out(driver, device):
    driver.write(device, 0x108, 0x30 + driver.turn % 10, (1, 2, 4)[driver.turn % 3])
    driver.turn += 1
    if driver.turn % 7 == 0:
        driver.do("take", f"{device.number:x}")


def asks(driver, device):
    """A request of each type by turns, whose operation is done, and each third fails."""
    kind = (IN, OUT, FLUSH, GET_ID)[driver.turn % 4]
    at, room = driver.room + 0x24000, SECTOR if kind == IN else 20 if kind == GET_ID else 0
    data = bytes([driver.turn % 256]) * SECTOR if kind == OUT else b""
    driver.put(at, header(kind) + data)
    driver.put(at + 0x800, b"\xee" * 4)
    chain = [Buffer(at, 16 + len(data)), *([Buffer(at + 0x400, room, WRITE)] if room else []), Buffer(at + 0x800, 1, WRITE)]
    driver.offer(device, 0, chain, driver.turn % 2 == 0)
    driver.notify(device, 0)
    return at


def asks_and_is_answered(driver, device):
    at = asks(driver, device)
    if device.word == "disk":
        driver.do("dio", f"{device.number:x} 0 {'failed' if driver.turn % 3 == 0 else 'done'}")
    driver.look(at + 0x800, 1)
    driver.ring(device, 0).look()


def is_held_and_released(driver, device):
    driver.do("dhold", f"{device.number:x}")
    at = asks(driver, device)
    driver.do("drelease", f"{device.number:x}")
    driver.do("dio", f"{device.number:x} 0 done")
    driver.look(at + 0x800, 1)


def is_dropped(driver, device):
    asks(driver, device)
    driver.do("ddrop", f"{device.number:x}")
    driver.read(device, STATUS)
    driver.bring_up(device, Setup(True, driver.window(device).queues[0].packed, 4, 0))


DEEDS = {"entropy": [supplied_for_a_chain, supplied_before_a_chain, supplied_with_nothing],
         "card": [framed_for_a_chain, framed_too_long, sent_and_taken, sent_and_dropped, linked],
         "console": [supplied_for_a_chain, supplied_before_a_chain, sent_and_taken, sent_and_dropped, resized, puts_an_emergency_byte_out],
         "disk": [asks_and_is_answered, is_held_and_released, is_dropped], "image": [asks_and_is_answered]}
