"""What waits in a further device, up to each limit and past it, and chains in many buffers."""
import itertools

from .drivers import NOTIFY, WRITE, Buffer, number
from .first_rows import first
from .follows import Life, Setup, Wide
from .further_walks import Device, Driver
from .lots import Dice
from .requests import IN, OUT, header
from .story import SECTOR

TITLE = "Amounts of further devices"
HOW = ("What waits in a device is filled up to its limit by one piece and by three; then comes less, as much and more than there is room for. "
       "All is taken and shown, and so once more, past where a ring of as many bytes would turn. Of a full room one piece leaves and another comes, in turns. Up to 64 frames "
       "are dropped before one that fits. An event has more than 65536 bytes, a chain 2^16 to 2^31. Frames of each length near an MTU's limit go in and are received. A "
       "header, a frame, a text, random bytes and a request's data lie in 1 to 250 buffers.")
COLUMNS = ("What", "How much")
FOLDERS = {"further_amounts": "What waits in further devices up to each limit, and chains in many buffers."}

LENGTH, AREA, IN_AREA, TEXTS, ROOMS, STATUS = 0x80000, 0x6000, (0, 0x1000, 0x1400), 0x20000, 0x40000, 0x7fff0
# A frame's header, what waits of frames and of output at most, and of random and typed bytes.
HEADER, MANY, FEW, FRAMES = 12, 65536, 4096, 64
MTUS = (68, 242, 1500, 32768, 65522, 65535)
# Into how many buffers a chain is cut.
CUTS = (1, 2, 3, 4, 5, 8, 9, 12, 13, 15, 16, 17, 31, 32, 33, 63, 64, 65, 126, 127, 128, 129, 250)


def stories():
    yield by_hand()
    for is_packed in (False, True):
        for name, (kind, script) in FILLED.items():
            for way in WAYS:
                yield story(f"{name}_{way}", kind, script, is_packed, name.replace("_", " "), "up to its limit, and past it", way)
        for name, (kind, script) in COUNTED.items():
            yield story(name, kind, script, is_packed, name.replace("_", " "), "and what comes behind them")
        for name, (kind, script) in REFILLED.items():
            yield story(f"{name}_in_a_full_room", kind, script, is_packed, name.replace("_", " "), "one leaves a full room, and one comes")
        for name, (kind, script) in LONG.items():
            yield story(f"{name}_of_many_bytes", kind, script, is_packed, name.replace("_", " "), "2^16 to 2^31 bytes in a chain", length=LONGEST)
        for name, (kind, script) in IN_PARTS.items():
            yield story(f"{name}_in_many_buffers", kind, script, is_packed, name.replace("_", " "), "in 1 to 250 buffers")
    for name, (kind, fills) in APART.items():
        yield story(f"rooms_of_{name}", kind, rooms_apart(fills), False, f"rooms of {name.replace('_', ' ')}", "two that are full")
    for name, (kind, script) in AT_ONCE.items():
        yield story(f"{name}_in_one_event", kind, script, False, name.replace("_", " "), "more than 65536 bytes in one event")
    for mtu in MTUS:
        yield story(f"frames_of_an_mtu_of_{mtu}", f"network:525400000001:{mtu:x}", lengths, False, "a frame's length", "near the longest")


def by_hand():
    """A card takes 65536 bytes in one frame, and no byte more."""
    return first("further_amounts/a_frame_of_65536_bytes_by_hand", "A frame of 65536 bytes waits alone, and one of 65537 never does.", f"""
plug 0 0 network:525400000001:ffff > 0 done - 0 0
frame 0 0 {'5a' * 65537} > 0 took:0 - 0 0
frame 0 0 {'5a' * 65536} > 0 took:10000 - 0 0
frame 0 0 5a > 0 took:0 - 0 0
frame 0 0 - > 0 baddevice - 0 0
""", slots=[Wide()])


class One(Driver):
    """The driver and the host of a slot with one further device."""

    def __init__(self, life, kind, is_packed):
        super().__init__(life, 0, [], Dice("amounts"))
        self.kind, self.is_packed = kind, is_packed
        self.comes(0)

    def comes(self, place):
        """A device of the kind is plugged in and live."""
        word = self.kind.split(" ")[0].split(":")[0]
        self.do("plug", f"{place:x} {self.kind}")
        self.device = Device(place, word, 1 if word in ("entropy", "disk") else 2)
        self.devices.append(self.device)
        self.bring_up(self.device, Setup(True, self.is_packed, 256))

    def areas(self, window, index, home=None):
        return [self.base + AREA * (2 * window.number + index) + more for more in IN_AREA]

    def of_host(self, word, field=""):
        """An event of the device; its reply."""
        return self.do(word, f"{self.device.number:x} {field}" if field else f"{self.device.number:x}").split(" ")[1]

    def chain(self, index, buffers):
        """A chain is on offer, and told; then its used entry and the device's interrupts are looked at."""
        ring = self.ring(self.device, index)
        self.offer(self.device, index, buffers)
        self.write(self.device, NOTIFY, index)
        self.used(index, ring)

    def used(self, index, ring):
        """What the device wrote into a queue's areas at the place where it stood."""
        desc, _, device = ring.areas
        if ring.is_packed:
            self.look(desc + 16 * (ring.used % ring.number), 16)
        else:
            self.look(device, 4)
            self.look(device + 4 + 8 * (ring.used % ring.number), 8)
        self.read(self.device, 0x060)

    def shows_room(self, at, length):
        """The bytes of a room, or, of many, those at its ends."""
        for begin, count in ((at, length),) if length <= 2 * FEW else ((at, 256), (at + length - 256, 257)):
            self.look(begin, count)


def story(name, kind, script, is_packed, what, how_much, *more, length=LENGTH):
    def written(life):
        script(One(life, kind, is_packed), *more)

    ring = "packed" if is_packed else "split"
    return Life(f"further_amounts/{name}_{ring}", f"{what[0].upper()}{what[1:]}, {how_much}: a {ring} ring.", written, [Wide(0x80000000, length)], shows=[(what, how_much)])


def rising(first_byte, count):
    return bytes((first_byte + place + place // 256) % 256 for place in range(count))


# --- up to a limit

# How a limit is come to: pieces, of which the last one fills it.
WAYS = {"at_once": lambda limit: [limit], "in_parts": lambda limit: [limit // 2 - 3, limit // 2 + 2, 1]}
TURNS = 2


def comes_and_goes(limit, fill, more, empties):
    """A script: what waits is filled up to a limit, more is tried, and all is taken, twice."""
    def script(driver, way):
        for turn in range(TURNS):
            # Less than all in the first turn, so that the second one passes a multiple of the limit.
            for place, length in enumerate(WAYS[way](limit if turn else limit - 1000)):
                fill(driver, rising(16 * turn + 5 * place, length))
            more(driver)
            empties(driver)
    return script


def typed(driver, content):
    return driver.of_host("supply", content.hex())


def framed(driver, content):
    return driver.of_host("frame", content.hex())


def too_much_typed(driver):
    for length in (0, 1, 2):
        driver.of_host("supply", (b"\xe1" * length).hex() or "-")


def too_many_framed(driver):
    for length in (1001, 2, 1):
        framed(driver, b"\xe1" * length)


def received(driver, room=MANY + HEADER):
    """Chains until nothing waits."""
    while driver.model_of(driver.device).wants(0):
        driver.put(driver.room + ROOMS - 1, b"\xee")
        driver.chain(0, [Buffer(driver.room + ROOMS, min(room, 0x3f000), WRITE)])
        driver.shows_room(driver.room + ROOMS, room)


def typed_and_received(driver):
    """A chain with too little room comes first."""
    driver.chain(0, [Buffer(driver.room + ROOMS, 1000, WRITE)])
    driver.shows_room(driver.room + ROOMS, 1000)
    typed(driver, b"\xe2\xe3")
    driver.chain(0, [Buffer(driver.room + ROOMS, 2 * FEW, WRITE)])
    driver.shows_room(driver.room + ROOMS, 2 * FEW)


def sends(driver, content, head=HEADER):
    """A chain of a frame behind its header, or of a text."""
    driver.put(driver.room + TEXTS, bytes(head) + content)
    driver.chain(1, [Buffer(driver.room + TEXTS, head + len(content))])


def sends_text(driver, content):
    sends(driver, content, 0)


def sends_more(head):
    """Chains that are used where nothing has room, and one that stays on offer, whose length is another afterwards."""
    def more(driver):
        for length in ([head - 1, head, head + MANY + 1, head + 5] if head else [0, 0, 5]):
            driver.put(driver.room + TEXTS, rising(3, 64))
            driver.chain(1, [Buffer(driver.room + TEXTS, length)])
        if not head:
            driver.write(driver.device, 0x108, 0x4141, 2)
    return more


def changed_on_offer(driver):
    """The chain on offer is written anew, two bytes shorter."""
    ring = driver.ring(driver.device, 1)
    if not ring.ahead():
        return
    at = ring.place % ring.number
    head = 0 if ring.is_packed else driver.memory().number(ring.areas[1] + 4 + 2 * at, 2)
    place = ring.areas[0] + 16 * (at if ring.is_packed else head) + 8
    driver.put(place, number(driver.memory().number(place, 4) - 2, 4))


def taken(word):
    """What waits for the host is taken, or dropped, to the last of it."""
    def empties(driver):
        changed_on_offer(driver)
        ring = driver.ring(driver.device, 1)
        while driver.of_host(word) not in ("b:-", "took:0"):
            driver.used(1, ring)
    return empties


def many_framed(driver):
    """64 frames of few bytes, and one more."""
    for turn in range(TURNS):
        for place in range(FRAMES + 1):
            framed(driver, rising(turn + place, 1 + place % 3))
        driver.chain(0, [Buffer(driver.room + ROOMS, HEADER + 1, WRITE)])
        framed(driver, b"\xe4")
        received(driver, 64)


def many_sent(word):
    """64 frames of few bytes; behind them a chain without one, one with too much, and one that stays on offer."""
    def script(driver):
        for turn in range(TURNS):
            for place in range(FRAMES - turn):
                sends(driver, rising(turn + place, 1 + place % 3))
            sends_more(HEADER)(driver)
            taken(word)(driver)
    return script


def frames_before(driver):
    """So many frames are too long, then one fits, and another where there is room for it; 64 that are too long leave a chain on offer."""
    for count in (1, 2, 3, 4, 7, 8, 9, 15, 16, 17, 31, 32, 33, 47, 48, 62, 63, 64):
        for place in range(count):
            assert framed(driver, rising(place, 21 + place % 5)) != "took:0"
        for length in (20, 19)[:FRAMES - count]:
            assert framed(driver, rising(count, length)) == f"took:{length:x}"
        driver.chain(0, [Buffer(driver.room + ROOMS, HEADER + 20, WRITE)])
        driver.shows_room(driver.room + ROOMS, HEADER + 21)
        framed(driver, rising(count, 7))
        received(driver, 64)


CARD, CONSOLE = "network:525400000001:ffff", "console:50:19"
FILLED = {
    "random_bytes": ("entropy", comes_and_goes(FEW, typed, too_much_typed, typed_and_received)),
    "typed_bytes": (CONSOLE, comes_and_goes(FEW, typed, too_much_typed, typed_and_received)),
    "output": (CONSOLE, comes_and_goes(MANY, sends_text, sends_more(0), taken("take"))),
    "output_that_is_dropped": (CONSOLE, comes_and_goes(MANY, sends_text, sends_more(0), taken("dsent"))),
    "bytes_of_frames_for_the_guest": (CARD, comes_and_goes(MANY, framed, too_many_framed, received)),
    "bytes_of_frames_for_the_host": (CARD, comes_and_goes(MANY, sends, sends_more(HEADER), taken("take"))),
    "bytes_of_frames_that_are_dropped": (CARD, comes_and_goes(MANY, sends, sends_more(HEADER), taken("dsent"))),
}
COUNTED = {"64_frames_for_the_guest": (CARD, many_framed), "64_frames_for_the_host": (CARD, many_sent("take")),
           "64_frames_that_are_dropped": (CARD, many_sent("dsent")), "frames_before_one_that_fits": (CARD, frames_before)}


# --- one piece of a full room

# They fill a room of frames by their bytes, one by their count, and a room of bytes.
BY_BYTES, BY_COUNT, OF_BYTES = (21845, 21844, 21846, 1), (1, 2, 3) * 21 + (1,), (1000, 1, 3000, 95)


def refilled(comes, leaves, lengths):
    """One piece leaves a full room, and one of its length comes, until the room's end was passed twice; a byte more has no room, where the reply tells it."""
    def script(driver):
        for turn in range(3 * len(lengths)):
            length, is_full = lengths[turn % len(lengths)], turn >= len(lengths)
            if is_full:
                leaves(driver, length)
            told = comes(driver, rising(turn, length))
            assert told in (None, f"took:{length:x}")
            if told and is_full:
                assert comes(driver, b"\xe8") == "took:0"
    return script


def one_received(head):
    def leaves(driver, length):
        driver.chain(0, [Buffer(driver.room + ROOMS, head + length, WRITE)])
        driver.shows_room(driver.room + ROOMS, head + length)
    return leaves


def one_taken(word):
    return lambda driver, length: driver.of_host(word)


WAYS_OF_FRAMES = {"for_the_guest": (framed, one_received(HEADER)), "for_the_host": (sends, one_taken("take")), "that_are_dropped": (sends, one_taken("dsent"))}
REFILLED = {"typed_bytes": (CONSOLE, refilled(typed, one_received(0), OF_BYTES)), "random_bytes": ("entropy", refilled(typed, one_received(0), OF_BYTES)),
            **{f"frames_{way}_by_{kind}": (CARD, refilled(*does, lengths)) for way, does in WAYS_OF_FRAMES.items()
               for kind, lengths in (("bytes", BY_BYTES), ("count", BY_COUNT))}}


# --- many bytes in one event, and in one chain

LONGEST, BITS = 0x1100000, range(16, 32)


def supplied_at_once(driver):
    """However many come, as many are taken as there is room for; a chain then gets them all."""
    for length in (0x101, 0x1001, 0xffff, 0x10000, 0x10004, 0x20003):
        assert typed(driver, rising(length, length)) == f"took:{min(length, FEW):x}"
        driver.chain(0, [Buffer(driver.room + ROOMS, 2 * FEW, WRITE)])
        driver.shows_room(driver.room + ROOMS, FEW + 1)


def framed_at_once(driver):
    """Such a frame is too long, whatever its length is in fewer bits."""
    for length in (0x10000, 0x10001, 0x10040, 0x20000, 0x20040):
        assert framed(driver, rising(length, length)) == "baddevice"
    driver.chain(0, [Buffer(driver.room + ROOMS, FEW, WRITE)])
    assert framed(driver, b"\xe9") == "took:1"
    driver.shows_room(driver.room + ROOMS, 64)


AT_ONCE = {"random_bytes": ("entropy", supplied_at_once), "typed_bytes": (CONSOLE, supplied_at_once),
           "frames": ("network:525400000001:5dc", framed_at_once)}


def many(at, bit, more, flags):
    """128 buffers of the same bytes, 2^bit of them together, and some more behind them."""
    return [Buffer(at, 1 << bit - 7, flags)] * 128 + ([Buffer(at, more, flags)] if more else [])


def long_texts(driver):
    """Such a chain is never used; the driver begins anew behind it."""
    for bit in BITS:
        driver.bring_up(driver.device, Setup(True, driver.is_packed, 256))
        driver.chain(1, many(driver.room + TEXTS, bit, 5, 0))
        assert driver.of_host("take") == "b:-"


def long_frames(driver):
    """Such a frame is used and dropped, and one behind it waits."""
    for bit in BITS:
        driver.chain(1, many(driver.room + TEXTS, bit, HEADER + 5, 0))
        sends(driver, rising(bit, 5))
        assert driver.of_host("take") == f"b:{rising(bit, 5).hex()}"
        assert driver.of_host("take") == "b:-"


def long_rooms(comes, head):
    """A chain with so much room gets the few bytes that there are."""
    def script(driver):
        for bit in BITS:
            comes(driver, rising(bit, 7))
            driver.chain(0, many(driver.room + ROOMS, bit, 0, WRITE))
            driver.shows_room(driver.room + ROOMS, head + 8)
    return script


LONG = {"texts": (CONSOLE, long_texts), "frames_for_the_host": (CARD, long_frames), "rooms_of_a_console": (CONSOLE, long_rooms(typed, 0)),
        "rooms_of_an_entropy_device": ("entropy", long_rooms(typed, 0)), "rooms_of_a_card": (CARD, long_rooms(framed, HEADER))}


# --- rooms that are apart

def frames_for_guest(driver):
    for place in range(FRAMES):
        framed(driver, bytes([place, driver.device.number]))


def frame_for_guest(driver):
    framed(driver, b"\xe5" * MANY)


def frames_for_host(driver):
    for place in range(FRAMES):
        sends(driver, bytes([place, driver.device.number]))


def frame_for_host(driver):
    driver.chain(1, [Buffer(driver.room + TEXTS, HEADER + MANY)])


def text_for_host(driver):
    driver.chain(1, [Buffer(driver.room + TEXTS, MANY)])


def typed_all(driver):
    typed(driver, b"\xe6" * FEW)


def typed_to_the_slot(driver):
    driver.do("in", "e7" * FEW)


def rooms_apart(fills):
    """Of two devices that are alike each room is filled beside each other one, and then all are emptied."""
    def script(driver):
        driver.comes(1)
        rooms = [(device, fill) for device in driver.devices for fill in fills]
        for first_room, second_room in itertools.permutations(rooms, 2):
            for driver.device, fill in (first_room, second_room):
                fill(driver)
                ring = driver.ring(driver.device, 0)
                driver.look(ring.areas[2], 4)
            for driver.device in driver.devices:
                while driver.of_host("dsent") not in ("took:0", "baddevice"):
                    pass
                driver.bring_up(driver.device, Setup(True, driver.is_packed, 256))
                while driver.model_of(driver.device).wants(0):
                    driver.chain(0, [Buffer(driver.room + ROOMS, HEADER + FEW, WRITE)])
                    driver.look(driver.room + ROOMS, 16)
    return script


APART = {"cards_by_count": (CARD, [frames_for_guest, frames_for_host]), "cards_by_bytes": (CARD, [frame_for_guest, frame_for_host]),
         "consoles": (CONSOLE, [typed_all, text_for_host, typed_to_the_slot]), "pools": ("entropy", [typed_all])}


# --- the lengths of frames

def lengths(driver):
    """Each length near the longest, near 65536 and of one byte; each that waits is received with a byte too little or just so."""
    mtu = driver.model_of(driver.device).mtu
    for length in sorted({1, 2, mtu - 1, mtu, mtu + 13, mtu + 14, mtu + 15, *((65523, 65524, 65535, 65536, 65537) if mtu > 32768 else ())}):
        for short in (0, 1) if length in (1, mtu + 14, MANY) else (0,):
            if driver.of_host("frame", rising(length, length).hex()) == "baddevice":
                continue
            room = HEADER + length - short
            driver.chain(0, [Buffer(driver.room + ROOMS, room, WRITE)])
            driver.shows_room(driver.room + ROOMS, min(room, 512))
            driver.of_host("frame", "5a")
            ring = driver.ring(driver.device, 0)
            driver.write(driver.device, NOTIFY, 0)
            driver.used(0, ring)
            received(driver, 64)


# --- in many buffers

def parts(at, length, count, flags):
    """A run of bytes in so many buffers, the last of which has what is left."""
    each = max(1, length // count)
    ends = [min(length, each * place) for place in range(count)] + [length]
    return [Buffer(at + begin, end - begin, flags) for begin, end in zip(ends, ends[1:])]


def frames_received(driver):
    for count in CUTS:
        for readable in (0, 40):
            framed(driver, rising(count, 300))
            driver.chain(0, [*([Buffer(driver.room + TEXTS, readable)] if readable else []), *parts(driver.room + ROOMS, HEADER + 300 - (readable > 0), count, WRITE)])
            framed(driver, rising(count, 40))
            driver.write(driver.device, NOTIFY, 0)
            driver.chain(0, parts(driver.room + ROOMS, 600, count, WRITE))
            driver.shows_room(driver.room + ROOMS, 320)


def frames_sent(driver):
    """The header's end lies in each buffer; so does that of the frame."""
    for count in CUTS:
        driver.put(driver.room + TEXTS, rising(count, 300))
        for length in sorted({count, HEADER, HEADER + 1, 300}):
            driver.chain(1, parts(driver.room + TEXTS, length, count, 0))
            driver.of_host("take")
    for head in range(1, 2 * HEADER):
        driver.chain(1, [Buffer(driver.room + TEXTS, head), Buffer(driver.room + TEXTS + head, 40)])
        driver.of_host("take")


def random_bytes(driver):
    for count in CUTS:
        driver.chain(0, parts(driver.room + ROOMS, 300, count, WRITE))
        for length in (299, 301, 1):
            typed(driver, rising(count + length, length))
        driver.shows_room(driver.room + ROOMS, 320)
        driver.chain(0, parts(driver.room + ROOMS, 300, count, WRITE))
        driver.shows_room(driver.room + ROOMS, 320)


def texts(driver):
    random_bytes(driver)
    for count in CUTS:
        driver.put(driver.room + TEXTS, rising(count, 300))
        driver.chain(1, parts(driver.room + TEXTS, 300, count, 0))
        driver.of_host("take")


def data(driver):
    """A sector in so many buffers, which the host reads and writes; then 130 sectors in few."""
    for count in (*CUTS, -1, -2):
        for kind in (IN, OUT):
            sectors, cuts = (1, count) if count > 0 else (130, -count)
            at, flags = driver.room + (ROOMS if kind == IN else TEXTS), WRITE if kind == IN else 0
            driver.put(at - 16, header(kind, 1))
            driver.put(driver.room + STATUS, b"\xee")
            driver.chain(0, [Buffer(at - 16, 16), *parts(at, SECTOR * sectors, cuts, flags), Buffer(driver.room + STATUS, 1, WRITE)])
            ring = driver.ring(driver.device, 0)
            driver.of_host("dio", "0 done")
            driver.used(0, ring)
            driver.look(driver.room + STATUS, 1)


IN_PARTS = {"frames_for_the_guest": (CARD, frames_received), "frames_for_the_host": (CARD, frames_sent), "random_bytes": ("entropy", random_bytes),
            "texts_of_a_console": (CONSOLE, texts), "data_of_a_disk": (f"disk 200 rw {bytes(range(20)).hex()} 2", data)}
