"""One guest's work beside another guest of each kind, which sees nothing of it and takes nothing from it."""
import dataclasses

from .drivers import FAULT, KINDS, STATUS, VERSION_1, WRITE, Buffer
from .requests import FLUSH, GET_ID, IDENTITY, IN, OUT, WRITE_ZEROES, header, segment
from .story import BASE, CHANGED, SECTOR, USED, Slot, Story, plain_image

TITLE = "One guest beside another"
HOW = ("A guest reads its registers, types, resizes, puts out texts of 1 to 4096 bytes, and has a disk read, "
       "written, flushed, named and zeroed, beside another that is live, at work, failed, stopped or silent. Each record is as it is alone, and "
       "the other's memory, registers, rings, typed bytes and sectors are as they were.")
COLUMNS = ("What", "Where")
FOLDERS = {"beside": "One guest's work beside another guest of each kind."}

# How many bytes a text or what is typed has.
LENGTHS = [1, 2, 15, 16, 17, 32, 33, 64, 128, 255, 256, 257, 4096]
TEXT, ROOM, HEADER, DONE = 0x10000, 0x12000, 0x14000, 0x15000
LENGTH = 0x18000
SECTORS = 8
OK, IOERR, NOT_YET = 0, 1, b"\xee"


def stories():
    for name, make in NEIGHBOURS.items():
        for place in (0, 1):
            yield beside(name, make, place)
    for kind in KINDS:
        yield all_at_once(kind)


class Guest:
    """A disk and a console with both queues; `windows` are those that are brought up."""

    # Features of the two windows, as words.
    LOW, HIGH = {"b": 0, "c": 0}, VERSION_1

    def __init__(self, story, slot, kind="split", windows="bc"):
        self.story, self.slot, self.base = story, slot, story.slots[slot].base
        self.holds = [0x10 + story.slots[slot].start + sector for sector in range(SECTORS)]
        self.size = story.slots[slot].columns, story.slots[slot].rows
        self.resizes, self.queues, self.has_text = 0, {}, False
        for at, (window, index) in enumerate((("b", 0), ("c", 0), ("c", 1))):
            self.queues[window, index] = KINDS[kind](story, window, index, 4, self.LOW[window], self.base + 0x1000 + 0x4000 * at, slot,
                                                      high=self.HIGH)
        self.bring_up(windows)

    def bring_up(self, windows):
        """From a reset on: each window with all its queues."""
        for window in windows:
            queues = [queue for (where, _), queue in self.queues.items() if where == window]
            queues[0].begin()
            for queue in queues:
                queue.start_over()
                queue.make_ready()
            queues[0].go()

    def offer(self, queue, buffers):
        queue.offer(buffers)

    def put(self, at, content):
        self.story.put(self.base + at, content, slot=self.slot)

    def look(self, at, content):
        self.story.look(self.base + at, len(content), content, slot=self.slot)

    def request(self, kind, status=OK, sector=0, data=b"", room=0):
        """A request, with data behind its header and with room before its status."""
        queue = self.queues["b", 0]
        self.put(HEADER, header(kind, sector) + data)
        self.put(DONE, NOT_YET)
        chain = [Buffer(self.base + HEADER, 16 + len(data)), Buffer(self.base + ROOM, room, WRITE), Buffer(self.base + DONE, 1, WRITE)]
        self.offer(queue, chain if room else [chain[0], chain[2]])
        queue.notify()
        self.look(DONE, bytes([status]))
        queue.acknowledge()

    def text(self, length, parts=1):
        """A text in a buffer, or in some, of which the last byte is another."""
        queue, mark, step = self.queues["c", 1], bytes([0x40 + self.slot]), -(-length // parts)
        if not self.has_text:
            self.put(TEXT, mark * max(LENGTHS))
            self.has_text = True
        self.put(TEXT + length - 1, b"\n")
        self.offer(queue, [Buffer(self.base + TEXT + at, min(step, length - at)) for at in range(0, length, step)])
        queue.notify(output=mark * (length - 1) + b"\n")
        self.put(TEXT + length - 1, mark)
        queue.acknowledge()

    def typed(self, length):
        """Typed bytes, for which a chain waits."""
        queue, mark = self.queues["c", 0], 0x60 + self.slot
        self.offer(queue, [Buffer(self.base + ROOM, length, WRITE)])
        self.story.type(bytes([mark]) * length, took=length, told=USED, slot=self.slot)
        queue.place = queue.offered
        self.look(ROOM, bytes([mark]) * min(length, 300))
        self.look(ROOM + length - 1, bytes([mark]))
        queue.acknowledge()

    def resize(self, columns, rows):
        self.story.resize(columns, rows, told=CHANGED, slot=self.slot)
        self.size, self.resizes = (columns, rows), self.resizes + 1
        self.story.read("c", 0x0fc, self.resizes, slot=self.slot)
        self.story.read("c", 0x100, rows << 16 | columns, slot=self.slot)
        self.queues["c", 1].acknowledge()

    def registers(self, status=0xf):
        for window, shown in (("b", SECTORS), ("c", self.size[1] << 16 | self.size[0])):
            story = self.story
            for offset, found in ((0x000, 0x74726976), (0x034, 256), (0x070, status), (0x060, story.words[self.slot, window]), (0x100, shown)):
                story.read(window, offset, found, slot=self.slot)

    def work(self, lengths=LENGTHS):
        """All that a guest does."""
        self.registers()
        for length in lengths:
            self.text(length)
        self.text(257, parts=3)
        for length in lengths:
            self.typed(length)
        self.emergency()
        self.resize(0x1234, 0x5678)
        self.disk()
        self.registers()

    def emergency(self):
        for width in (1, 2, 4):
            self.story.write("c", 0x108, 0x40 + self.slot, output=bytes([0x40 + self.slot]), width=width, slot=self.slot)

    def disk(self):
        mark, may_write = 0xc0 + self.slot, self.story.slots[self.slot].mode == "rw"
        for count in (1, 2, SECTORS):
            self.request(IN, room=SECTOR * count)
            self.look(ROOM + SECTOR * count - 1, bytes([self.holds[count - 1]]))
        self.request(IN, IOERR, sector=SECTORS, room=SECTOR)
        self.request(OUT, OK if may_write else IOERR, sector=2, data=bytes([mark]) * 2 * SECTOR)
        self.request(OUT, IOERR, sector=SECTORS - 1, data=bytes([mark]) * 2 * SECTOR)
        self.request(WRITE_ZEROES, OK if may_write else IOERR, data=segment(0, 1) + segment(SECTORS - 1, 1))
        if may_write:
            self.holds[2:4], self.holds[0], self.holds[-1] = [mark, mark], 0, 0
        self.request(FLUSH)
        self.request(GET_ID, room=20)
        self.look(ROOM, IDENTITY)
        self.request(IN, room=SECTOR * SECTORS)
        for sector, byte in enumerate(self.holds):
            self.look(ROOM + SECTOR * sector, bytes([byte]))


# --- the other guest

class Other:
    """A guest that does nothing while the first one works, and what it must see before and afterwards."""

    def __init__(self, story, slot, kind="split", windows="bc"):
        self.guest = Guest(story, slot, kind, windows)
        self.status = {window: 0xf if window in windows else 0 for window in "bc"}
        self.waits = 0

    def with_work_before(self):
        self.guest.text(3)
        self.guest.typed(3)
        self.guest.request(FLUSH)
        return self

    def with_typed_bytes(self, length):
        """Nothing waits for them."""
        self.guest.story.type(b"w" * length, took=length, slot=self.guest.slot)
        self.waits = length
        return self

    def with_offers(self):
        """A text, room for what is typed and a request are on offer, and nobody is told."""
        guest = self.guest
        guest.put(0x16000, b"later" + header(FLUSH) + NOT_YET * 8)
        base = guest.base + 0x16000
        guest.queues["c", 1].offer([Buffer(base, 5)])
        guest.queues["c", 0].offer([Buffer(base + 22, 4, WRITE)])
        guest.queues["b", 0].offer([Buffer(base + 5, 16), Buffer(base + 21, 1, WRITE)])
        return self

    def with_failed_driver(self):
        for window in "bc":
            self.guest.story.write(window, STATUS, 0x80, slot=self.guest.slot)
            self.status[window] = 0x8f
        return self

    def with_faults(self):
        for window, index in (("b", 0), ("c", 1)):
            queue = self.guest.queues[window, index]
            queue.offer([Buffer(self.guest.base - 1, 1)])
            queue.notify(FAULT)
            self.status[window] = 0x4f
        return self

    def with_bits_that_stand(self):
        guest = self.guest
        for window, index in (("b", 0), ("c", 1)):
            queue = guest.queues[window, index]
            guest.put(0x17000, b"t")
            queue.offer([Buffer(guest.base + 0x17000, 1, WRITE if window == "b" else 0)])
            queue.notify(output=b"t" if window == "c" else b"")
        guest.story.resize(*guest.size, told=CHANGED, slot=guest.slot)
        guest.resizes += 1
        return self

    def before(self):
        self.guest.put(0x17800, bytes(range(1, 65)))

    def unchanged(self):
        """Registers, memory, rings; then what was typed and offered is served."""
        guest = self.guest
        for window, shown in (("b", SECTORS), ("c", guest.size[1] << 16 | guest.size[0])):
            for offset, found in ((0x060, guest.story.words[guest.slot, window]), (0x070, self.status[window]), (0x100, shown)):
                guest.story.read(window, offset, found, slot=guest.slot)
        guest.story.read("c", 0x0fc, guest.resizes, slot=guest.slot)
        guest.look(0x17800, bytes(range(1, 65)))
        guest.look(TEXT + 4096, bytes(64))
        guest.look(ROOM + 64, bytes(64))
        if self.waits:
            guest.queues["c", 0].offer([Buffer(guest.base + ROOM, self.waits + 1, WRITE)])
            guest.queues["c", 0].notify()
            guest.look(ROOM, b"w" * self.waits + b"\0")
        if guest.queues["b", 0].offered != guest.queues["b", 0].place:
            self.serve_offers()

    def serve_offers(self):
        guest = self.guest
        guest.queues["c", 1].notify(output=b"later")
        guest.queues["b", 0].notify()
        guest.story.type(b"late", took=4, told=USED, slot=guest.slot)
        guest.look(0x16000, b"later" + header(FLUSH) + b"\0late\xee\xee\xee")


NEIGHBOURS = {
    "that_never_began": lambda story, slot: Other(story, slot, windows=""),
    "with_a_disk": lambda story, slot: Other(story, slot, windows="b"),
    "with_a_console": lambda story, slot: Other(story, slot, windows="c"),
    "with_both": lambda story, slot: Other(story, slot),
    "with_packed_rings": lambda story, slot: Other(story, slot, "packed"),
    "that_has_worked": lambda story, slot: Other(story, slot).with_work_before(),
    "with_bits_that_stand": lambda story, slot: Other(story, slot).with_bits_that_stand(),
    "with_offers": lambda story, slot: Other(story, slot).with_offers(),
    "with_offers_in_packed_rings": lambda story, slot: Other(story, slot, "packed").with_offers(),
    "with_typed_bytes": lambda story, slot: Other(story, slot).with_typed_bytes(4096),
    "that_failed": lambda story, slot: Other(story, slot).with_failed_driver(),
    "with_faults": lambda story, slot: Other(story, slot).with_faults(),
    "that_may_only_read": lambda story, slot: Other(story, slot),
    "at_another_base": lambda story, slot: Other(story, slot).with_work_before(),
    "of_the_largest_size": lambda story, slot: Other(story, slot),
}
# What is otherwise on the other guest's slot.
CHANGES = {"that_may_only_read": {"mode": "ro"}, "at_another_base": {"base": BASE + LENGTH}, "of_the_largest_size": {"columns": 0xffff, "rows": 0xffff}}


def board(count):
    """Slots at one base, each with its sectors and its size."""
    return [Slot(length=LENGTH, start=SECTORS * slot, columns=0x50 + slot, rows=0x20 + slot) for slot in range(count)]


def beside(name, make, place):
    """The guest at a place, and the other one at the other place."""
    where, slots = "before" if place == 0 else "behind", board(2)
    slots[1 - place] = dataclasses.replace(slots[1 - place], **CHANGES.get(name, {}))
    story = Story(f"beside/{where}_one_{name}", f"A guest works {where} one {name.replace('_', ' ')}: each record is as alone.",
                  slots, image=plain_image(2 * SECTORS), shows=[("a guest's work beside one", name.replace("_", " "))])
    other = make(story, 1 - place)
    other.before()
    Guest(story, place, "packed" if "packed" not in name and place else "split").work()
    other.unchanged()
    return story


def all_at_once(kind):
    """Four guests take turns, one thing each."""
    story = Story(f"beside/four_guests_in_turns_{kind}", "Four live guests take turns, one thing each: each record is as alone.",
                  board(4), image=plain_image(4 * SECTORS), shows=[("guests that take turns", "four")])
    guests = [Guest(story, slot, kind) for slot in range(4)]
    for length in (1, 17, 257, 4096):
        for guest in guests:
            guest.text(length)
        for guest in guests:
            guest.typed(length)
    for turn, guest in enumerate(guests):
        guest.resize(0x100 + turn, 0x200 + turn)
        guest.emergency()
    for guest in guests:
        guest.disk()
    for guest in guests:
        guest.registers()
    return story
