"""Each slot: every property of a slot at the first, second, 16th, 17th, 32nd, 33rd and the last two of 64."""
import dataclasses
import itertools

from .drivers import STATUS, Buffer, Packed, Split, number
from .places import shown
from .segments import IOERR, OK, segment
from .story import BADRANGE, BASE, Slot, Story, plain_image

TITLE = "Slots"
HOW = "Each property of a slot at slots 0, 1, 15, 16, 17, 31, 32, 33, 62 and 63 of 64, beside neighbours that differ."
COLUMNS = ("What", "Where")
FOLDERS = {"positions_slots": "Every property of a slot at the first, second, 16th, 17th, 32nd, 33rd and the last two of 64."}

# From 0 on.
PLACES = [0, 1, 15, 16, 17, 31, 32, 33, 62, 63]
EIGHT = [0, 1, 15, 16, 31, 32, 62, 63]
SMALL = 0x10000


def stories():
    for what, story in (("windows", sizes_and_registers), ("identity", identities), ("read-only", read_only),
                        ("read-only", lambda: read_only(True)), ("extent", extents), ("extent", counts),
                        ("empty extents", empty_extents),
                        ("length of memory", memories), ("base", bases), ("memory", memory_apart),
                        ("size of the console, generation", consoles),
                        ("pending input", pending), ("interrupt words", interrupts), ("output", outputs),
                        ("rings and places", rings),
                        ("features", features), ("resets", resets), ("faults", faults)):
        yield from shown(what, "each of ten", [story()])
    yield from shown("how many slots", "1 to 64", [*absent(), one_alone()])
    yield from shown("overlap", "each two of eight", overlaps())
    yield from shown("BadSize, BadBase, ExtentOutside", "each of eight", bad_slots())


def identity(slot):
    return bytes((slot * 7 + at * 3) % 256 for at in range(20))


def board(**changes):
    """64 slots with empty extents; what is given is made from each slot's number."""
    return [Slot(**{"length": 0x1000, "start": 0, "count": 0, "identity": identity(slot)} | {name: make(slot) for name,
                                                                                             make in changes.items()})
            for slot in range(64)]


def story_of(name, about, **changes):
    return Story(f"positions_slots/{name}", about, board(**changes))


class Guest:
    """The disk of one slot, split; its memory is SMALL bytes."""

    def __init__(self, story, slot, kind=Split, base=BASE):
        self.story, self.slot, self.base = story, slot, base
        self.queue = kind(story, "b", 0, 4, slot=slot, at=base + 0x1000).bring_up()

    def request(self, kind, status, sector=0, data=b"", room=0, told=1):
        header, there, end = self.base + 0x4000, self.base + 0x5000, self.base + 0x6000
        self.queue.put(header, number(kind, 4) + bytes(4) + number(sector, 8) + data)
        buffers = [Buffer(header, 16 + len(data))] + ([Buffer(there, room, 2)] if room else []) + [Buffer(end, 1, 2)]
        self.queue.put(end, b"\xff")
        self.queue.offer(buffers)
        self.queue.notify(told=told)
        self.queue.look(end, 1, bytes([status]))

    def sees(self, content, at=0):
        self.queue.look(self.base + 0x5000 + at, len(content), content)


def sizes_and_registers():
    story = story_of("registers_of_64_slots", "Each of 64 slots has its two windows; there is no slot behind the last.")
    for slot in range(66):
        story.read("b", 0x008, 2, slot=slot)
        story.read("c", 0x008, 3, slot=slot)
    return story


def identities():
    story = story_of("identities_of_64_slots", "GET_ID gives the slot's own identity.", length=lambda _: SMALL)
    for slot in PLACES:
        guest = Guest(story, slot)
        guest.request(8, OK, room=20)
        guest.sees(identity(slot))
    return story


def read_only(others=False):
    """The slots at the places are read-only, those between aren't; or the other way round."""
    modes = {slot: "ro" for slot in range(64) if (slot in PLACES) != others}
    story = story_of("read_only_slots_between_others" if others else "read_only_slots_among_64",
                     "A write to a read-only slot is IOERR, to a neighbour OK; each slot offers RO where it is read-only.",
                     length=lambda _: SMALL, mode=lambda slot: modes.get(slot, "rw"))
    for slot in range(64):
        story.read("b", 0x010, 0x30004264 if slot in modes else 0x30004244, slot=slot)
    for slot in sorted({*PLACES, 2, 14, 18, 30, 34, 61}):
        Guest(story, slot).request(1, IOERR if slot in modes else OK)
    return story


def extents():
    """Eight slots have a sector each, from the last of the image to the first."""
    sector = {slot: 7 - at for at, slot in enumerate(EIGHT)}
    story = story_of("extents_of_64_slots",
                     "Eight of 64 slots have a sector: each reads and writes its own, and the others have none.",
                     length=lambda _: SMALL, start=lambda slot: sector.get(slot, 8), count=lambda slot: int(slot in sector))
    guests = {}
    for slot in sorted([*EIGHT, 2, 17, 33, 61]):
        has = slot in sector
        story.read("b", 0x100, int(has), slot=slot)
        guests[slot] = guest = Guest(story, slot)
        guest.request(0, OK if has else IOERR, room=512)
        guest.sees(bytes([0x10 + sector[slot]]) * 8 if has else bytes(8))
        if has:
            guest.request(0, IOERR, sector=1, room=512)
            guest.request(1, OK, data=bytes([slot]) * 512)
    for slot in EIGHT:
        guests[slot].request(0, OK, room=512)
        guests[slot].sees(bytes([slot]) * 8, 504)
    for slot in EIGHT[::2]:
        guests[slot].request(13, IOERR, data=segment(0, 2))
        guests[slot].request(13, OK, data=segment(0, 1))
    for at, slot in enumerate(EIGHT):
        guests[slot].request(0, OK, room=512)
        guests[slot].sees(bytes([slot if at % 2 else 0]) * 8)
    return story


def memories():
    story = story_of("memory_lengths_of_64_slots", "Slot k has k + 1 pages: the last byte is inside, the next isn't.",
                     length=lambda slot: 0x1000 * (slot + 1))
    for slot in range(64):
        end = BASE + 0x1000 * (slot + 1)
        story.put(end - 1, bytes([slot + 1]), slot=slot)
        story.put(end, b"\xff", BADRANGE, slot=slot)
    for slot in PLACES:
        end = BASE + 0x1000 * (slot + 1)
        story.look(end - 2, 2, bytes([0, slot + 1]), slot=slot)
        story.look(end - 1, 2, BADRANGE, slot=slot)
        story.look(end, 0, b"", slot=slot)
    return story


def base_of(slot):
    return 0x1000 * (slot * slot) + (slot << 58)


def bases():
    story = story_of("bases_of_64_slots", "Each slot's memory begins at its own base.", base=base_of)
    for slot in range(64):
        base = base_of(slot)
        story.put(base, bytes([slot + 1]), slot=slot)
        if base:
            story.put(base - 1, b"\xff", BADRANGE, slot=slot)
    for slot in PLACES:
        base = base_of(slot)
        story.look(base, 2, bytes([slot + 1, 0]), slot=slot)
        story.look(base + 0xfff, 2, BADRANGE, slot=slot)
        for other in PLACES:
            if other != slot:
                story.look(base_of(other), 1, BADRANGE, slot=slot)
    return story


def consoles():
    """Columns, rows and the generation of each slot's console."""
    story = story_of("console_sizes_of_64_slots", "Each console has its own size and its own generation.",
                     columns=lambda slot: 0x1000 + slot, rows=lambda slot: 0xff00 - slot)
    for slot in range(64):
        story.read("c", 0x100, (0xff00 - slot) << 16 | 0x1000 + slot, slot=slot)
    for slot in range(64):
        for _ in range(slot % 3):
            story.resize(1, 1, slot=slot)
        story.resize(slot + 1, 100 + slot, slot=slot)
    for slot in range(64):
        story.read("c", 0x100, (100 + slot) << 16 | slot + 1, slot=slot)
        story.read("c", 0x0fc, slot % 3 + 1, slot=slot)
    return story


def counts():
    """Eight slots have 1 to 8 sectors, in falling order of their places in the image."""
    starts = [36 - (at + 1) * (at + 2) // 2 for at in range(8)]
    where = {slot: (starts[at], at + 1) for at, slot in enumerate(EIGHT)}
    slots = board(length=lambda _: SMALL, start=lambda slot: where.get(slot, (36, 0))[0],
                  count=lambda slot: where.get(slot, (36, 0))[1])
    story = Story("positions_slots/numbers_of_sectors_of_64_slots",
                  "Eight of 64 slots have 1, 2, .. 8 sectors: the last is read, the next isn't.",
                  slots, image=plain_image(36))
    for slot, (start, count) in where.items():
        story.read("b", 0x100, count, slot=slot)
        story.read("b", 0x104, 0, slot=slot)
        guest = Guest(story, slot)
        guest.request(0, OK, sector=count - 1, room=512)
        guest.sees(bytes([0x10 + start + count - 1]) * 8)
        guest.request(0, IOERR, sector=count, room=512)
    return story


def pending():
    """What was typed waits with its slot, up to 4096 bytes each."""
    story = story_of("pending_input_of_64_slots", "Typed bytes wait with their slot, each of which has room of its own.",
                     length=lambda _: SMALL)
    full = (0, 16, 32, 63)
    for slot in full:
        story.type(bytes([slot + 1]) * 4095, took=4095, slot=slot)
    for slot in PLACES:
        story.type(bytes([slot + 1, slot + 2]), took=1 if slot in full else 2, slot=slot)
    for slot in PLACES:
        queue = Split(story, "c", 0, 4, slot=slot).bring_up()
        queue.offer([Buffer(BASE + 0x8000, 0x2000, 2)])
        queue.notify()
        wanted = 4096 if slot in full else 2
        queue.look_at_used(wanted)
        queue.look(BASE + 0x8000 + wanted - 2, 3, bytes([slot + 1, slot + (1 if slot in full else 2), 0]))
    return story


def interrupts():
    """Both words of a slot are its own."""
    story = story_of("interrupt_words_of_64_slots",
                     "Each slot has its own two words: a disk's and a console's bits are set, told and cleared alone.",
                     length=lambda _: SMALL)
    for slot in PLACES:
        Guest(story, slot).request(4, OK)
        console = Split(story, "c", 1, 4, slot=slot).bring_up()
        story.resize(1, 1, told=2, slot=slot)
        console.offer([Buffer(BASE, 1)])
        console.notify(output=b"\0")
    for slot in PLACES:
        story.read("b", 0x060, 1, slot=slot)
        story.read("c", 0x060, 3, slot=slot)
    for slot in PLACES:
        story.write("c", 0x064, 1, slot=slot)
    for slot in PLACES:
        story.write("b", 0x064, 1, slot=slot)
        story.read("c", 0x060, 2, slot=slot)
    for slot in (2, 14, 18, 30, 34, 61):
        story.read("b", 0x060, 0, slot=slot)
        story.read("c", 0x060, 0, slot=slot)
    return story


def outputs():
    story = story_of("outputs_of_64_slots", "Emergency bytes and lines go out with the record of their slot.",
                     length=lambda _: SMALL)
    for slot in PLACES:
        story.write("c", 0x108, slot + 0x40, output=bytes([slot + 0x40]), slot=slot)
        queue = Split(story, "c", 1, 4, slot=slot).bring_up()
        queue.put(BASE, bytes([slot, slot + 1]))
        queue.offer([Buffer(BASE, 2)])
        queue.notify(output=bytes([slot, slot + 1]))
    return story


def rings():
    """Split and packed rings side by side, each with its place."""
    story = story_of("rings_of_64_slots", "Slots have split and packed rings in turn, each with its own place.",
                     length=lambda _: SMALL)
    guests = [Guest(story, slot, Packed if at % 2 else Split) for at, slot in enumerate(PLACES)]
    for turn in range(3):
        for at, guest in enumerate(guests):
            for _ in range(1 + (at + turn) % 2):
                guest.request(4, OK)
            guest.queue.look_at_used(1, **({"count": 2} if guest.queue.is_packed else {}))
    return story


def features():
    """What a slot's driver took is its own."""
    story = story_of("features_of_64_slots", "INDIRECT_DESC counts for the slot that took it alone.", length=lambda _: SMALL)
    for at, slot in enumerate(PLACES):
        took = at % 2 == 1
        queue = Split(story, "c", 1, 4, low=1 << 28 if took else 0, slot=slot).bring_up()
        queue.put(BASE, b"t")
        queue.offer([queue.table(BASE + 0x8000, [Buffer(BASE, 1, 0, 0)])])
        if took:
            queue.notify(output=b"t")
        else:
            queue.story.write("c", 0x050, 1, told=2, slot=slot)
        story.read("c", STATUS, 0xf if took else 0x4f, slot=slot)
    return story


def resets():
    """A reset of one slot's window leaves all others."""
    story = story_of("resets_of_64_slots", "A reset is of one slot's window: the others go on where they were.",
                     length=lambda _: SMALL)
    guests = {slot: Guest(story, slot) for slot in PLACES}
    for slot in PLACES:
        guests[slot].request(4, OK)
    for slot in PLACES[::2]:
        story.write("b", STATUS, 0, slot=slot)
    for slot in PLACES:
        story.read("b", STATUS, 0 if slot in PLACES[::2] else 0xf, slot=slot)
    for slot in PLACES[1::2]:
        guests[slot].request(4, OK)
        guests[slot].queue.look_at_used(1)
    return story


def faults():
    """A fault is of one slot's window."""
    story = story_of("faults_of_64_slots", "A fault stops one slot's window: the others are served.", length=lambda _: SMALL)
    guests = {slot: Guest(story, slot) for slot in PLACES}
    for slot in PLACES[::2]:
        guests[slot].queue.offer([Buffer(0, 1)])
        story.write("b", 0x050, 0, told=2, slot=slot)
    for slot in PLACES:
        story.read("b", STATUS, 0x4f if slot in PLACES[::2] else 0xf, slot=slot)
        if slot not in PLACES[::2]:
            guests[slot].request(4, OK)
    return story


def memory_apart():
    """64 memories at one base share no byte."""
    story = story_of("memories_of_64_slots", "64 memories at one base share no byte.")
    for slot in range(64):
        story.put(BASE + 16 * slot, bytes([slot + 1]) * 16, slot=slot)
    for slot in PLACES:
        story.look(BASE, 1024, bytes(16 * slot) + bytes([slot + 1]) * 16 + bytes(1008 - 16 * slot), slot=slot)
    return story


def absent():
    """Boards of n slots: the last is there, and none behind it."""
    for count in (1, 2, 15, 16, 17, 31, 32, 33, 62, 63, 64):
        slots = board()[:count]
        story = Story(f"positions_slots/a_board_of_{count}_slots", "The last slot of a board is there, and none behind it.",
                      slots)
        for slot in sorted({0, count - 1, count, count + 1, 64, 128, 255}):
            story.read("b", 0x008, 2, slot=slot)
            story.type(b"x", took=1, slot=slot)
            story.write("c", 0x108, 0x41, output=b"A" if slot < count else b"", slot=slot)
            story.resize(1, 2, slot=slot)
            story.look(BASE, 1, b"\0", slot=slot)
            story.put(BASE, b"\1", slot=slot)
        yield story


def one_alone():
    """A board of one slot, and each number that is none."""
    story = Story("positions_slots/slots_1_to_255_of_a_board_of_one", "Of 256 numbers a board of one slot has the first alone.",
                  board()[:1])
    for slot in range(256):
        story.read("b", 0x008, 2, slot=slot)
    return story


# How two extents share a sector: the earlier's (start, count) and the later's.
SHARED = [((2, 3), (4, 2)), ((4, 2), (2, 3)), ((2, 4), (3, 1)), ((3, 1), (2, 4)), ((3, 1), (3, 1))]


def overlaps():
    """Two of 64 slots share a sector; the others have none, or one of those behind."""
    for at, (first, second) in enumerate(itertools.combinations(EIGHT, 2)):
        slots = board()
        early, late = SHARED[at % len(SHARED)]
        rest = iter((0, 1, 6, 7))
        for slot in EIGHT:
            start, count = {first: early, second: late}.get(slot, (next(rest, 8), 1) if slot not in (first, second) else (8, 0))
            slots[slot] = dataclasses.replace(slots[slot], start=start, count=count if start < 8 else 0)
        yield Story(f"positions_slots/extents_of_slots_{first}_and_{second}_overlap", "Two of 64 slots share a sector.", slots,
                    fault="board ExtentsOverlap")
    for first, second in ((0, 17), (0, 33), (0, 63), (31, 63)):
        slots = [dataclasses.replace(slot, start=at, count=1) for at, slot in enumerate(board())]
        slots[second] = dataclasses.replace(slots[second], start=first)
        yield Story(f"positions_slots/sectors_of_slots_{first}_and_{second}_of_64_are_one",
                    "Each of 64 slots has a sector, two the same.", slots,
                    image=plain_image(64), fault="board ExtentsOverlap")


BAD = {"bad_size": ("BadSize", {"length": 0x1800}), "bad_base": ("BadBase", {"base": BASE + 0x800}),
       "extent_outside": ("ExtentOutside", {"start": 8, "count": 1}), "empty_extent_outside": ("ExtentOutside", {"start": 9})}


def bad_slots():
    """One of 64 slots is bad."""
    for what, (fault, change) in BAD.items():
        for slot in EIGHT:
            slots = board()
            slots[slot] = dataclasses.replace(slots[slot], **change)
            yield Story(f"positions_slots/{what}_of_slot_{slot}", "One of 64 slots is refused.", slots, fault=f"board {fault}")


def empty_extents():
    """The first slot has all sectors; the others have none, at each place."""
    story = story_of("empty_extents_of_64_slots",
                     "63 empty extents stand at the ends of another and inside it: they share no sector.",
                     start=lambda slot: slot % 9 if slot else 0, count=lambda slot: 0 if slot else 8)
    for slot in PLACES:
        story.read("b", 0x100, 0 if slot else 8, slot=slot)
    return story
