"""Each order of checks: for every two refusals that can hold at once, both at once."""
import dataclasses
import itertools

from .drivers import INDIRECT_DESC, KINDS, RING_PACKED, STATUS, VERSION_1, WRITE, Buffer, Split, number
from .places import HEADER, ROOM, STATUS_BYTE, shown
from .segments import IOERR, OK, UNSUPP, segment
from .story import BADRANGE, BASE, Slot, Story

TITLE = "Orders of checks"
HOW = "For every two refusals that can hold at once, both at once; the answer follows from a list of the refusals in their order."
COLUMNS = ("What", "Pairs")
FOLDERS = {
    "orders_requests": "Requests, queues and events with two refusals at once.",
    "orders_boards": "Boards with two faults.",
    "orders_texts": "Traces with two faults.",
}
UNSEEN = [
    ("faults of a chain", "each two", "No record tells one fault from another."),
    ("what keeps a queue from being ready", "each two",
     "QueueReady says no more than that it isn't: both at once are tried, and neither hides the other."),
]


def stories():
    yield from shown("a request's refusals", "each four of each type's", requests())
    yield from shown("segments", "a flag at one of three, a range at another", zeroes())
    yield from shown("what keeps a queue from being ready", "each two", setups())
    yield from shown("offset, width", "each of a register that acts", [registers()])
    yield from shown("why nothing is served", "each two", [notifies()])
    yield from shown("BadSlot, BadRange", "both", [missing_slots()])
    yield from shown("a refused FEATURES_OK", "with other bits of Status", [statuses()])
    yield from shown("a service's faults", "Jump and a chain's; a chain's and a request's",
                     [jump_before_chains(), fault_before_request()])
    yield from shown("a board's faults", "each two, in one slot and in two", boards())
    yield from shown("a line's faults", "each two", lines())


# --- requests

IN, OUT, FLUSH, GET_ID, WRITE_ZEROES, NONE = 0, 1, 4, 8, 13, 11
TYPES = {"in": IN, "out": OUT, "flush": FLUSH, "get_id": GET_ID, "write_zeroes": WRITE_ZEROES, "unknown": NONE}

# What can be wrong with a request. A refusal of a type that doesn't know it changes nothing there.
SHORT, READ_ONLY, LENGTH, SECTOR_TOO_FAR, ID_TOO_SHORT, FLAG, RANGE = (
    "a_short_header", "a_read_only_disk", "a_bad_length", "a_sector_past_the_end", "19_bytes_for_an_identity", "a_flag",
    "a_segment_past_the_end")
OF_TYPE = {
    "in": [SHORT, READ_ONLY, LENGTH, SECTOR_TOO_FAR],
    "out": [SHORT, READ_ONLY, LENGTH, SECTOR_TOO_FAR],
    "flush": [SHORT, READ_ONLY, LENGTH, SECTOR_TOO_FAR],
    "get_id": [SHORT, READ_ONLY, ID_TOO_SHORT, SECTOR_TOO_FAR],
    "write_zeroes": [SHORT, READ_ONLY, LENGTH, FLAG, RANGE, SECTOR_TOO_FAR],
    "unknown": [SHORT, READ_ONLY, LENGTH, SECTOR_TOO_FAR, FLAG, RANGE],
}


def status_of(name, wrong):
    """The first of the refusals that holds, in the order of the model's page."""
    if SHORT in wrong:
        return IOERR
    if name == "unknown":
        return UNSUPP
    if name in ("out", "write_zeroes") and READ_ONLY in wrong:
        return IOERR
    if name in ("in", "out") and wrong & {LENGTH, SECTOR_TOO_FAR}:
        return IOERR
    if name == "get_id" and ID_TOO_SHORT in wrong:
        return IOERR
    if name == "write_zeroes":
        if LENGTH in wrong:
            return IOERR
        if FLAG in wrong:
            return UNSUPP
        if RANGE in wrong:
            return IOERR
    return OK


def requests():
    """For each type and each set of at most three refusals a request in which just these hold."""
    for name, known in OF_TYPE.items():
        for kind in KINDS.values():
            yield requests_of(name, known, kind)


def requests_of(name, known, kind):
    story = Story(f"orders_requests/{'packed' if kind.is_packed else 'split'}_requests_of_type_{name}",
                  "A request for each set of up to four of its refusals: the first decides, and the status alone is written.",
                  [Slot(count=4), Slot(start=4, count=4, mode="ro")])
    queues = [kind(story, "b", 0, 4, slot=slot).bring_up() for slot in (0, 1)]
    for count in range(min(len(known), 4) + 1):
        for wrong in itertools.combinations(known, count):
            ask(story, queues[READ_ONLY in wrong], name, set(wrong))
    for wrong in ((), *((one,) for one in known)):
        ask_without_status(queues[READ_ONLY in wrong], name, set(wrong))
    for slot in (0, 1):
        see_all(story, queues[slot], slot)
    return story


def readable(name, wrong, byte=b"\xaa", count=0):
    """The header and the data of a request in which just `wrong` holds."""
    header = number(TYPES[name], 4) + bytes(4) + number(5 if SECTOR_TOO_FAR in wrong else 1, 8)
    if SHORT in wrong:
        return header[:15]
    if name == "out":
        return header + byte * (511 if LENGTH in wrong else 512)
    if name in ("write_zeroes", "unknown", "flush"):
        one = segment(3, 2 if RANGE in wrong else count, 2 if FLAG in wrong else 0)
        return header + (one[:15] if LENGTH in wrong else one)
    return header


def ask_without_status(queue, name, wrong):
    """The same without a writable byte, and with data that would be seen: used with len 0, and nothing is done."""
    content = readable(name, wrong, b"\xbb", 1)
    queue.put(HEADER, content)
    queue.offer([Buffer(HEADER, len(content))])
    queue.notify()
    queue.look_at_used(0, **({"wrote": False} if queue.is_packed else {}))


def ask(story, queue, name, wrong):
    """One request in which just `wrong` holds, with room before its status."""
    content = readable(name, wrong)
    room = {"in": 511 if LENGTH in wrong else 512, "get_id": 19 if ID_TOO_SHORT in wrong else 20}.get(name, 24)
    status = status_of(name, wrong)
    queue.put(HEADER, content)
    queue.put(ROOM, b"\xee" * 24)
    queue.put(STATUS_BYTE, b"\xff")
    queue.offer([Buffer(HEADER, len(content)), Buffer(ROOM, room, WRITE), Buffer(STATUS_BYTE, 1, WRITE)])
    queue.notify()
    queue.look(STATUS_BYTE, 1, bytes([status]))
    fills = {"in": bytes([0x11 + 4 * queue.slot]) * 24, "get_id": b"vreplay-block" + bytes(7) + b"\xee" * 4}.get(name)
    found = fills if status == OK and fills else b"\xee" * 24
    queue.look(ROOM, 24, found)
    length = room + 1 if status == OK and fills else 0
    queue.look_at_used(length, **({"count": 3} if queue.is_packed else {}))


def see_all(story, queue, slot):
    """The sectors of a slot afterwards: a good write of sector 1 is the only change."""
    for sector in range(4):
        queue.put(HEADER, bytes(8) + number(sector, 8))
        queue.offer([Buffer(HEADER, 16), Buffer(ROOM, 512, WRITE), Buffer(STATUS_BYTE, 1, WRITE)])
        queue.notify()
        is_written = story.name.endswith("_out") and slot == 0 and sector == 1
        queue.look(ROOM + 500, 12, (b"\xaa" if is_written else bytes([0x10 + 4 * slot + sector])) * 12)


def zeroes():
    """Flags at one of three segments and a range at another: flags first, wherever they stand."""
    story = Story("orders_requests/flags_and_ranges_of_three_segments",
                  "One of three segments has a flag, one is past the end: UNSUPP, however they stand. Another length is IOERR.")
    queue = Split(story, "b", 0, 4).bring_up()
    for flag, wrong in itertools.product(range(3), range(3)):
        for more in (b"", b"\0"):
            data = b"".join(segment(7 if at == wrong else 1, 2 if at == wrong else 1, 2 if at == flag else 0)
                            for at in range(3)) + more
            zero(queue, data, IOERR if more else UNSUPP)
    for count in (33, 34):
        zero(queue, segment(1, 1, 2) * count, IOERR)
    for wrong in range(3):
        zero(queue, b"".join(segment(7 if at == wrong else 1, 2 if at == wrong else 1) for at in range(3)), IOERR)
    for flag, count in itertools.product((0, 2), (65536, 65537, 2 ** 32 - 1)):
        zero(queue, segment(0, count, flag), UNSUPP if flag else IOERR)
    queue.put(HEADER, bytes(8) + number(1, 8))
    queue.offer([Buffer(HEADER, 16), Buffer(ROOM, 512, WRITE), Buffer(STATUS_BYTE, 1, WRITE)])
    queue.notify()
    queue.look(ROOM, 8, b"\x11" * 8)
    yield story


def zero(queue, data, status):
    queue.put(HEADER, number(WRITE_ZEROES, 16) + data)
    queue.put(STATUS_BYTE, b"\xff")
    queue.offer([Buffer(HEADER, 16 + len(data)), Buffer(STATUS_BYTE, 1, WRITE)])
    queue.notify()
    queue.look(STATUS_BYTE, 1, bytes([status]))


# --- queue setup

MEMORY_END = BASE + 0x10000


def setups():
    """Each refusal of a queue alone, and each two: it is ready only where none holds."""
    for name, high, wrong in (("split", VERSION_1, SPLIT_WRONG), ("packed", VERSION_1 | RING_PACKED, PACKED_WRONG)):
        story = Story(f"orders_requests/two_refusals_of_a_{name}_queue",
                      "Each thing that keeps a queue from being ready, alone and with each other; the queue is ready without.")
        for pair in [(), *itertools.combinations(wrong, 1), *itertools.combinations(wrong, 2)]:
            if not clashes(pair):
                set_up(story, high, {key: value for one in pair for key, value in wrong[one].items()}, ready=not pair)
        yield story


SPLIT_WRONG = {
    "no FEATURES_OK": {"ok": False}, "size 0": {0x038: 0}, "size 257": {0x038: 257}, "size 512": {0x038: 512},
    "size 3": {0x038: 3},
    "descriptors aligned to 8": {0x080: BASE + 0x1008}, "driver area odd": {0x090: BASE + 0x2001},
    "device area aligned to 2": {0x0a0: BASE + 0x3002},
    "descriptors outside": {0x080: MEMORY_END - 16}, "driver area outside": {0x090: MEMORY_END - 8},
    "device area outside": {0x0a0: MEMORY_END - 8},
    "descriptors aligned to 8 and outside": {0x080: MEMORY_END - 8}, "driver area odd and outside": {0x090: MEMORY_END - 7},
    "device area aligned to 2 and outside": {0x0a0: MEMORY_END - 10},
}
PACKED_WRONG = {
    "no FEATURES_OK": {"ok": False}, "size 0": {0x038: 0}, "size 257": {0x038: 257},
    "descriptors aligned to 8": {0x080: BASE + 0x1008}, "driver area aligned to 2": {0x090: BASE + 0x2002},
    "device area aligned to 2": {0x0a0: BASE + 0x3002},
    "descriptors outside": {0x080: MEMORY_END - 16}, "driver area outside": {0x090: MEMORY_END},
    "device area outside": {0x0a0: MEMORY_END},
    "descriptors aligned to 8 and outside": {0x080: MEMORY_END - 8},
    "driver area aligned to 2 and outside": {0x090: MEMORY_END - 2},
    "device area aligned to 2 and outside": {0x0a0: MEMORY_END - 2},
}


def clashes(pair):
    """Whether both speak of one register."""
    return len(pair) == 2 and pair[0].split()[0] == pair[1].split()[0]


def set_up(story, high, changed, ready):
    story.write("b", STATUS, 0)
    story.write("b", 0x024, 1)
    story.write("b", 0x020, high)
    if changed.get("ok", True):
        story.write("b", STATUS, 0xb)
    else:
        story.write("b", STATUS, 0x7)
    for offset, value in {0x038: 4, 0x080: BASE + 0x1000, 0x090: BASE + 0x2000, 0x0a0: BASE + 0x3000}.items():
        story.write("b", offset, changed.get(offset, value))
    story.write("b", 0x044, 1)
    story.read("b", 0x044, int(ready))


# --- boards

WRONG = {"BadSize": {"length": 0x1800}, "BadBase": {"base": BASE + 0x800}, "ExtentOutside": {"start": 8, "count": 1},
         "ExtentsOverlap": {"start": 1, "count": 1}}


def words(name):
    return "".join(f"_{letter.lower()}" if letter.isupper() else letter for letter in name).strip("_")


def boards():
    """Slots 1 and 2 of three, each with one fault or both in one; slot 0 has sectors 0 to 3."""
    for first, second in itertools.combinations(WRONG, 2):
        both = WRONG[first] | WRONG[second]
        if {first, second} == {"ExtentOutside", "ExtentsOverlap"}:
            both = {"start": 3, "count": 6}
        yield refused(f"{words(first)}_and_{words(second)}_of_a_slot", "The first fault of one slot counts.", [{}, both], first)
    for first, second in itertools.permutations(WRONG, 2):
        yield refused(f"{words(first)}_of_a_slot_before_{words(second)}_of_the_next", "An earlier slot's fault counts.",
                      [{}, WRONG[first], WRONG[second]], first)
    for fault, change in WRONG.items():
        yield refused(f"{words(fault)}_and_a_cache_of_none", "A slot's fault comes before the cache's.", [{}, change], fault,
                      cache=0)
        yield refused(f"{words(fault)}_and_a_cache_too_large", "A slot's fault comes before the cache's.", [{}, change], fault,
                      cache=65537)
        yield refused(f"{words(fault)}_among_17_slots", "Too many slots come before a slot's fault.", [{}, change] + [{}] * 15,
                      "TooManySlots")
        yield refused(f"{words(fault)}_among_65_slots", "Too many slots come before a slot's fault.", [{}, change] + [{}] * 63,
                      "TooManySlots", identity=bytes(20))
        yield refused(f"{words(fault)}_of_slot_16_of_17", "In version 1 a slot too many comes before its own fault.",
                      [{}] + [{}] * 15 + [change], "TooManySlots")
    for place in (0, 8, 16):
        yield refused(f"a_memory_too_long_in_slot_{place}_of_17", "Too many slots come before a memory that is too long.",
                      [{"length": 0x10001000} if at == place else {"count": 0} for at in range(17)], "TooManySlots")
    yield refused("17_slots_and_a_cache_of_none", "Too many slots come before the cache.", [{}] * 17, "TooManySlots", cache=0)
    yield refused("65_slots_and_a_cache_of_none", "Too many slots come before the cache.", [{}] * 65, "TooManySlots", cache=0,
                  identity=bytes(20))
    for cache in (0, 65537, 2 ** 32 - 1):
        yield refused(f"no_slots_and_a_cache_of_{cache}", "That there is no slot comes before the cache.", [], "NoSlots",
                      cache=cache)
    for fault, change in WRONG.items():
        one = refused(f"{words(fault)}_and_a_bad_line", "A fault of the text comes before the board's.", [{}, change], None)
        one.lines.append("r 0 b 000 3")
        one.fault = "trace 5 Choice"
        yield one


def refused(name, about, changes, fault, cache=8, identity=None):
    """A board of slots with these changes; slot 0 has four sectors, the others none."""
    slots = [dataclasses.replace(Slot(start=0 if not at else 4, count=0 if at else 4, identity=identity), **change)
             for at, change in enumerate(changes)]
    return Story(f"orders_boards/{name}", about, slots, cache, fault=f"board {fault}")


# --- lines of a trace

KINDS_OF_FAULT = ["Cut", "Word", "Order", "Fields", "Number", "Choice", "Bytes"]
GOOD = {
    "slot": "slot 80000000 1000 0 0 rw 50 19".split(), "r": "r 0 b 000 4".split(), "w": "w 0 b 070 4 00000001".split(),
    "mr": "mr 0 80000000 1".split(), "mw": "mw 0 80000000 41".split(), "in": "in 0 41".split(), "sz": "sz 0 50 19".split(),
}

# The fields of each line by kind, and what each is where it is wrong.
NUMBERS = {"slot": [1, 2, 3, 4, 6, 7], "r": [1, 3], "w": [1, 3, 5], "mr": [1, 2, 3], "mw": [1, 2], "in": [1], "sz": [1, 2, 3]}
CHOICES = {"slot": [5], "r": [2, 4], "w": [2]}
BYTES = {"mw": [3], "in": [2]}
IDENTITY = "0" * 40


def lines():
    for version, word in itertools.product((1, 2), GOOD):
        if version == 2 and word != "slot":
            continue
        faults = {"Number": NUMBERS.get(word, []), "Choice": CHOICES.get(word, []), "Bytes": BYTES.get(word, [])}
        good = list(GOOD[word])
        if version == 2:
            good.append(IDENTITY)
            faults["Bytes"] = [8]
        yield from pairs_of_fields(version, word, good, faults)
        yield from pairs_with_shape(version, word, good, faults)
    yield from choice_and_value()
    yield from capacities()
    yield from two_lines()


def wrong_field(kind, field):
    """A field in a spelling that isn't its own."""
    return {"Number": "0" + field + "g", "Choice": "x" + field, "Bytes": "zz" + field[2:]}[kind]


class Text(Story):
    """A trace whose lines behind its slot are given as they are; it may lack its last line's end."""

    def __init__(self, name, about, version, lines, fault, cut=False):
        slot = Slot(length=0x1000, identity=bytes(20) if version == 2 else None)
        super().__init__(f"orders_texts/{name}", about, [slot], fault=f"trace {fault}")
        self.lines, self.is_cut = lines, cut

    def trace(self):
        return super().trace()[:-1] if self.is_cut else super().trace()


def pairs_of_fields(version, word, good, faults):
    """Two fields of one line that are wrong in two ways: the kind decides, wherever the fields stand."""
    for first, second in itertools.combinations(["Number", "Choice", "Bytes"], 2):
        if not faults[first] or not faults[second]:
            continue
        for a, b in itertools.product(faults[first], faults[second]):
            line = list(good)
            line[a], line[b] = wrong_field(first, line[a]), wrong_field(second, line[b])
            what = f"{first.lower()}_in_field_{a}_and_{second.lower()}_in_field_{b}"
            yield Text(f"line_{word}{version if word == 'slot' else ''}_{what}",
                       f"Two fields of one line are wrong: {first} comes before {second}.", version, [" ".join(line)], f"4 {first}")


def pairs_with_shape(version, word, good, faults):
    """A line with too few or too many fields, one that is cut, one out of order, each with another fault."""
    bad = {kind: places[-1] for kind, places in faults.items() if places}
    tag = f"{word}{version if word == 'slot' else ''}"
    for kind, place in bad.items():
        line = list(good)
        line[place] = wrong_field(kind, line[place])
        text = " ".join(line)
        yield Text(f"line_{tag}_with_a_field_too_many_and_{kind.lower()}", f"A field too many comes before {kind}.", version,
                   [text + " 0"], "4 Fields")
        few = " ".join(line[:-1]) if place < len(line) - 1 else " ".join(line[:1] + line[2:])
        yield Text(f"line_{tag}_with_a_field_too_few_and_{kind.lower()}", f"A field too few comes before {kind}.", version, [few],
                   "4 Fields")
        yield Text(f"line_{tag}_cut_and_{kind.lower()}", f"A cut line comes before {kind}.", version, [text], "4 Cut", cut=True)
        yield Text(f"line_{tag}_with_an_unknown_word_and_{kind.lower()}", f"A word that is none comes before {kind}.", version,
                   ["x" + text], "4 Word")
        if word == "slot":
            yield Text(f"line_{tag}_out_of_order_and_{kind.lower()}", f"A slot line that comes late comes before {kind}.",
                       version,
                             ["r 0 b 000 4", text], "5 Order")
    text = " ".join(good)
    yield Text(f"line_{tag}_cut_with_a_field_too_many", "A cut line comes before its fields.", version, [text + " 0"], "4 Cut",
               cut=True)
    yield Text(f"line_{tag}_cut_with_an_unknown_word", "A cut line comes before its word.", version, ["x" + text], "4 Cut",
               cut=True)
    yield Text(f"line_{tag}_of_an_unknown_word_with_a_field_too_many", "A word that is none comes before its fields.", version,
               ["x" + text + " 0"], "4 Word")
    if word == "slot":
        yield Text(f"line_{tag}_out_of_order_with_a_field_too_many", "A slot line that comes late comes before its fields.",
                   version,
                         ["r 0 b 000 4", text + " 0"], "5 Order")
        yield Text(f"line_{tag}_out_of_order_and_cut", "A cut line comes before a slot line that comes late.", version,
                   ["r 0 b 000 4", text], "5 Cut", cut=True)


def choice_and_value():
    """A value is judged by its width; where that is wrong it isn't."""
    for width, value, kind in (("3", "zz", "Choice"), ("x", "00000001", "Choice"), ("4", "0000001", "Number"),
                               ("2", "00000001", "Number"),
                               ("1", "001", "Number"), ("08", "g", "Choice"), ("", "g", "Choice")):
        line = f"w 0 b 070 {width} {value}"
        tag = {"": "none", "08": "08"}.get(width, width)
        yield Text(f"line_w_width_{tag}_and_value_{value}", "A value is judged by its width, and not where that is none.", 1,
                   [line], f"4 {kind}")
    for field, wrong in ((1, "00"), (3, "70")):
        line = "w 0 b 070 3 zz".split()
        line[field] = wrong
        yield Text(f"line_w_width_3_and_number_in_field_{field}", "Another number comes before the width.", 1, [" ".join(line)],
                   "4 Number")


def capacities():
    """Line 2."""
    for name, line, kind, cut in (("of_another_word_and_a_field_too_many", "caches 1 1", "Word", False),
                                  ("of_another_word_and_no_number", "slot g", "Word", False),
                                  ("with_a_field_too_many_and_no_number", "cache g 1", "Fields", False),
                                  ("without_a_field_and_cut", "cache", "Cut", True),
                                  ("of_no_number_and_cut", "cache g", "Cut", True),
                                  ("of_another_word_and_cut", "caches 1", "Cut", True)):
        yield Head(f"line_2_{name}", "Two faults of line 2: the kind that stands first.", ["vreplay 1", line], f"2 {kind}", cut)
    for name, line, kind, cut in (("and_line_2", "vreplay 4", "Header", False),):
        yield Head(f"line_1_{name}", "Faults of lines 1 and 2: the first line's.", [line, "cache g"], f"1 {kind}", cut)
    yield Head("line_1_cut_and_another_version", "A cut line 1 comes before its version.", ["vreplay 4"], "1 Cut", True)


class Head(Text):
    """A trace of these lines alone."""

    def __init__(self, name, about, lines, fault, cut):
        super().__init__(name, about, 1, lines, fault, cut)

    def trace(self):
        return "\n".join(self.lines) + ("" if self.is_cut else "\n")


def two_lines():
    """Two lines with faults: the first counts, whatever the kinds."""
    bad = {"Word": "x", "Fields": "r 0", "Number": "r 00 b 000 4", "Choice": "r 0 x 000 4", "Bytes": "in 0 4"}
    for first, second in itertools.permutations(bad, 2):
        yield Text(f"{first.lower()}_in_a_line_before_{second.lower()}", "The first line with a fault counts.", 1,
                         ["r 0 b 000 4", bad[first], bad[second]], f"5 {first}")


# --- events

def registers():
    """A wrong width or a misaligned offset at a register that would act."""
    story = Story("orders_requests/offset_width_and_register",
                  "A register that acts, at each width and beside it: only width 4 at its own offset acts.")
    queue = Split(story, "c", 1, 4).bring_up()
    queue.put(BASE, b"o")
    queue.put(queue.areas[0], queue.entry(Buffer(BASE, 1), -1))
    for width in (1, 2):
        for at in (0x050, 0x051, 0x052, 0x053):
            queue.put(queue.areas[1] + 2, number(1, 2))
            story.write("c", at, 1, width=width)
            story.write("c", at + 0x20, 0, width=width)
            story.read("c", STATUS, 0xf)
    for at in (0x051, 0x052, 0x053):
        story.write("c", at, 1)
        story.write("c", at + 0x20, 0)
        story.read("c", STATUS, 0xf)
    queue.offered = 1
    queue.notify(output=b"o")
    return story


def notifies():
    """Reasons for which a notify does nothing, each two at once."""
    story = Story("orders_requests/two_reasons_to_serve_nothing",
                  "A window that isn't live, a queue that isn't ready or isn't there, each two at once: nothing is served.")
    for status, index, ready in itertools.product((0xf, 0xb, 0x8f, 0x4f), (0, 1, 2), (True, False)):
        queue = Split(story, "c", 1, 4)
        queue.begin()
        queue.make_ready()
        queue.put(queue.areas[0], queue.entry(Buffer(BASE if status != 0x4f else 0, 1), -1))
        queue.put(queue.areas[1] + 2, number(1, 2))
        if status != 0x4f:
            story.write("c", STATUS, status)
        else:
            story.write("c", STATUS, 0xf)
            story.write("c", 0x050, 1, told=2)
            queue.put(queue.areas[0], queue.entry(Buffer(BASE, 1), -1))
        story.read("c", STATUS, status)
        if not ready:
            story.write("c", 0x044, 0)
        served = status == 0xf and index == 1 and ready
        story.write("c", 0x050, index, told=1 if served else 0, output=b"\0" if served else b"")
    return story


def missing_slots():
    story = Story("orders_requests/a_missing_slot_and_a_bad_range", "Of a slot that isn't there no range is judged.")
    for slot in (0, 1, 255):
        for at, count in ((0, 1), (BASE + 0xffff, 2), (2 ** 64 - 1, 2 ** 32 - 1)):
            story.event(f"mr {slot:x} {at:x} {count:x}", slot, BADRANGE)
            story.put(at, b"ab", BADRANGE, slot=slot)
    return story


def statuses():
    """FEATURES_OK that is refused, written together with each other set of bits."""
    story = Story("orders_requests/a_refused_features_ok_with_other_bits",
                  "FEATURES_OK is refused alone: each other bit of the same write is put in.")
    for bits in (0, 1, 2, 4, 0x80, 3, 5, 6, 7, 0x81, 0x82, 0x84, 0x87):
        for good in (False, True):
            story.write("b", STATUS, 0)
            story.write("b", 0x024, 1)
            story.write("b", 0x020, 1 if good else 3)
            story.write("b", STATUS, 8 | bits)
            story.read("b", STATUS, (8 if good else 0) | bits)
            story.write("b", STATUS, 0x70 | bits | 8)
            story.read("b", STATUS, (8 if good else 0) | bits)
    return story


def jump_before_chains():
    """A jump is found before a chain is looked at, good or bad."""
    story = Story("orders_requests/a_jump_before_a_chain",
                  "Too many chains on offer: neither a good first chain nor a bad one is looked at.")
    for address in (BASE, 0):
        queue = Split(story, "c", 1, 4)
        queue.put(queue.areas[1] + 2, number(0, 2))
        queue.bring_up()
        queue.put(queue.areas[0], queue.entry(Buffer(address, 1), -1))
        for idx in (5, 6, 0x8000, 0xffff):
            queue.bring_up()
            queue.put(queue.areas[2], b"\xee" * 4)
            queue.put(queue.areas[1] + 2, number(idx, 2))
            story.write("c", 0x050, 1, told=2)
            queue.look(queue.areas[2], 4, bytes(2) + b"\xee\xee")
    return story


def fault_before_request():
    """A chain with a fault is no request, however wrong it is as one."""
    story = Story("orders_requests/a_fault_before_a_request",
                  "A chain with a fault isn't looked at as a request: no status is written, and the image stays.")
    for kind in KINDS.values():
        queue = kind(story, "b", 0, 4, low=INDIRECT_DESC)
        for request in (number(OUT, 4) + bytes(12), number(NONE, 4) + bytes(12), bytes(15), bytes(0)):
            queue.clear()
            queue.bring_up()
            queue.put(HEADER, request + b"\xaa" * 512)
            queue.put(STATUS_BYTE, b"\xff")
            queue.offer([Buffer(HEADER, len(request) + 512), Buffer(STATUS_BYTE, 1, WRITE), Buffer(MEMORY_END, 1, WRITE)])
            story.write("b", 0x050, 0, told=2)
            queue.look(STATUS_BYTE, 1, b"\xff")
    return story
