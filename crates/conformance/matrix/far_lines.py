"""Faults in a text that is cut, behind many lines, and in the last of many slots; and 64 wide slots."""
from trace_text import EXTENDED

from . import guests
from .signs import IDENTITY
from .spellings import SLOT
from .story import BADRANGE, Slot, Story

TITLE = "Lines far down"
HOW = ("Line 1 or 2 is cut, whatever stands in it. A slot line behind eight others and more is wrong in each field, an "
       "event line behind 17, 33 and 64 slots in each way. In extended traces 64 slots differ in all fields.")
COLUMNS = ("What", "Where")
FOLDERS = {"far": "Texts that are cut early, faults far down in a trace, and the last slots of a wide one."}

# The line that is cut, by names: what a device that looks at it before its end takes for Header or Word, or for good.
LINE_1 = {"version_1": "vreplay 1", "version_2": "vreplay 2", "an_extended_trace": "kalyubos 1", "a_letter": "v",
          "the_word": "vreplay", "the_word_and_a_space": "vreplay ", "the_word_of_extended_traces": "kalyubos",
          "another_letter": "x", "a_space": " ", "version_3": "vreplay 3", "version_0": "vreplay 0",
          "a_leading_zero": "vreplay 01", "two_spaces": "vreplay  1", "a_space_behind": "vreplay 1 ",
          "another_field": "vreplay 1 1", "upper_case": "VREPLAY 1", "version_2_of_extended_traces": "kalyubos 2",
          "a_capital": "Kalyubos 1", "a_cache_line": "cache 8", "hosted": "hosted", "a_read": "r 0 b 000 4",
          "a_carriage_return": "vreplay 1\r", "a_nul": "vreplay 1\0"}
LINE_2 = {"a_cache": "cache 8", "no_capacity": "cache", "a_space": "cache ", "no_number": "cache x",
          "two_capacities": "cache 8 8", "a_letter": "c", "another_word": "capacity 8", "hosted": "hosted",
          "hosted_in_part": "hoste", "a_slot": "slot 0 1000"}

# A wrong field of a slot line, with its fault.
BAD_NUMBER, BAD_BYTES = ("0g", "Number"), (IDENTITY[1][:-1] + "G", "Bytes")
BAD_CHOICES = {"rw": ("wr", "Choice"), "image": ("hosts", "Choice")}
PLACES = (8, 9, 16, 17, 33, 63)

# Event lines that are none, each with its fault; the one out of order is a slot line.
EVENTS = {"word": ("x 0 b 000 4", "Word"), "order": ("", "Order"), "fields": ("r 0 b 000", "Fields"),
          "number": ("r 00 b 000 4", "Number"), "choice": ("r 0 d 000 4", "Choice"), "bytes": ("in 0 a", "Bytes"),
          "cut": ("r 0 b 000 4", "Cut")}


class Text(Story):
    """A text that is given, and refused with this fault."""

    def __init__(self, name, about, text, fault, what):
        super().__init__(f"far/{name}", about, [Slot()], fault=f"trace {fault}", shows=[what])
        self.text = text

    def trace(self):
        return self.text


def stories():
    yield from (cut(name, text, 1) for name, text in LINE_1.items())
    for first in ("vreplay 1", EXTENDED):
        for name, text in LINE_2.items():
            yield cut(f"{name}_of_{first.replace(' ', '_')}", f"{first}\n{text}", 2)
    for first in ("vreplay 2", EXTENDED):
        for place in PLACES:
            yield from bad_slots(first, place)
    for first, counts in (("vreplay 1", (17,)), ("vreplay 2", (17, 33, 64)), (EXTENDED, (17, 33, 64))):
        for count in counts:
            for kind, (line, fault) in EVENTS.items():
                yield bad_event(first, count, kind, line, fault)
    for make in (guests.identities, guests.read_only, guests.extents, guests.counts, guests.memories, guests.bases,
                 guests.consoles):
        yield extended(make())
    for make in (guests.identities, guests.memories, guests.bases, guests.consoles, disks):
        yield hosted(make())
    yield regions_of_64_slots("eight_regions", "image")
    yield asking_nothing(regions_of_64_slots("hosted_eight_regions", "host:1"))


# --- texts that are refused

def cut(name, text, line):
    return Text(f"line_{line}_cut_behind_{name}", "A line without its line feed is Cut, whatever stands in it.", text,
                f"{line} Cut", ("line 1 or 2 without its line feed", "whatever stands there"))


def fields_of(first):
    """The fields of a right slot line, whose extent is empty."""
    fields = [one for _, one in SLOT] + ([] if first == "vreplay 1" else [IDENTITY[1]])
    fields[3] = "0"
    return ["+".join(fields[:2]), "image", *fields[2:]] if first == EXTENDED else fields


def head(first, slots):
    """The lines before the events of a trace of so many slots."""
    return [first, "cache 8"] + [" ".join(["slot", *fields_of(first)])] * slots


def text_of(lines):
    return "\n".join(lines) + "\n"


def bad_slots(first, place):
    """A slot line behind others, with each field spelled wrong, with one too few, and with one too many."""
    fields = fields_of(first)
    lines = {"a_field_too_few": (fields[:-1], "Fields"), "a_field_too_many": ([*fields, "0"], "Fields")}
    for at, field in enumerate(fields):
        wrong, fault = BAD_CHOICES.get(field, BAD_BYTES if at == len(fields) - 1 else BAD_NUMBER)
        lines[f"a_bad_field_{at + 1}"] = ([*fields[:at], wrong, *fields[at + 1:]], fault)
    for what, (spelled, fault) in lines.items():
        text = text_of(head(first, place) + [" ".join(["slot", *spelled]), "r 0 b 000 4"])
        name = f"slot_{place}_of_{first.replace(' ', '_')}_with_{what}"
        yield Text(name, "A slot line behind others has a fault.", text, f"{3 + place} {fault}",
                   ("each field of `slot` in version 2 and in an extended trace", "slots 8 to 63"))


def bad_event(first, count, kind, line, fault):
    """The third event line behind many slots is wrong."""
    slots = head(first, count)
    text = text_of(slots + ["r 0 b 000 4", "sz 0 50 19", slots[-1] if fault == "Order" else line])
    name = f"fault_of_{kind}_behind_{count}_slots_of_{first.replace(' ', '_')}"
    return Text(name, "An event line behind many slots has a fault.", text[:-1] if fault == "Cut" else text,
                f"{5 + count} {fault}", ("each kind of fault", "behind 17, 33 and 64 slots"))


# --- traces that are taken

def extended(story, disk="image"):
    """A story of 64 slots in an extended trace: over an image its records stay."""
    lines = [f"cache {story.cache:x}", *(slot.line(EXTENDED, disk=disk) for slot in story.slots), *story.lines]
    story.name = f"far/extended_{story.name.partition('/')[2]}"
    story.shows = [("each field of 64 slots", "in an extended trace")]
    story.trace = lambda: text_of([EXTENDED, *lines])
    return story


def hosted(story):
    """A story of 64 slots that asks nothing, on a board whose disks the host serves: each record says so."""
    extended(story, "host:1")
    story.name = story.name.replace("/extended_", "/hosted_")
    story.shows = [("each field of 64 slots", "in a hosted trace")]
    return asking_nothing(story)


def asking_nothing(story):
    """A story of a hosted board, each of whose records has a dash behind what is said."""
    story.compare = lambda output, status: Story.compare(story, output.replace(" -\n", "\n"), status)
    return story


def disks():
    """Each disk has its own number of sectors, which no image bounds, and is read-only or not."""
    slots = guests.board(start=lambda slot: slot, count=lambda slot: (slot << 40) + 0x1000 - slot,
                         mode=lambda slot: "rw" if slot % 3 else "ro")
    story = Story("positions_slots/disks_of_64_slots", "Each of 64 hosted disks has its own capacity and mode.", slots)
    for slot in range(64):
        story.read("b", 0x100, 0x1000 - slot, slot=slot)
        story.read("b", 0x104, slot << 8, slot=slot)
        story.read("b", 0x010, 0x30004244 if slot % 3 else 0x30004264, slot=slot)
    return story


def regions_of_64_slots(name, disk):
    """Region k of a slot has k + 1 pages: its first and its last byte are inside, their neighbours aren't."""
    slots = [Slot(count=0, identity=guests.identity(slot)) for slot in range(64)]
    about = "Each of 64 slots has eight regions, at other places than its neighbours'."
    story = Story(f"far/{name}_of_64_slots", about, slots,
                  shows=[("the regions of 64 slots", "in an extended trace and in a hosted one")])
    for slot in range(64):
        for first, count in regions_of(slot):
            story.put(first, bytes([slot + 1]), slot=slot)
            story.put(first + count - 1, bytes([count >> 12]), slot=slot)
    for slot in guests.PLACES:
        for first, count in regions_of(slot):
            story.look(first, 2, bytes([slot + 1, 0]), slot=slot)
            story.look(first + count - 2, 2, bytes([0, count >> 12]), slot=slot)
            story.look(first + count - 1, 2, BADRANGE, slot=slot)
            story.look(first - 1, 2, BADRANGE, slot=slot)
    lines = [slot.line(EXTENDED, regions_of(at), disk) for at, slot in enumerate(slots)]
    story.trace = lambda: text_of([EXTENDED, "cache 8", *lines, *story.lines])
    return story


def regions_of(slot):
    """The regions of a slot, each with its first address and how many bytes it has."""
    return [((slot << 32) + (at + 1) * (0x100000 + 0x1000 * slot), 0x1000 * (at + 1)) for at in range(8)]
