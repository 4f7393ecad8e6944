"""Texts of traces that are broken by lot, in one line or in two."""
import trace_text

from .lots import Dice
from .story import Slot, Story

TITLE = "Broken texts"
HOW = ("A trace with each line that its format has is broken by lot: one field or two are spelled otherwise, a field more or less stands "
       "there, a line is of another format, doubled, moved or cut. The first fault in the order of the lines, and within a line of the "
       "kinds, is told; where none is left, the records.")
COLUMNS = ("What", "Where")
FOLDERS = {"broken": "Texts of each format that are broken by lot."}

IDENTITY = "6b616c79756e6f73206469736b2d3000000000aa"
SNAPSHOT = "4b414c5955424f53" + "00" * 20
EVENTS = ["r 0 b 070 4", "w 0 c 108 1 41", "w 0 b 014 4 00000001", "w 1 c 108 2 4142", "mr 0 80000000 10", "mw 0 80000ffe 00ff",
          "in 0 6162", "sz 1 84 32", "mw 1 0 -", "in 1 -", "r 1 c 100 2", "r 40 b 000 4"]
OF_FORMAT = {
    "version_1": ("vreplay 1", "cache 8", ["slot 80000000 10000 0 4 rw 50 19", "slot 0 1000 4 4 ro 0 ffff"], EVENTS),
    "version_2": ("vreplay 2", "cache 10", [f"slot 80000000 10000 0 4 rw 50 19 {IDENTITY}", f"slot 0 1000 4 4 ro 0 ffff {IDENTITY}"], EVENTS),
    "extended": ("kalyubos 1", "cache 1",
                 [f"slot 80000000+1000,90000000+1000 image 0 4 rw 50 19 {IDENTITY}", f"slot 0+1000 image 4 4 ro 0 ffff {IDENTITY}"],
                 [*EVENTS, f"st 0 {SNAPSHOT}", "st 1 -", "io 0 0 done", "io 1 0 failed"]),
    "hosted": ("kalyubos 1", "cache 1",
               [f"slot 80000000+1000,90000000+1000 host:1 0 4 rw 50 19 {IDENTITY}", f"slot 0+1000 host:1 4 4 ro 0 ffff {IDENTITY}"],
               [*EVENTS, f"st 0 {SNAPSHOT}", "io 0 0 done", "io 1 0 failed", "io 2 0 done"]),
    "both": ("kalyubos 1", "cache 2",
             [f"slot 80000000+1000 host:1 0 9 ro 50 19 {IDENTITY}", f"slot 80000000+1000,90000000+1000 image 0 8 rw 0 ffff {IDENTITY}"],
             [*EVENTS, f"st 1 {SNAPSHOT}", "io 0 0 done", "io 1 0 failed"]),
}
# And of the words of a disk that is dropped, held and released.
OF_WORDS = {
    "held": ("kalyubos 1", "cache 1",
             [f"slot 80000000+1000 host:2 0 4 rw 50 19 {IDENTITY}", f"slot 0+1000 image 0 4 ro 0 ffff {IDENTITY}"],
             ["drop 0", "drop 1", "hold 0", "hold 0", "hold 1", "release 0", "release 1", "drop 2", "hold ff", "release 40", "io 0 0 done", "in 0 61",
              "w 0 b 014 4 00000001"]),
}
# What stands for any field, and for any line.
OTHERS = ("1" + "0" * 16, "f" * 16, "10000", "ffff", "100", "ff", "100000000", "ffffffff", "0", "00", "b", "c", "B", "3", "4", "1", "done",
          "failed", "rw", "ro", "RO", "image", "host:1")
NO_LINES = ("", " ", "#", "# r", "R 0 b 000 4", "slots 0", "in", "vreplay 1", "vreplay 3", "kalyubos 1", "hosted", "cache", "st 0", "io 0", "io 0 0")
COUNT = 60


class Text(Story):
    """A text, and what trace_text.py says of it."""

    def __init__(self, name, about, text, shows):
        fault = trace_text.fault_of(text.encode("latin-1"))
        super().__init__(name, about, [Slot()], fault=f"trace {fault[0]} {fault[1]}" if fault else None, shows=shows)
        self.text, self.version = text, 1 if text.startswith("vreplay 1\n") else 2

    def trace(self):
        return self.text

    def compare(self, output, status):
        """Of a text that is right the records, or the board's fault, are the model's."""
        if self.fault:
            super().compare(output, status)


def stories():
    yield by_hand()
    for name, parts in {**OF_FORMAT, **OF_WORDS}.items():
        for number in range(COUNT):
            dice = Dice(f"broken {name} {number}")
            yield Text(f"broken/{name}_{number}", "A trace is broken by lot.", broken(dice, parts), [("texts broken by lot", name.replace("_", " "))])


def by_hand():
    """A field too many of `sz` and a wrong number in it are Fields."""
    return Text("broken/a_field_too_many_by_hand", "A field too many is Fields, though a number is wrong too.",
                "vreplay 1\ncache 8\nslot 80000000 10000 0 4 rw 50 19\nsz 0 050 19 1\n", [("texts broken by hand", "version 1")])


def broken(dice, parts):
    first, second, slots, events = parts
    events = [dice.one(events) for _ in range(dice.below(7))]
    lines = [first, second, *slots, *events]
    for _ in range(dice.one((1, 1, 2, 2, 3))):
        at = dice.below(len(lines)) if dice.is_one_in(9) or len(lines) < 5 else 2 + dice.below(len(lines) - 2)
        dice.one((change_field, change_field, change_field, change_field, change_two_fields, change_fields, change_line))(dice, lines, at)
    text = "\n".join(lines) + "\n"
    return text[:len(text) - 1 - dice.below(9)] if dice.is_one_in(15) else text


def change_field(dice, lines, at):
    """A field is spelled otherwise."""
    fields = trace_text.words_of(lines[at])
    place = dice.below(len(fields)) if dice.is_one_in(4) or len(fields) < 2 else 1 + dice.below(len(fields) - 1)
    fields[place] = otherwise(dice, fields[place])
    lines[at] = " ".join(fields)


def change_two_fields(dice, lines, at):
    change_field(dice, lines, at)
    change_field(dice, lines, at)


def otherwise(dice, field):
    """Another spelling: most of them are none of any field."""
    digit = dice.below(max(1, len(field)))
    return dice.one((field.upper(), "0" + field, field + "0", field[:-1], "", field + "g", "0x" + field, "-", "+" + field, field + "\r", field + "\t",
                     field[:digit] + "G" + field[digit + 1:], field[:digit] + "A" + field[digit + 1:],
                     field[:digit] + field[digit:digit + 1] * 2 + field[digit + 1:], *OTHERS, field + "," + field, field + "+",
                     field.replace("+", ",")))


def change_fields(dice, lines, at):
    """A field more or less, or a space."""
    fields = trace_text.words_of(lines[at])
    place = dice.below(len(fields) + 1)
    what = dice.below(5)
    if what == 0:
        fields.pop(place % len(fields))
    elif what == 1:
        fields.append("")
    elif what == 2:
        fields.insert(place, dice.one(("", "0", "1", "-", "rw", IDENTITY)))
    elif what == 3:
        fields.insert(0, "")
    else:
        fields.reverse()
    lines[at] = " ".join(fields)


def change_line(dice, lines, at):
    """A line is another, is doubled, goes elsewhere, or isn't there."""
    some = [line for _, second, slots, events in OF_FORMAT.values() for line in (second, *slots, *events)]
    to = dice.below(len(lines) + 1)
    what = dice.below(6)
    if what == 0:
        lines[at] = dice.one(some)
    elif what == 1:
        lines.insert(to, lines[at])
    elif what == 2:
        lines.insert(to, lines.pop(at))
    elif what == 3:
        lines.pop(at)
    elif what == 4:
        lines[at] = dice.one(NO_LINES)
    else:
        lines.insert(to, dice.one(some))
