"""The text of a trace, written from docs/formats.md alone: what is wrong with it, its lines with their fields by name, and these written.

`fault_of` answers where and why a text is no trace, as the last line of the program tells it, or none. The other readers are of texts
that may have one: fields that a line has too few aren't there, and a field that is spelled wrong says nothing.
"""
import re

# The kinds of fault, in the order in which they are looked for within a line.
KINDS = ["Cut", "Header", "Word", "Order", "Fields", "Number", "Choice", "Bytes"]

# The fields of each line behind its first word, with their kinds. A number says how many bits it may have.
AT_DEVICE = {"slot": 8, "device": 8}
LINES = {
    "cache": {"capacity": 32},
    "slot": {"base": 64, "length": 64, "start": 64, "count": 64, "mode": "mode", "columns": 16, "rows": 16},
    "r": {"slot": 8, "window": "win", "offset": "off", "width": "wid"},
    "w": {"slot": 8, "window": "win", "offset": "off", "width": "wid", "value": "val"},
    "mr": {"slot": 8, "address": 64, "length": 32},
    "mw": {"slot": 8, "address": 64, "content": "bytes"},
    "in": {"slot": 8, "content": "bytes"},
    "sz": {"slot": 8, "columns": 16, "rows": 16},
    "st": {"slot": 8, "content": "bytes"},
    "io": {"slot": 8, "tag": 8, "verdict": "verdict"},
    "drop": {"slot": 8},
    "hold": {"slot": 8},
    "release": {"slot": 8},
    "plug": AT_DEVICE | {"kind": "kind"},
    "dr": AT_DEVICE | {"offset": "off", "width": "wid"},
    "dw": AT_DEVICE | {"offset": "off", "width": "wid", "value": "val"},
    "supply": AT_DEVICE | {"content": "bytes"},
    "frame": AT_DEVICE | {"content": "bytes"},
    "take": AT_DEVICE,
    "dsent": AT_DEVICE,
    "link": AT_DEVICE | {"link": "link"},
    "dsz": AT_DEVICE | {"columns": 16, "rows": 16},
    "dio": AT_DEVICE | {"tag": 8, "verdict": "verdict"},
    "ddrop": AT_DEVICE,
    "dhold": AT_DEVICE,
    "drelease": AT_DEVICE,
}
EVENTS = LINES.keys() - {"cache", "slot"}

# The first line of each kind of trace: the two versions of a plain one, and an extended one.
FIRST_LINES = ["vreplay 1", "vreplay 2", "kalyubos 1"]
FIRST, _, EXTENDED = FIRST_LINES

# The fields of those that have others in an extended trace.
IN_EXTENDED = {"slot": {"regions": "regions", "disk": "disk", "start": 64, "count": 64, "mode": "mode", "columns": 16, "rows": 16}}

# What stands behind the kind of a further device that is a disk, of the host or of the image.
OF_DISK = {"disk": {"sectors": 64, "mode": "mode", "identity": "identity", "depth": 8},
           "image": {"place": 64, "count": 64, "mode": "mode", "identity": "identity"}}

# What stands behind them in all but version 1, and the words that an extended trace has alone.
ADDED = {"slot": {"identity": "identity"}}
EXTENDED_WORDS = EVENTS - {"r", "w", "mr", "mw", "in", "sz"}

CHOICES = {"win": ["b", "c"], "wid": ["1", "2", "4"], "mode": ["rw", "ro"], "verdict": ["done", "failed"], "link": ["up", "down"]}


# --- what is wrong with a text

def fault_of(text):
    """The first line with a fault and its kind, as (line, kind), or none where `text` (bytes) is a trace."""
    text, line, had_event, at = text.decode("latin-1"), 0, False, 0
    first = text.partition("\n")[0]
    while at < len(text) or line < 2:
        line += 1
        cut = text.find("\n", at)
        if cut < 0:
            return line, "Cut"
        kind = fault_in(text[at:cut], line, had_event, first)
        if kind:
            return line, kind
        had_event = had_event or line > 2 and not text.startswith("slot ", at)
        at = cut + 1
    return None


def fault_in(text, line, had_event, first):
    """The kind of fault of one line of a trace with this first line, or none."""
    if line == 1:
        return None if text in FIRST_LINES else "Header"
    word, *fields = words_of(text)
    if word not in LINES or (word == "cache") != (line == 2) or word in EXTENDED_WORDS and first != EXTENDED:
        return "Word"
    if word == "slot" and had_event:
        return "Order"
    kinds = fields_of(word, fields, first)
    if len(fields) != len(kinds):
        return "Fields"
    width = dict(zip(kinds, fields)).get("width")
    faults = {fault_of_field(field, kind, width) for field, kind in zip(fields, kinds.values())}
    return min(faults - {None}, key=KINDS.index, default=None)


def fields_of(word, fields, first):
    """The names and kinds of the fields that the word has behind it in a trace with this first line, where these stand there."""
    kinds = IN_EXTENDED.get(word, LINES[word]) if first == EXTENDED else LINES[word]
    added = OF_DISK[fields[2]] if is_disk(word, fields) else ADDED.get(word, {}) if first != FIRST else {}
    return kinds | added if added else kinds


def is_disk(word, fields):
    """Whether the line plugs in a disk."""
    return word == "plug" and "".join(fields[2:3]) in OF_DISK


def fault_of_field(text, kind, width):
    """The kind of fault of one field, or none. `width` is how the width is spelled in its line."""
    if kind in CHOICES:
        return None if text in CHOICES[kind] else "Choice"
    if kind in FAULTS:
        return None if FAULTS[kind][0](text) else FAULTS[kind][1]
    if kind == "val" and width not in CHOICES["wid"]:
        return None
    if kind in ("off", "val"):
        return None if re.fullmatch("[0-9a-f]{%d}" % (3 if kind == "off" else 2 * int(width)), text) else "Number"
    return None if is_number(text, kind) else "Number"


def is_number(text, bits):
    """Whether a text is a number of so many bits."""
    return bool(re.fullmatch("0|[1-9a-f][0-9a-f]*", text)) and int(text, 16) < 1 << bits


def is_disk_of_slot(text):
    """Whether a text says who has a slot's disk."""
    who, mark, depth = text.partition(":")
    name, plus, spare = text.partition("+")
    return text == "image" or who + mark == "host:" and is_number(depth, 8) or name + plus == "image+" and spare != "0" and is_number(spare, 64)


def is_kind(text):
    """Whether a text is a kind of further device."""
    numbers = re.fullmatch("network:[0-9a-f]{12}:([^:]*)|console:([^:]*):([^:]*)", text)
    return text in ("entropy", *OF_DISK) or bool(numbers) and all(is_number(number, 16) for number in numbers.groups() if number is not None)


def are_regions(text):
    """Whether a text is regions of a memory."""
    regions = [region.split("+") for region in text.split(",")]
    return len(regions) <= 8 and all(len(region) == 2 and all(is_number(number, 64) for number in region) for region in regions)


def is_of(form):
    """Whether a text has this form."""
    return lambda text: re.fullmatch(form, text)


# By kinds, what tells whether a field is one, and the kind of its fault where it isn't.
FAULTS = {"disk": (is_disk_of_slot, "Choice"), "kind": (is_kind, "Choice"), "regions": (are_regions, "Number"),
          "bytes": (is_of("-|([0-9a-f]{2})+"), "Bytes"), "identity": (is_of("[0-9a-f]{40}"), "Bytes")}


# --- lines read

class Line:
    """A line of a trace with this first line: its words, its number where that is known, and its fields by their names, as they are spelled."""

    def __init__(self, words, first=EXTENDED, number=0):
        self.words, self.number = words, number
        self.kinds = fields_of(words[0], words[1:], first) if words[0] in LINES else {}
        self.fields = dict(zip(self.kinds, words[1:]))

    @property
    def word(self):
        return self.words[0]

    @property
    def text(self):
        return " ".join(self.words)

    @property
    def behind(self):
        """The fields of an event behind its slot, as they are spelled."""
        return self.words[2:]

    def __contains__(self, name):
        return name in self.fields

    def __getitem__(self, name):
        """What a field says: a number, bytes, the regions of a memory, or just its text."""
        return value_of(self.fields[name], self.kinds[name])

    def with_field(self, name, value):
        """The words of the line with another value."""
        place = 1 + list(self.fields).index(name)
        width = self["width"] if "width" in self else None
        return [*self.words[:place], spelling_of(value, self.kinds[name], width), *self.words[place + 1:]]

    def regions(self):
        """The regions of a slot's memory, each as its base and its length."""
        return self["regions"] if "regions" in self else [(self["base"], self["length"])]

    def disk(self):
        """Who has a slot's disk."""
        return self.fields.get("disk", "image")


def value_of(text, kind):
    """What a field of this kind says."""
    if kind in ("bytes", "identity"):
        return bytes_of(text)
    if kind == "regions":
        return [tuple(int(number, 16) for number in region.split("+")) for region in text.split(",")]
    return int(text, 16) if isinstance(kind, int) or kind in ("off", "wid", "val") else text


def words_of(line):
    """The words of a line, whether or not it is one of a trace."""
    return line.split(" ")


def is_event(line):
    """Whether a line has an event's word."""
    return words_of(line)[0] in EVENTS


def bytes_of(field):
    return b"" if field == "-" else bytes.fromhex(field)


def parts_of_kind(text):
    """The name of a further device's kind, and what stands with it: a card's address and MTU, a console's columns and rows."""
    name, *fields = text.split(":")
    address = [bytes.fromhex(fields.pop(0))] if name == "network" else []
    return name, *address, *(int(field, 16) for field in fields)


def parts_of(text):
    """A trace's first line, the capacity of its cache, and the words of each slot line and of each event."""
    lines = [line.split(" ") for line in text.split("\n")[:-1]]
    slots = [words for words in lines if words[0] == "slot"]
    return " ".join(lines[0]), int(lines[1][1], 16), slots, lines[2 + len(slots):]


def events_of(text, kind=Line):
    """The events of a text, up to the first with other fields than it must have. Lines that have no event's word are passed over."""
    events = []
    for number, line in enumerate(text.split("\n"), 1):
        words = words_of(line)
        if words[0] in EVENTS:
            event = kind(words, number=number)
            if len(words) != 1 + len(event.kinds):
                break
            events.append(event)
    return events


def slots_of(text):
    """The slot lines of a text."""
    first, *lines = text.split("\n")
    return [Line(words_of(line), first, number) for number, line in enumerate(lines, 2) if line.startswith("slot ")]


# --- lines written

def spelled(content):
    return content.hex() or "-"


def spelling_of(value, kind, width=None):
    """How a field of this kind says a value."""
    if isinstance(value, bytes):
        return spelled(value)
    if kind == "regions":
        return ",".join(f"{base:x}+{length:x}" for base, length in value)
    if kind == "off":
        return f"{value:03x}"
    if kind == "val":
        return f"{value:0{2 * width}x}"
    return f"{value:x}" if isinstance(value, int) else value


def line_of(word, *values, first=EXTENDED):
    """A line of a trace with this first line, by what its fields say."""
    kinds = fields_of(word, values, first)
    width = dict(zip(kinds, values)).get("width")
    return " ".join([word, *(spelling_of(value, kind, width) for value, kind in zip(values, kinds.values()))])


def slot_line(first, regions, disk, *fields, identity):
    """A slot line; what a trace with this first line doesn't say of a slot is left out."""
    memory = (regions, disk) if first == EXTENDED else regions[0]
    return line_of("slot", *memory, *fields, *([] if first == FIRST else [identity]), first=first)
