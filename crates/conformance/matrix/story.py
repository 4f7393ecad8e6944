"""A scenario in the making: its lines, what the rules say of each record, and whether the model agrees.

Every event is written together with what the rules say of its record. What isn't said is the model's answer alone; what is
said and isn't the model's answer is told by `files`, so that a model and a generator that are wrong alike are found.
"""
import dataclasses
import typing

import trace_text
from mutants import model

SECTOR = 512
BASE, LENGTH = 0x80000000, 0x10000
BADRANGE, BADSLOT = "badrange", "badslot"

# The bits of InterruptStatus.
USED, CHANGED = 1, 2


class Disagrees(Exception):
    """The model doesn't answer as the rules say."""


def plain_image(sectors=8):
    """The image of a scenario without a file of its own: each byte of sector k is 0x10 + k."""
    return b"".join(bytes([(0x10 + sector) % 256]) * SECTOR for sector in range(sectors))


def spelled(content):
    return content.hex() or "-"


@dataclasses.dataclass(frozen=True)
class Slot:
    """A slot line."""

    base: int = BASE
    length: int = LENGTH
    start: int = 0
    count: int = 8
    mode: str = "rw"
    columns: int = 0x50
    rows: int = 0x19
    identity: typing.Optional[bytes] = None

    def line(self, first=None, regions=None, disk="image"):
        """Its line in a trace with this first line, else in the first version that says all of it; with one region, if it has no others."""
        first = first or trace_text.FIRST_LINES[self.identity is not None]
        return trace_text.slot_line(first, regions or [(self.base, self.length)], disk, self.start, self.count, self.mode, self.columns, self.rows,
                                    identity=self.identity)


class Said(typing.NamedTuple):
    """What the rules say of a record; None where they are not asked."""

    slot: int
    reply: typing.Optional[str]
    output: typing.Optional[str]
    words: typing.Optional[str]

    def whole(self):
        """The record, where all of it is said."""
        return f"{self[0]:x} {self[1]} {self[2]} {self[3]}"

    def is_met_by(self, record):
        slot, reply, output, words = record.split(" ", 3)
        return slot == f"{self.slot:x}" and self.reply in (None, reply) and self.output in (None, output) and self.words in (None, words)

    def __str__(self):
        return " ".join("?" if one is None else one for one in (f"{self.slot:x}", self.reply, self.output, self.words))


class Story:
    """One scenario: a name with its folder, a sentence, a board, and events.

    `told` is what an event sets in the InterruptStatus of its window. A reset and InterruptACK clear it by themselves. `shows` has
    pairs for MATRIX.md: a field, and its bits or what else is shown of it. `fault` is what a refused trace or board ends with,
    as `board BadBase`. `zeros` is how many sectors of zeros an image has that is too large to be written out.
    """

    def __init__(self, name, about, slots=(Slot(),), cache=8, image=None, fails=None, fault=None, shows=(), zeros=0):
        self.name, self.about, self.slots, self.cache = name, about, list(slots), cache
        self.image, self.fails, self.fault, self.shows = image, fails, fault, list(shows)
        self.zeros = zeros
        self.version = 1 if all(slot.identity is None for slot in self.slots) else 2
        self.lines, self.said = [], []
        # The image afterwards and how often it was flushed, where a rule says it.
        self.leaves = None
        self.words = {(slot, window): 0 for slot in range(len(self.slots)) for window in "bc"}

    # --- events

    def event(self, line, slot, reply, output="-", known=True):
        """Writes a line down, and what is said of its record."""
        if slot >= len(self.slots):
            reply, output, words = BADSLOT, "-", "0 0"
        else:
            words = f"{self.words[slot, 'b']} {self.words[slot, 'c']}" if known else None
        self.lines.append(line)
        self.said.append(tuple.__new__(Said, (slot, reply, output, words)))

    def read(self, window, offset, found=None, width=4, slot=0):
        """A register is read; `found` is the value that it must have."""
        reply = None if found is None else f"v:{found:08x}"
        self.event(f"r {slot:x} {window} {offset:03x} {width}", slot, reply)

    def write(self, window, offset, value, told=0, output=b"", width=4, slot=0):
        """A register is written."""
        if slot < len(self.slots):
            self.tell(slot, window, offset, value, told, width)
        self.event(f"w {slot:x} {window} {offset:03x} {width} {value:0{2 * width}x}", slot, "done", spelled(output))

    def tell(self, slot, window, offset, value, told, width):
        """InterruptStatus after a write: a reset clears it all, InterruptACK the bits written."""
        if width == 4 and (offset, value) == (0x070, 0):
            self.words[slot, window] = 0
        if width == 4 and offset == 0x064:
            self.words[slot, window] &= ~value
        self.words[slot, window] |= told

    def look(self, address, length, found=None, slot=0):
        """Memory is read; `found` is bytes, BADRANGE, or not said."""
        reply = found if found is None or found == BADRANGE else f"b:{spelled(found)}"
        self.event(f"mr {slot:x} {address:x} {length:x}", slot, reply)

    def put(self, address, content, reply="done", slot=0):
        """Memory is written."""
        self.event(f"mw {slot:x} {address:x} {spelled(content)}", slot, reply)

    def type(self, content, took=None, told=0, slot=0):
        """The console is typed to; `told` is of the console window."""
        if slot < len(self.slots):
            self.words[slot, "c"] |= told
        self.event(f"in {slot:x} {spelled(content)}", slot, None if took is None else f"took:{took:x}")

    def resize(self, columns, rows, told=0, slot=0):
        if slot < len(self.slots):
            self.words[slot, "c"] |= told
        self.event(f"sz {slot:x} {columns:x} {rows:x}", slot, "done")

    # --- files

    def head(self):
        """The lines before the slots."""
        return [f"vreplay {self.version}", f"cache {self.cache:x}"]

    def trace(self):
        return "\n".join(self.head() + [slot.line() for slot in self.slots] + self.lines) + "\n"

    def before(self):
        """The image before."""
        return bytes(self.zeros * SECTOR) if self.zeros else self.image if self.image is not None else plain_image()

    def replayed(self, text, before):
        """The model's records, its status, and the image that it leaves."""
        return model.replay(text.encode(), before, set(self.fails or ()), (), trace_text.fault_of)

    def files(self):
        """The scenario's files by their endings; raises Disagrees where the model's answer isn't what is said."""
        before, text = self.before(), self.trace()
        output, status, image = self.replayed(text, before)
        self.compare(output, status)
        if self.leaves and self.leaves != (image.bytes, image.flushes):
            raise Disagrees(f"{self.name}: the model leaves another image, or {image.flushes} flushes")
        found = {".trace": text, ".records": f"{output}status {status}\n"}
        if self.zeros:
            found[".before"] = f"zeros {self.zeros}\n"
        elif self.image is not None and self.image != plain_image():
            found[".before"] = "".join(before[at:at + SECTOR].hex() + "\n" for at in range(0, len(before), SECTOR))
        if self.fails is not None:
            found[".fails"] = "".join(f"{number}\n" for number in self.fails)
        if image.flushes or image.bytes != before:
            found[".after"] = "\n".join([f"flushes {image.flushes}", *changed(before, image.bytes)]) + "\n"
        return found

    def compare(self, output, status):
        """Compares what is said with the model's answer."""
        if self.fault:
            if (output, status) != (f"fault {self.fault}\n", 1):
                raise Disagrees(f"{self.name}: said fault {self.fault}, the model {output[:60]!r}")
            return
        records = output.split("\n")[:-1]
        if status or len(records) != len(self.said):
            raise Disagrees(f"{self.name}: the model ends with {records[-1:]} and {status}")
        for line, said, record in zip(self.lines, self.said, records):
            if record != said.whole() and not said.is_met_by(record):
                raise Disagrees(f"{self.name}: {line[:100]}: said {str(said)[:100]}, the model {record[:100]}")


class OneLine(Story):
    """A trace of one slot with this first line, in which a line stands in the place of another, or behind it: that is a fault."""

    def __init__(self, name, about, first, number, line, fault, what):
        slot = Slot(identity=None if first == trace_text.FIRST else bytes(20))
        super().__init__(name, about, [slot], fault=f"trace {number} {fault}", shows=[what])
        self.first, self.number, self.line = first, number, line

    def trace(self):
        lines = [self.first, "cache 8", self.slots[0].line(self.first)]
        lines[self.number - 1:self.number] = [self.line]
        return "\n".join(lines) + "\n"


def changed(before, after):
    """The lines of an image's changed sectors."""
    for at in starts_of_changed(before, after, SECTOR << 10):
        yield f"sector {at // SECTOR} {after[at:at + SECTOR].hex()}"


def starts_of_changed(before, after, size, start=0, end=None):
    """Where changed sectors begin, looked for in parts of a size that differ."""
    for at in range(start, len(after) if end is None else min(end, len(after)), size):
        if before[at:at + size] != after[at:at + size]:
            if size == SECTOR:
                yield at
            else:
                yield from starts_of_changed(before, after, SECTOR, at, at + size)
