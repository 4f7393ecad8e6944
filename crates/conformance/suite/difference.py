"""In what a device's answers to a scenario differ from what its files say."""
import dataclasses
import re
from typing import Optional

import trace_text

from . import trace
from .scenarios import SECTOR


@dataclasses.dataclass(frozen=True)
class Difference:
    """The first thing that differs: what was expected and found, of which event or of which line that is refused."""

    expected: str
    found: str
    event: Optional[trace.Event] = None
    refused: Optional[trace.Event] = None

    def lines(self, scenario):
        """It for a reader."""
        if self.event:
            yield f"line {self.event.number}: {shortened(self.event.text)}: {self.event.in_words()}"
        if self.refused:
            yield f"line {self.refused.number}: {shortened(self.refused.text)}: no line of a trace"
        yield f"expected {shortened(self.expected)}"
        yield f"found    {shortened(self.found)}"
        wanted, has = bytes_told(self.expected), bytes_told(self.found)
        if self.event and wanted and has and len(wanted) == len(has) and wanted != has:
            from . import writers
            yield writers.byte_in_words(scenario, self.event, wanted, has)

    @property
    def kind(self):
        """What differences of one kind share: the event, its register, and the fields that differ, without numbers."""
        wanted, has = RECORD.fullmatch(self.expected), RECORD.fullmatch(self.found)
        if not self.event or not wanted or not has:
            return tuple(blotted(text) for text, match in ((self.expected, wanted), (self.found, has)) if not match)
        both = enumerate(zip(wanted.groups(), has.groups()))
        fields = [(place, blotted(one), blotted(other)) for place, (one, other) in both if one != other]
        return (self.event.word, *self.place(), *fields)

    def place(self):
        """Which register is meant, or of a look at memory which byte."""
        if self.event.word == "mr":
            return self.first_byte()
        return self.event.behind[:2] if self.event.word in ("r", "w") else ()

    def first_byte(self):
        """The bytes themselves, where they are few, or else how many there are, and which differs first."""
        wanted, has = bytes_told(self.expected), bytes_told(self.found)
        if len(wanted) <= FEW:
            return [wanted, has]
        return [len(wanted), next((at for at, (one, other) in enumerate(zip(wanted, has)) if one != other), None)]


# A record, the numbers in it, what isn't printed as it is, and how many bytes are few.
RECORD = re.compile(r"([0-9a-f]+) (\S+) (\S+) ([0-3]) ([0-3])(?: (\S+))?")
NUMBER = re.compile(r"(?<![0-9a-z])(?:[0-9a-f]{2,}|[0-9]+)(?![0-9a-z])")
NO_TEXT = re.compile(r"[^ -~]")
FEW = 4


def blotted(text):
    """A text without its numbers, but for a digit that stands alone."""
    return text if text is None or len(text) == 1 else NUMBER.sub("#", text[:200])


def bytes_told(line):
    """The bytes that a record tells, or none."""
    try:
        record = RECORD.fullmatch(line)
        return bytes.fromhex(record[2][2:]) if record and record[2].startswith("b:") else b""
    except ValueError:
        return b""


def shortened(text, most=100):
    """A text for a terminal: bytes that are no ASCII are spelled, and what is too much is left out."""
    plain = NO_TEXT.sub(lambda one: f"\\x{ord(one[0]):02x}", text[:most])
    return plain if len(text) <= most else f"{plain}.. ({len(text)} characters)"


def difference(scenario, outcome, seconds):
    """The first difference of an outcome from what the scenario's files say, or None."""
    if outcome.late:
        return Difference("an answer", f"none after {seconds:g} seconds")
    different = first_line(scenario, outcome)
    if different or not outcome.tells_image:
        return different
    return different_image(scenario, outcome)


def first_line(scenario, outcome):
    if outcome.found() == scenario.read(".records"):
        return None
    expected, found = scenario.records.split("\n"), outcome.found().decode("latin-1").split("\n")
    for number in range(max(len(expected), len(found))):
        wanted = expected[number] if number < len(expected) else "no more lines"
        has = found[number] if number < len(found) else "no more lines"
        if wanted != has:
            return Difference(wanted, told(has, outcome), *where(scenario, number))
    return None


def where(scenario, number):
    """The event of a record; of a trace that is refused none, but its line."""
    if not scenario.is_refused:
        return scenario.events[number] if number < len(scenario.events) else None, None
    fault = FAULT.search(scenario.records)
    lines = scenario.text.split("\n")
    at = int(fault[1]) if fault else 0
    return None, trace.Event(trace_text.words_of(lines[at - 1]), number=at) if 0 < at <= len(lines) else None


FAULT = re.compile(r"^fault trace (\d+) ", re.MULTILINE)


def told(line, outcome):
    """A line that was found, and what the device said of a failure."""
    if line.startswith("status ") and outcome.said():
        return f"{line} ({shortened(outcome.said()[-1])})"
    return line


def different_image(scenario, outcome):
    if outcome.image is None:
        if outcome.status:
            return None
        return Difference("an image afterwards", "none")
    wanted, has = scenario.image_after, outcome.image
    if wanted == has:
        return None
    if len(wanted) != len(has):
        return Difference(f"an image of {len(wanted)} bytes afterwards", f"one of {len(has)}")
    for start in range(0, len(wanted), SECTOR):
        if wanted[start:start + SECTOR] != has[start:start + SECTOR]:
            byte = next(i for i in range(start, start + SECTOR) if wanted[i] != has[i])
            return Difference(f"sector {start // SECTOR} of the image afterwards, from byte {byte - start} on: "
                              f"{wanted[byte:byte + 8].hex()}", has[byte:byte + 8].hex())
    return None
