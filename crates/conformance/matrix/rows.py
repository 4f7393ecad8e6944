"""Worked scenarios that are rows of a table: data/rows/README.md says how a table is read."""
import functools
import itertools
import os
import re

from suite import made

MARK = re.compile(r"(?:(?P<count>\d+) \* (?=\+ ))?(?P<mark>[-=+]) (?P<name>\S+?)(?:(?P<about>: .*)|(?P<words>( \S+)*))$|(?P<file>before|after|fails):$")
PLACE = re.compile(r"\{([A-Z]+)(?:\.(low|high))?\}")
REPEATED = re.compile(r"(\d+) \* (.*)$", re.DOTALL)
RUN, RISING = re.compile(r"\{([^*{}]*)\*(\d+)\}"), re.compile(r"\{(\d+):(\d+),(\d+)\}")
# What a line has whose bytes aren't its text's.
PLACED = re.compile(r"[{\\]")
ESCAPED = re.compile(r"\\(?:x([0-9a-f]{2})|(\.))")
# The first words of a board's lines, which have no record.
BOARD = ("vreplay", "kalyubos", "cache", "slot")


class NoRow(Exception):
    """A line that isn't in the form of a table of rows."""


class Row:
    """A scenario, or a part of some: the lines of its files, by their endings."""

    def __init__(self, name="", places=(), about=""):
        self.name, self.places, self.about, self.lines = name, places, about, {"trace": []}

    def take(self, part, words):
        """Puts a part's lines here, with words in its places."""
        for end, lines in part.lines.items():
            self.begin(end).extend(filled(line, dict(zip(part.places, words))) for line in lines)

    def begin(self, end):
        """The lines so far of a file, which may be empty."""
        return self.lines.setdefault(end, [])

    def sides(self):
        """The lines of its trace, each with its record or None; the last line of what is refused has no line of the trace."""
        sides = list(map(halves, unrolled(self.lines["trace"])))
        return sides if any(event is None for event, _ in sides) else list(answered(sides))

    def files(self, sides=None):
        """The scenario's files by their endings; `sides` are its own, where they are known."""
        sides = self.sides() if sides is None else sides
        status = int(any(event is None for event, _ in sides))
        found = {".trace": together(event for event, _ in sides if event is not None),
                 ".records": together(record for _, record in sides if record is not None) + f"status {status}\n".encode()}
        return found | {f".{end}": together(unrolled(lines)) for end, lines in self.lines.items() if end != "trace"}


def filled(line, words):
    """A line of a part with words in its places; the low and the high half of a number are its 32 bits."""
    return PLACE.sub(lambda place: put(words[place[1]], place[2]) if place[1] in words else place[0], line) if words and "{" in line else line


def put(word, half):
    """A word, or the half of its number that is asked for; it may be a place of the part around."""
    if not half:
        return word
    around = PLACE.fullmatch(word)
    return f"{{{around[1]}.{half}}}" if around else f"{int(word, 16) >> (32 if half == 'high' else 0) & 0xffffffff:08x}"


def unrolled(lines):
    for line in lines:
        count = REPEATED.match(line)
        yield from [line] if not count else int(count[1]) * [count[2]]


def halves(line):
    """A line of the trace and the record beside it; a trace or a board that is refused has a last record alone."""
    event, mark, record = line.rpartition(" > ") if not line.startswith("> ") else (None, *line.partition("> ")[1:])
    return (event, record) if mark else (line, None)


def answered(sides):
    """The lines with their records: one that isn't written is that all is done, with the slot's interrupts as they were."""
    hosted, before = any(re.match("slot .* host:", event) for event, _ in sides), {}
    for event, record in sides:
        if event.startswith(BOARD):
            yield event, None
            continue
        slot = event.partition(" ")[2].partition(" ")[0]
        record = record if record is not None else f"{slot} done - {before.get(slot, '0 0')}{' -' if hosted else ''}"
        before[slot] = " ".join(record.split(" ")[3:5]) or before.get(slot, "0 0")
        yield event, record


def together(lines):
    return b"".join(map(spelled, lines))


def spelled(line):
    """The bytes of a line, with its line feed unless it is cut."""
    if not PLACED.search(line):
        return (line + "\n").encode("latin-1")
    end = "" if line.endswith("\\") else "\n"
    text = RUN.sub(lambda run: run[1] * int(run[2]), line.removesuffix("\\"))
    text = RISING.sub(lambda one: rising(*map(int, one.groups())), text)
    return (ESCAPED.sub(lambda one: chr(int(one[1], 16)) if one[1] else "", text) + end).encode("latin-1")


def rising(count, step, further):
    return bytes((step * at + further * (at // 256)) % 256 for at in range(count)).hex()


class Reader:
    """A table as far as it is read: its parts and its rows by their names."""

    def __init__(self, subject, parts):
        self.subject, self.parts, self.rows, self.head = subject, dict(parts), {}, ""
        self.row, self.end = None, "trace"

    def line(self, line):
        """Reads a line."""
        mark = MARK.match(line)
        if mark and mark["file"] and self.row:
            self.end = mark["file"]
            self.row.begin(self.end)
        elif mark and mark["mark"] in ("-", "="):
            self.begins(mark)
        elif self.row is None:
            raise NoRow("no row or part is begun")
        elif mark and mark["mark"] == "+":
            for _ in range(int(mark["count"] or 1)):
                self.row.take(*self.part(mark))
        else:
            self.row.begin(self.end).append(line)

    def begins(self, mark):
        """Begins a row or a part."""
        among, words = (self.parts, (mark["words"] or "").split()) if mark["mark"] == "=" else (self.rows, [])
        if mark["name"] in among or mark["mark"] == "-" and mark["words"]:
            raise NoRow("its name stands there twice" if mark["name"] in among else "a row's name is one word, and what it says stands behind a colon")
        name = f"{self.subject}/{mark['name']}"
        self.row, self.end = Row(name, words, (mark["about"] or "")[2:]), "trace"
        among[mark["name"]] = self.row

    def part(self, mark):
        """The part that a line takes, and the words for its places."""
        words = (mark["words"] or "").split()
        part = self.parts.get(mark["name"])
        if part is None:
            raise NoRow(f"there is no part {mark['name']}")
        if len(words) != len(part.places):
            raise NoRow(f"{mark['name']} takes {' '.join(part.places) or 'no words'}")
        return part, words


def read(text, subject, parts=()):
    """A table, read: its parts and its rows, by their names, in order. `parts` are those that it may take from elsewhere."""
    reader = Reader(subject, parts)
    lines = text.split("\n")
    reader.head = "\n".join(line[2:] for line in itertools.takewhile(lambda line: line.startswith("# "), lines))
    for number, line in enumerate(lines, 1):
        if not line or line.startswith("# "):
            continue
        try:
            reader.line(line)
        except NoRow as why:
            raise NoRow(f"{subject}:{number}: {line[:60]}: {why}") from None
    return reader


@functools.lru_cache(maxsize=None)
def common():
    """The parts that each table may take."""
    return read(made.text_of(made.COMMON), os.path.basename(made.COMMON)).parts


def table(subject):
    """The table of a subject, read."""
    return read(made.text_of(os.path.join(made.ROWS, f"{subject}.rows")), subject, common())
