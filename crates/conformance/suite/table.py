"""The table of a peer: which scenarios differ on it, of which kind that is, and why."""
import dataclasses
import fnmatch
import re

from .scenarios import Broken

# What a difference is: this project chose what the scenario shows; the standard leaves open what the peer does; the
# peer departs from the standard.
KINDS = ("ours", "liberty", "departure")
NAME = re.compile(r"`([^`]*)`")


@dataclasses.dataclass(frozen=True)
class Row:
    """One row: names and patterns of scenarios, the kind, and what the peer does."""

    words: list
    kind: str
    why: str


def rows(path):
    """The rows of each table below the heading `What differs`."""
    try:
        with open(path, encoding="utf-8") as page:
            text = page.read().partition("\n## What differs\n")[2].partition("\n## ")[0]
    except OSError as error:
        raise Broken(f"{path} can't be read: {error.strerror}") from None
    found = []
    for line in text.splitlines():
        cells = [cell.strip() for cell in line.strip("|").split(" | ")]
        kind = cells[1].split(",")[0].split(" ")[0] if len(cells) == 3 else ""
        if line.startswith("| ") and kind in KINDS:
            found.append(Row(NAME.findall(cells[0]), cells[1], cells[2]))
    if not found:
        raise Broken(f"{path} has no row below the heading \"What differs\"")
    return found


class Table:
    """Which scenarios are known to differ."""

    def __init__(self, path):
        self.names, self.patterns = {}, []
        for row in rows(path):
            for word in row.words:
                if "*" in word:
                    self.patterns.append((word, row))
                else:
                    self.names[word] = row

    def get(self, name):
        """The row of a scenario, or none."""
        return self.names.get(name) or next((row for word, row in self.patterns if fnmatch.fnmatchcase(name, word)), None)

    def __contains__(self, name):
        return self.get(name) is not None


def load(path):
    return Table(path)
