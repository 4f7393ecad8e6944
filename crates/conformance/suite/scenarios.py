"""The scenarios, read from their files; data/rows/README.md says what each file is."""
import fnmatch
import functools
import os
import re

from . import made, trace

CRATE = made.CRATE
SECTOR = 512
# The image before, where a scenario has no other: each byte of sector k is 0x10 + k.
PLAIN = b"".join(bytes([0x10 + sector]) * SECTOR for sector in range(8))


class Broken(Exception):
    """The suite itself isn't as it should be."""


class Scenario:
    """A scenario of a table: its files are read when they are asked for."""

    def __init__(self, table, name, about, part, features=(), is_refused=False):
        self.table, self.name, self.about, self.part = table, name, about, part
        self.features, self.is_refused = features, is_refused
        self.subject, _, self.own_name = name.partition("/")

    def read(self, end):
        """One of its files, or None where it has no such file."""
        return made.read(self.table, f"{self.part}/{self.name}{end}")

    @functools.cached_property
    def text(self):
        """The trace's text; bytes that are no ASCII stand as themselves."""
        return (self.read(".trace") or b"").decode("latin-1")

    @functools.cached_property
    def records(self):
        return (self.read(".records") or b"").decode("latin-1")

    @functools.cached_property
    def events(self):
        return trace.events_of(self.text)

    @property
    def image(self):
        """The image before."""
        before = self.read(".before")
        if before is None:
            return PLAIN
        return bytes(self.zeros) if self.zeros else bytes.fromhex(before.decode())

    @functools.cached_property
    def zeros(self):
        """How many zeros its image is, where it is too large to be written out."""
        before = self.read(".before") or b""
        return int(before.split()[1]) * SECTOR if before.startswith(b"zeros ") else 0

    @functools.cached_property
    def fails(self):
        """The numbers of the image calls that fail, or None where none does."""
        text = self.read(".fails")
        return None if text is None else [int(line) for line in text.split()]

    @property
    def image_after(self):
        """The image as it must be afterwards."""
        after = self.read(".after")
        image = bytearray(self.image) if after else self.image
        for line in (after or b"").decode().splitlines():
            words = line.split(" ")
            if words[0] == "sector":
                start = int(words[1]) * SECTOR
                image[start:start + SECTOR] = bytes.fromhex(words[2])
        return bytes(image)

    def is_called(self, word):
        """Whether a word names it: its name, its subject, its part, a pattern of names, or a feature."""
        if word in (self.name, self.subject, self.part):
            return True
        return word in self.features if word in trace.NAMED else fnmatch.fnmatchcase(self.name, word)


class Fresh(Scenario):
    """A scenario in the making, whose files aren't yet in an archive."""

    def __init__(self, name, files):
        super().__init__("", name, "", "")
        self.files = files

    def read(self, end):
        return self.files.get(end)


def load(subjects=()):
    """All scenarios, or those of these subjects, first the worked ones. What is made and isn't there is made first."""
    try:
        known = made.ensure(subjects)
    except made.Unmade as why:
        raise Broken(str(why)) from None
    listed = [Scenario(table, *one) for table in made.tables() if table in known for one in known[table]["scenarios"]]
    found = [scenario for part in made.PARTS for scenario in listed if scenario.part == part]
    return [scenario for scenario in found if scenario.subject in subjects] if subjects else found
