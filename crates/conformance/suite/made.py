"""Whether what is made of the suite is there as its tables have it; where it isn't, it is made.

All scenarios are made by `matrix/make`: from the tables of the matrix, and from those of data/rows. The files of a table's scenarios are in an
archive, made/TABLE.zip in data, by their paths in data. The file .made says of each table of which sources it was made, and what its scenarios are;
so where nothing changed nothing is made. They are made in data, or in the user's cache where a package or another user owns the suite.
"""
import functools
import hashlib
import json
import os
import pathlib
import re
import subprocess
import sys
import zipfile

CRATE = os.path.dirname(os.path.dirname(os.path.abspath(__file__)))
DATA, ROWS, MATRIX = os.path.join(CRATE, "data"), os.path.join(CRATE, "data", "rows"), os.path.join(CRATE, "matrix")
# The parts that each table of rows may take.
COMMON = os.path.join(ROWS, "common.parts")
# A package puts this file beside the suite: its folder then isn't written to, whoever calls it.
PACKAGED = os.path.join(CRATE, "packaged")
IS_OWN = os.access(DATA, os.W_OK) and not os.path.exists(PACKAGED)
CACHE = os.path.join(os.environ.get("XDG_CACHE_HOME") or os.path.join(os.path.expanduser("~"), ".cache"), "kalyubos")
# Where scenarios are made, and where else what is kept of a run goes.
MADE, OUT = (DATA, os.path.join(CRATE, "out")) if IS_OWN else (os.path.join(CACHE, "data"), os.path.join(CACHE, "out"))
SUMS = os.path.join(MATRIX, "SUMS")
PARTS = ("scenarios", "matrix", "large")
STATE, PAGES = os.path.join(MADE, ".made"), [os.path.join(MADE, name, "README.md") for name in PARTS] + [os.path.join(MADE, "MATRIX.md")]
# The model, and the reader of traces beside it.
MODEL = (os.path.join(CRATE, "mutants", "model.py"), os.path.join(CRATE, "mutants", "trace_text.py"))
# What says which features a scenario has.
OF_FEATURES = [os.path.join(CRATE, "suite", f"{name}.py") for name in ("calls", "features", "models", "trace")]
# The modules that one stands on: `from .NAME import ..`, or `from . import NAME`.
IMPORTED = re.compile(r"^from \.(?:(\w+) import | import (\w+)$)", re.MULTILINE)


class Unmade(Exception):
    """What is missing can't be made."""


def modules():
    """The tables of the matrix in the order of its pages: a name a line in matrix/TABLES."""
    return text_of(os.path.join(MATRIX, "TABLES")).split()


def row_tables():
    """The tables of rows, each a subject, in the order of their page: a name a line in data/rows/TABLES."""
    return text_of(os.path.join(ROWS, "TABLES")).split()


def tables():
    """The names of all tables: a table of rows has a slash before its own."""
    return [f"rows/{name}" for name in row_tables()] + modules()


def text_of(path):
    with open(path, encoding="utf-8") as file:
        return file.read()


@functools.lru_cache(maxsize=None)
def digest_of(path):
    with open(path, "rb") as file:
        return hashlib.sha256(file.read()).hexdigest()


@functools.lru_cache(maxsize=None)
def imports_of(module):
    return [one or other for one, other in IMPORTED.findall(text_of(os.path.join(MATRIX, f"{module}.py")))]


def sources_of(table):
    """The files that a table is made of."""
    found, waiting = set(), ["rows", "making"] if table.startswith("rows/") else [table, "story", "quick", "page", "making"]
    while waiting:
        module = waiting.pop()
        if module not in found:
            found.add(module)
            waiting += imports_of(module)
    own = [COMMON, os.path.join(DATA, f"{table}.rows"), *MODEL] if table.startswith("rows/") else MODEL
    return [*(os.path.join(MATRIX, f"{module}.py") for module in sorted(found)), *own, *OF_FEATURES]


def key_of(table):
    """What stands for a table's sources."""
    return hashlib.sha256("".join(map(digest_of, sources_of(table))).encode()).hexdigest()


def state():
    """What is made, by tables."""
    try:
        return json.loads(text_of(STATE))
    except (OSError, ValueError):
        return {}


def archive_of(table):
    """The archive with the files of a table's scenarios."""
    return os.path.join(MADE, "made", f"{table}.zip")


@functools.lru_cache(maxsize=None)
def opened(table, process):
    """A table's archive, opened by this process: a file's place is shared with those that are forked off."""
    return zipfile.ZipFile(archive_of(table))


def read(table, path):
    """A file of a table's scenarios by its path in data, or None where there is none."""
    try:
        return opened(table, os.getpid()).read(path)
    except KeyError:
        return None


def is_made(table, known):
    """Whether a table is made as its sources have it."""
    try:
        return known[table]["key"] == key_of(table) and os.path.getsize(archive_of(table)) == known[table]["packed"]
    except (KeyError, OSError):
        return False


def stale(known, wanted=None):
    """The tables that must be made, of those that are wanted, by what is known of those that are made."""
    return [table for table in wanted or tables() if not is_made(table, known)]


def files():
    """The files that are made, as paths."""
    written = [path for part in PARTS for path in pathlib.Path(MADE, part).glob("*/*")]
    return [*map(pathlib.Path, [STATE, *PAGES, *map(archive_of, tables())]), *written]


def ensure(subjects=()):
    """Makes what isn't there: the tables of these subjects, or all. What is then known of those."""
    known = state()
    if not is_there(known, subjects):
        print(f"The scenarios {f'of {chr(44).join(subjects)} ' if subjects else ''}are made in {MADE}.", file=sys.stderr, flush=True)
        ran = subprocess.run([sys.executable, os.path.join(MATRIX, "make"), "--needed", *subjects], stdout=subprocess.PIPE, text=True)
        if ran.returncode:
            raise Unmade(f"the scenarios can't be made: {ran.stdout.strip()}")
        known = state()
    return known


def is_there(known, subjects):
    """Whether all that is wanted is made."""
    if not subjects:
        return set(known) == set(tables()) and not stale(known) and all(map(os.path.exists, PAGES))
    of = {subject: table for table in known for subject in known[table].get("folders", ())}
    return set(subjects) <= set(of) and not stale(known, {of[subject] for subject in subjects})


def count():
    """How many scenarios there are, by matrix/SUMS."""
    return sum(int(line.split(" ")[1]) for line in text_of(SUMS).splitlines())
