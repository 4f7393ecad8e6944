"""Makes the scenarios of tables, and the pages that follow from them."""
import concurrent.futures
import contextlib
import gc
import hashlib
import importlib
import io
import json
import os
import shutil
import zipfile

from suite import features, made, scenarios
from suite.made import MADE, STATE, SUMS

from . import page, quick, rows
from .story import Disagrees

CRATE = made.CRATE
# The tables that take longest are made first, so that none is waited for at the end.
LONGEST = ("walks", "counters", "times", "amounts", "snapshots", "contexts", "apart", "cuts", "together", "rows/texts")
quick.use()


@contextlib.contextmanager
def alone():
    """Keeps others from making the same at once."""
    os.makedirs(MADE, exist_ok=True)
    with open(f"{STATE}.lock", "w", encoding="utf-8") as lock:
        with contextlib.suppress(ImportError):
            import fcntl
            fcntl.flock(lock, fcntl.LOCK_EX)
        yield


def write(path, content):
    """Writes a file, where it isn't as it must be."""
    path = os.path.join(MADE, path)
    with contextlib.suppress(OSError), open(path, "rb") as file:
        if file.read() == content:
            return
    os.makedirs(os.path.dirname(path), exist_ok=True)
    with open(path, "wb") as file:
        file.write(content)


def stories_of(table):
    return list(importlib.import_module(f"matrix.{table}").stories())


def subjects_of(table):
    """The subjects of a table's scenarios."""
    return [table.partition("/")[2]] if table.startswith("rows/") else list(importlib.import_module(f"matrix.{table}").FOLDERS)


def folder_of(story):
    return "large" if story.zeros else "matrix"


def told(story):
    """The files of a story."""
    return {end: text.encode() for end, text in story.files().items()}


class Archive:
    """The archive of a table in the making, and what the state keeps of its scenarios."""

    def __init__(self, table):
        self.table, self.content, self.digests, self.size = table, io.BytesIO(), [], 0
        self.scenarios = []
        self.archive = zipfile.ZipFile(self.content, "w", zipfile.ZIP_DEFLATED, compresslevel=1)

    def put(self, name, about, part, files):
        """Puts a scenario in."""
        for end, text in files.items():
            path = f"{part}/{name}{end}"
            self.archive.writestr(zipfile.ZipInfo(path), text, zipfile.ZIP_DEFLATED, 1)
            self.digests.append(f"{path} {hashlib.sha256(text).hexdigest()}\n")
            self.size += len(text)
        fresh = scenarios.Fresh(name, files)
        self.scenarios.append((name, about, part, features.features_of(fresh), features.is_refused(fresh)))

    def entry(self, **more):
        """Writes the archive; what the state keeps of the table."""
        self.archive.close()
        path, packed = made.archive_of(self.table), self.content.getvalue()
        os.makedirs(os.path.dirname(path), exist_ok=True)
        with open(f"{path}.new", "wb") as file:
            file.write(packed)
        os.replace(f"{path}.new", path)
        return {"key": made.key_of(self.table), "sum": sum_of("".join(sorted(self.digests)).encode()), "size": self.size,
                "packed": len(packed), "digest": sum_of(packed), "scenarios": self.scenarios, **more}


def by_rows(table):
    """Makes a table of rows."""
    archive = Archive(table)
    try:
        found = rows.table(table.partition("/")[2])
        for row in found.rows.values():
            archive.put(row.name, row.about, "scenarios", row.files())
    except rows.NoRow as wrong:
        return [str(wrong)]
    return archive.entry(folders={found.subject: found.head})


def by_stories(table):
    """Makes a table of the matrix."""
    archive, wrong, stories = Archive(table), [], stories_of(table)
    for story in stories:
        try:
            archive.put(story.name, story.about, folder_of(story), told(story))
        except Disagrees as why:
            wrong.append(str(why))
    module = importlib.import_module(f"matrix.{table}")
    return wrong or archive.entry(folders=module.FOLDERS, page=page.part_of(module, stories))


def made_of(table):
    """Makes a table: what the state keeps of it, or what is wrong with it, a line each."""
    gc.disable()
    return by_rows(table) if table.startswith("rows/") else by_stories(table)


def sum_of(content):
    return hashlib.sha256(content).hexdigest()


def is_as_made(table, known):
    """Whether a table's archive is as it was made."""
    with open(made.archive_of(table), "rb") as file:
        return sum_of(file.read()) == known[table]["digest"]


def make(names, known, jobs):
    """Makes tables; what the state then says, and what is wrong."""
    wrong, names = [], sorted(names, key=lambda name: LONGEST.index(name) if name in LONGEST else len(LONGEST))
    for name, found in zip(names, all_made(names, jobs)):
        if isinstance(found, list):
            wrong += found
        else:
            known[name] = found
            take_files_away(found)
    return wrong


def all_made(names, jobs):
    """What came of each table, in order."""
    if jobs == 1 or len(names) < 2:
        yield from map(made_of, names)
        return
    with concurrent.futures.ProcessPoolExecutor(jobs) as pool:
        yield from pool.map(made_of, names)


def take_files_away(entry):
    """Takes away the files of a table's scenarios, which may be those of another text."""
    for folder in entry.get("folders", ()):
        for part in made.PARTS:
            shutil.rmtree(os.path.join(MADE, part, folder), ignore_errors=True)


def forget(known):
    """Takes away the tables that are no more, with what they made."""
    for name in set(known) - set(made.tables()):
        take_files_away(known.pop(name))
        with contextlib.suppress(OSError):
            os.remove(made.archive_of(name))


def write_files(place):
    """Writes all scenarios' files out below a folder."""
    for table in made.tables():
        with zipfile.ZipFile(made.archive_of(table)) as archive:
            archive.extractall(place)


def keep(known):
    with open(f"{STATE}.new", "w", encoding="utf-8") as file:
        json.dump(known, file)
    os.replace(f"{STATE}.new", STATE)


def listed(known, part, head):
    """The page that lists the scenarios of a part."""
    groups = []
    for name in made.tables():
        for scenario, about, where, *_ in known[name]["scenarios"]:
            folder = scenario.partition("/")[0]
            if where == part:
                if not groups or groups[-1][0] != folder:
                    groups.append((folder, known[name]["folders"][folder], []))
                groups[-1][2].append((scenario, about))
    return page.listed(groups, head)


def matrix_page(known):
    return page.MATRIX_HEAD + "".join(known[name]["page"] for name in made.modules())


def sums(known):
    """The text of SUMS: a line for each table."""
    return "".join(f"{name} {len(known[name]['scenarios'])} {known[name]['sum']}\n" for name in made.tables())


def twice(known):
    """The names that two scenarios have, and the subjects that two tables have."""
    seen = set()
    names = [name for table in known for name in [*known[table]["folders"], *(one[0] for one in known[table]["scenarios"])]]
    return [name for name in names if name in seen or seen.add(name)]


def write_pages(known):
    """Writes the pages of the scenarios."""
    write("MATRIX.md", matrix_page(known).encode())
    write("scenarios/README.md", listed(known, "scenarios", page.ROWS_HEAD).encode())
    write("matrix/README.md", listed(known, "matrix", page.LIST_HEAD).encode())
    write("large/README.md", listed(known, "large", page.LARGE_HEAD).encode())
