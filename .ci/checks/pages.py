"""What stays true of pages: links lead somewhere, what they name is there, newcomers' sentences are short, and walks through a
trace have its lines."""
import functools
import json
import os
import pathlib
import re
import shutil
import sys

from pages import anchors_of, is_elsewhere, links_of

from .common import TOP, pages, part_of, script

sys.path.insert(0, str(TOP / "crates/conformance/mutants"))
import trace_text

CODE = re.compile(r"^```[^\n]*\n(.*?)^```|`([^`\n]+)`", re.MULTILINE | re.DOTALL)

# Files that docs/EMBEDDING.md has its reader make.
MADE_BY_THE_READER = {"crates/machine/src/main.rt"}


@functools.cache
def anchors(page):
    """The names that a page has as targets."""
    return anchors_of(page.read_text(encoding="utf-8"))


def broken(page, target):
    """What is wrong with a link, or None."""
    if is_elsewhere(target):
        return None
    path, _, anchor = target.partition("#")
    there = (page.parent / path).resolve() if path else page
    if not there.exists():
        return "no such file"
    if TOP not in [there, *there.parents]:
        return "outside the repository"
    if anchor and there.suffix == ".md" and anchor not in anchors(there):
        return "no such heading or anchor"
    return None


def links():
    found, wrong = 0, []
    for page in pages():
        for target in links_of(page.read_text(encoding="utf-8")):
            found += 1
            fault = broken(page, target)
            if fault:
                wrong.append(f"{page.relative_to(TOP)}: {target}: {fault}")
    return not wrong, wrong or [f"{found} on {len(pages())} pages"]


def targets():
    return set(re.findall(r"^([a-z-]+):(?!=)", (TOP / "Makefile").read_text(encoding="utf-8"), re.MULTILINE))


def is_from_the_top(path):
    """Whether a path begins at the repository's top and names a file of it, and nothing that is built or made up."""
    parts = path.split("/")
    return parts[0] not in (".", "..") and (TOP / parts[0]).is_dir() and path not in MADE_BY_THE_READER and \
        not any(part in ("out", "target") or part.startswith("NAME") for part in parts)


def named():
    """What the pages name in code: targets of make, files from the top, functions of the library, commands of rt."""
    made, found, wrong = targets(), 0, []
    header = (TOP / "crates/board_ffi/kalyubos.h").read_text(encoding="utf-8")
    rt = "\n".join(script("rt", "--help")[1]) if shutil.which("rt") else None
    for page in pages():
        code = "\n".join(block or span for block, span in CODE.findall(page.read_text(encoding="utf-8")))
        kinds = (
            ("target of make", r"(?:^|\s)make ([a-z][a-z-]*)", lambda name: name not in made),
            ("file", r"(?<![\w./])((?:[\w.-]+/)+[\w.-]*)", lambda name: not (TOP / name).exists()),
            ("name of kalyubos.h", r"\b(kalyubos_\w+)", lambda name: not re.search(rf"\b{name}\b", header)),
            ("command of rt", r"(?:^|\s)rt ([a-z][a-z-]*)", lambda name: rt and not re.search(rf"\b{name}\b", rt)),
        )
        for kind, pattern, is_wrong in kinds:
            names = [name for name in re.findall(pattern, code, re.MULTILINE) if kind != "file" or is_from_the_top(name)]
            found += len(names)
            wrong += [f"{page.relative_to(TOP)}: {name}: no such {kind}" for name in names if is_wrong(name)]
    return not wrong, wrong or [f"{found} on {len(pages())} pages"]


# Names of another project's: modules of Linux.
NOT_OURS = {"virtio_console", "virtio_mmio"}


# Files whose names count alone.
NO_SOURCES = {".md", ".trace", ".records", ".after", ".before", ".fails", ".calls"}


def scenario_names():
    """The names of all scenarios, and of their subjects."""
    state = json.loads((TOP / "crates/conformance/data/.made").read_text(encoding="utf-8"))
    return {part for table in state.values() for name, *_ in table["scenarios"] for part in name.split("/")}


def words():
    """Names with an underscore that the pages have as code: each stands in a source, names a file or a scenario, or is an anchor."""
    known, found, wrong = NOT_OURS | scenario_names(), 0, []
    for folder, below, files in os.walk(TOP):
        below[:] = [name for name in below if name not in ("out", "target", ".git")]
        for path in (pathlib.Path(folder, name) for name in files):
            known.update((path.name, path.stem))
            if path.suffix not in NO_SOURCES and path.stat().st_size < 1 << 20:
                known.update(re.findall(r"\w+", path.read_text(encoding="utf-8", errors="ignore")))
    for page in pages():
        known.update(anchors(page))
    for page in pages():
        spans = " ".join(span for _, span in CODE.findall(page.read_text(encoding="utf-8")))
        names = re.findall(r"\b[a-z][a-z0-9]*(?:_[a-z0-9]+)+\b(?![*_])", spans)
        found += len(names)
        wrong += [f"{page.relative_to(TOP)}: {name} stands in no source" for name in names if name not in known]
    return not wrong, wrong or [f"{found} on {len(pages())} pages"]


def events(trace, records):
    """Each line of a trace with its record; the lines before the events have none."""
    told = iter(records.splitlines())
    return [(line, next(told) if trace_text.is_event(line) else "") for line in trace.read_text().splitlines()]


# What was true once, and must stand in no page and in no text that is packaged; and what is true.
STALE = {
    r"up to (sixteen|16) guests": "a board has up to sixty-four guests",
    r"\b(17|seventeen) minutes": "a first `make prove` takes some 35 minutes of processor time",
}

# What a page must say, in these words.
SAID = {
    "crates/vreplay/README.md": "With --in-place the theorem holds while nobody else writes IMAGE and each read returns what was written.",
    "docs/LIMITS.md": "While a call that touches a guest's memory runs, and from KALYUBOS_MORE until its service is done, no CPU of that "
                      "guest runs, and nobody else reads or writes its memory in place.",
    "crates/board_ffi/kalyubos.h": "While one of them runs for a guest, and from a KALYUBOS_MORE until its service is done, no CPU of that "
                                   "guest runs, and nobody else reads or writes its memory in place",
    "Makefile": "some 35 minutes of processor time",
    "packaging/proving.py": "some 35 minutes of processor time",
    "README.md": "some 35 minutes of processor time",
}


@functools.cache
def packaged():
    """The texts that a person reads who has the library installed, or builds something."""
    folders = [TOP / "packaging", TOP / "bindings/rust"]
    found = [path for folder in folders for path in sorted(folder.rglob("*")) if path.is_file() and "out" not in path.parts
             and "target" not in path.parts]
    return found + [TOP / "Makefile", TOP / "NOTICE", TOP / "crates/board_ffi/kalyubos.h"]


def sentences():
    """That no page says what isn't true any more, and that pages have the sentences that they must."""
    texts = {path: " ".join(re.sub(r"(?m)^ \*|`", " ", path.read_text(encoding="utf-8")).split()) for path in pages() + packaged()}
    wrong = [f"{path.relative_to(TOP)}: {found[0]!r}, but {truth}" for path, text in texts.items() if path.name != "CHANGELOG.md"
             for stale, truth in STALE.items() for found in re.finditer(stale, text, re.IGNORECASE)]
    wrong += [f"{name} doesn't say: {sentence}" for name, sentence in SAID.items() if sentence not in texts[TOP / name]]
    wrong += costs()
    return not wrong, wrong or [f"{len(SAID)} that must be there, none of {len(STALE)} that mustn't, in {len(texts)} texts"]


def costs():
    """What README says of the gate's minutes, where it isn't what the table of docs/CHANGING.md adds up to."""
    table = re.search(r"^proofs +tests +all\n +(\d+) +(\d+) +(\d+)$", (TOP / "docs/CHANGING.md").read_text(encoding="utf-8"), re.MULTILINE)
    told = re.search(r"\[(\d+) minutes of processor time\]\(docs/CHANGING.md#what-it-costs\)", (TOP / "README.md").read_text(encoding="utf-8"))
    *parts, total = [int(it) for it in table.groups()] if table else [0]
    if table and told and sum(parts) == total == int(told[1]):
        return []
    said, count = told[1] if told else "nothing", total or "nothing"
    return [f"README.md says {said} of the minutes of make test, and docs/CHANGING.md {count}"]


# Pages for newcomers, whose sentences have so many words at most.
SHORT = ("README.md", "docs/LIMITS.md", "docs/EMBEDDING.md", "crates/board_ffi/kalyubos.h", "packaging/README.in")
MOST_WORDS = 40
COMMENT = re.compile(r"/\*(.*?)\*/", re.DOTALL)
# Code, cells of tables and the marks of lists end a sentence, as a blank line does.
ENDS = re.compile(r"^```.*?^```|\||^ *(?:[-*]|\d+\.) |^#+ |\n\s*\n", re.MULTILINE | re.DOTALL)


def short():
    """That no sentence of these pages is long."""
    found, wrong = 0, []
    for name in SHORT:
        text = (TOP / name).read_text(encoding="utf-8")
        parts = COMMENT.findall(re.sub(r"(?m)^ \*(?!/)", "", text)) if name.endswith(".h") else [text]
        for part in (piece for whole in parts for piece in ENDS.split(whole)):
            for sentence in re.split(r"(?<=[.!?])\s+", " ".join(part.split())):
                found += 1
                count = len(sentence.split())
                if count > MOST_WORDS:
                    wrong.append(f"{name}: {count} words: {sentence[:100]}..")
    return not wrong, wrong or [f"{found} sentences of {len(SHORT)} pages"]


def walks():
    """The parts of examples/README that go through a trace: each has its lines in order, with their records."""
    told = (TOP / "examples/README.md").read_text(encoding="utf-8")
    first = {"two-guests": (TOP / "crates/vreplay/stdout").read_text(encoding="utf-8")}
    found, wrong = 0, []
    for name, section in re.findall(r"^## ([\w-]+)\n(.*?)(?=^## |\Z)", told, re.MULTILINE | re.DOTALL):
        walk = re.search(r"^```\n(.*?)^```", section, re.MULTILINE | re.DOTALL)
        if not walk:
            continue
        there = iter(events(TOP / f"examples/{name}.trace", first.get(name) or part_of(TOP / "examples/records", name)))
        for line in walk[1].splitlines():
            event, _, record = re.sub(r" *# .*", "", line).partition(" -> ")
            has = next((has for said, has in there if said == event), None)
            found += 1
            if has not in ([record] if record else ["", "0 done - 0 0"]):
                wrong.append(f"{name}.trace has no {line} here, or another record")
    return not wrong, wrong or [f"{found} lines that go through a trace"]


def reading():
    """docs/promises.md lists what the headline stands on, as .ci/reading counts it."""
    good, said = script(".ci/reading")
    missing = [line for line in said if line not in (TOP / "docs/promises.md").read_text(encoding="utf-8").splitlines()]
    return good and not missing, [f"docs/promises.md lacks: {line}" for line in missing] or [said[0].rstrip(":")]


CHECKS = {"links": links, "reading": reading, "named": named, "words": words, "sentences": sentences, "short": short, "walks": walks}
