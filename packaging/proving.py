"""How rt is run: all that it says goes into a log, and a person sees how far it is.

What make run, make prove, make library, make vshow and the gate share. A crate counts as proved as long as the sources that it
and the crates below it were proved from stay.
"""
import functools
import hashlib
import os
import pathlib
import re
import select
import shutil
import subprocess
import sys
import time

TOP = pathlib.Path(__file__).resolve().parents[1]
VERDICT = TOP / "out" / "gate.verdict"
FIRST = "some 35 minutes of processor time at first, seconds after that"

# What rt says: which crate comes next; something of a crate, once it is judged; how far the crate's check is.
CHOSE = re.compile(r"rt: chose --jobs \d+ for (\w+)$")
ITEM = re.compile(r"[a-z]+ (\w+)::\S*: (?:not )?proved")
SO_FAR = re.compile(r"so far: (\d+) of (\d+) functions checked")
WAITS = re.compile(r"rt: waiting for another rt")


def listed():
    """The lines of crates.txt: each crate's words before the colon, and those behind it."""
    lines = (TOP / "crates.txt").read_text(encoding="utf-8").splitlines()
    parts = [line.partition("#")[0].partition(":") for line in lines]
    return [(head.split(), tail.split()) for head, colon, tail in parts if colon]


def uses():
    """What each crate of crates.txt uses, by its name."""
    crates = {head[0]: tail for head, tail in listed()}
    return {name: [it for it in names if it in crates] for name, names in crates.items()}


def order(crate):
    """The crate and those below it, as rt builds them: each after those that it uses."""
    used, found = uses(), []

    def add(name):
        for it in used[name]:
            add(it)
        if name not in found:
            found.append(name)

    add(crate)
    return found


def minutes(start):
    """The time since then, in words."""
    seconds = int(time.time() - start)
    count, unit = (seconds, "second") if seconds < 120 else (seconds // 60, "minute")
    return f"{count} {unit}" + ("" if count == 1 else "s")


class Display:
    """What is shown: on a terminal one line that renews itself, elsewhere a line for each new text."""

    def __init__(self, out=None):
        self.out, self.start = out or sys.stderr, time.time()
        self.is_terminal = self.out.isatty()
        self.head, self.said = "", None

    def show(self, head, detail=""):
        """Shows how far it is. Off a terminal the head alone counts, and `detail` isn't shown."""
        if self.is_terminal:
            width = shutil.get_terminal_size().columns - 1
            self.out.write("\r" + f"{head}{detail}, {minutes(self.start)} so far"[:width] + "\033[K")
        elif head != self.head:
            self.out.write(f"{head}, {minutes(self.start)} so far\n")
        self.head = head
        self.out.flush()

    def end(self):
        """Ends the line that renews itself."""
        if self.is_terminal and self.head:
            self.out.write("\r\033[K")
            self.out.flush()
        self.head = ""


class Progress:
    """How far rt is with a crate and those below it, by the lines that it says."""

    def __init__(self, crate, display):
        self.order, self.display = order(crate), display
        self.crate, self.detail, self.is_named, self.waits = None, "", False, False

    def read(self, line):
        """Takes a line of rt, and shows what it means."""
        self.waits = bool(WAITS.match(line))
        if found := CHOSE.match(line):
            self.is_named = True
            self.turn_to(found[1])
        elif found := ITEM.match(line):
            # An rt that names no crate as it begins with it names its items; then crates only follow each other.
            if not self.is_named and self.place(found[1]) > self.place(self.crate):
                self.turn_to(found[1])
        elif found := SO_FAR.match(line):
            self.detail = f": {found[1]} of {found[2]} functions"
        self.show()

    def place(self, crate):
        return self.order.index(crate) + 1 if crate in self.order else 0

    def turn_to(self, crate):
        if crate in self.order and crate != self.crate:
            self.crate, self.detail = crate, ""

    def show(self):
        if self.waits:
            self.display.show("waiting for another rt to finish")
        elif self.crate:
            self.display.show(f"[{self.place(self.crate)}/{len(self.order)}] {self.crate}", self.detail)
        else:
            # An rt that names no crate has named no item yet.
            self.display.show(f"[0/{len(self.order)}] {'proving' if self.detail else 'reading the sources'}", self.detail)


def run(words, folder, log, take, idle=lambda: None, **how):
    """Runs a command. All that it says goes into the log, each line of it to `take`; where a second passes without a line
    `idle` is called. Answers its status.

    Where `how` says what standard output is, only what goes to standard error counts as said.
    """
    log.parent.mkdir(parents=True, exist_ok=True)
    how = {"stderr": subprocess.PIPE, **how} if "stdout" in how else {"stdout": subprocess.PIPE, "stderr": subprocess.STDOUT, **how}
    with open(log, "wb") as kept, subprocess.Popen(words, cwd=folder, **how) as ran:
        said, rest = ran.stdout or ran.stderr, b""
        while True:
            if not select.select([said], [], [], 1)[0]:
                idle()
                continue
            got = os.read(said.fileno(), 1 << 16)
            if not got:
                break
            kept.write(got)
            kept.flush()
            *whole, rest = (rest + got).split(b"\n")
            for line in whole:
                take(line.decode(errors="replace"))
        if rest:
            take(rest.decode(errors="replace"))
    return ran.returncode if ran.returncode >= 0 else 128 - ran.returncode


def tell_end(log, lines=20):
    """Shows the end of a log where something failed."""
    text = log.read_text(encoding="utf-8", errors="replace").splitlines()
    print(*text[-lines:], f"All that rt said is in {shown(log)}.", sep="\n", file=sys.stderr)


def shown(path):
    """A path as a person at the repository's top names it."""
    return path.relative_to(TOP) if TOP in path.parents else path


def need_rt(what):
    """Ends by a sentence where no rt is on the path."""
    if not shutil.which("rt"):
        print(f"rt isn't installed: {what} can't be built. README.md names the toolchain, and says what can be tried without it.", file=sys.stderr)
        sys.exit(1)


def prove(crate, what, verb, words, log):
    """Proves and builds a crate by rt, and shows how far it is. Answers the status."""
    need_rt(what)
    print(f"Proving and building {what}: {FIRST}. What rt says is in {shown(log)}.", file=sys.stderr, flush=True)
    display, proved_from = Display(), sources(crate)
    progress = Progress(crate, display)
    status = run(["rt", verb, *words], TOP / "crates" / crate, log, progress.read, progress.show)
    display.end()
    if status:
        tell_end(log)
    else:
        print(f"Proved and built: {what}, {minutes(display.start)}.", file=sys.stderr, flush=True)
        note(crate, proved_from)
        if sources(crate) == proved_from:
            note_checked(order(crate))
    return status


PARTS = ("src", "specs", "proofs")


def sources(crate, parts=PARTS, own=None):
    """A sum of all that the crate and those below it are proved from, or of these parts of it. `own` gives each crate's own sum."""
    found, used = hashlib.sha256((TOP / "KIT").read_bytes()), uses()
    for name in order(crate):
        found.update(repr((name, used[name])).encode())
        found.update((own or own_sources)(name, parts).encode())
    return found.hexdigest()


def own_sources(crate, parts=PARTS):
    """A sum of the crate's own files."""
    return sum_of(path for part in parts for path in sorted((TOP / "crates" / crate / part).rglob("*")) if path.is_file())


def sum_of(paths):
    """A sum of files."""
    found = hashlib.sha256()
    for path in paths:
        found.update(repr((str(path.relative_to(TOP)), path.read_bytes())).encode())
    return found.hexdigest()


def built(crate):
    """What rt builds of a crate: a program, or a static library."""
    is_library = [crate, "staticlib"] in [head[:2] for head, _ in listed()]
    return TOP / "crates" / crate / "out" / (f"lib{crate}.a" if is_library else crate)


def noted(crate):
    """The file that says from which sources which program or library was proved."""
    return TOP / "crates" / crate / "out" / f"{crate}.proved"


def commit():
    """The commit that is checked out, and whether files differ from it; None outside a checkout."""
    try:
        head = subprocess.run(["git", "rev-parse", "HEAD"], cwd=TOP, capture_output=True, text=True)
        changed = subprocess.run(["git", "status", "--porcelain", "--untracked-files=no"], cwd=TOP, capture_output=True, text=True)
    except OSError:
        return None
    return None if head.returncode else head.stdout.strip() + (", with changes" if changed.stdout else "")


def verdict_of_gate():
    """The commit over which the gate ran last in this checkout, and its verdict; nothing where it didn't."""
    return VERDICT.read_text(encoding="utf-8").splitlines() if VERDICT.exists() else []


def note(crate, proved_from):
    """Notes what was proved from these sources and by which kit, where it is built and they are as they were."""
    if built(crate).exists() and sources(crate) == proved_from:
        kit = subprocess.run(["rt", "version"], capture_output=True, text=True).stdout.strip()
        noted(crate).write_text(f"{proved_from} {hashlib.sha256(built(crate).read_bytes()).hexdigest()}\n{kit}\n", encoding="utf-8")


def kit_of(crate):
    """The kit by which what is noted of a crate was proved."""
    return " ".join(noted(crate).read_text(encoding="utf-8").splitlines()[1:]) or "an unknown kit"


# How a crate stands to what was proved last in this checkout: as it was, with a change of its own, with one below it, or unknown.
PROVED, CHANGED, BELOW, NEVER = "proved", "changed", "below", "never"


def checked(crate):
    """The file that has a sum of the crate's own files, and one of all that it stands on too, as they were proved last."""
    return TOP / "crates" / crate / "out" / f"{crate}.checked"


def note_checked(crates):
    """Notes that these crates are proved as they are."""
    for crate in crates:
        checked(crate).parent.mkdir(parents=True, exist_ok=True)
        checked(crate).write_text(f"{own_sources(crate)} {sources(crate)}\n", encoding="utf-8")


def were_checked():
    """How each crate stands to what was proved last."""
    own, found = functools.cache(own_sources), {}
    for crate in uses():
        there = checked(crate).read_text(encoding="utf-8").split() if checked(crate).exists() else None
        found[crate] = NEVER if not there else PROVED if there[1] == sources(crate, own=own) else BELOW if there[0] == own(crate, PARTS) else CHANGED
    return found


def is_proved(crate):
    """Whether what rt builds of a crate is there, proved from these sources: yes, no, or None where it was proved from others."""
    if not built(crate).exists() or not noted(crate).exists():
        return False
    proved_from, program = noted(crate).read_text(encoding="utf-8").splitlines()[0].split()
    if hashlib.sha256(built(crate).read_bytes()).hexdigest() != program:
        return False
    return True if proved_from == sources(crate) else None
