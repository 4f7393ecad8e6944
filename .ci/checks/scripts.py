"""What stays true of the scripts: each that a person starts says what it does, those that the gate never runs still do, and the wrong bodies
that .ci/planted plants stand in the sources."""
import os
import pathlib
import re
import shutil
import tempfile

from .common import TOP, called, part_of

# Shells that scripts are read by.
SHELLS = ("sh", "bash")


def started():
    """The repository's scripts that a person starts, with the words of their first line."""
    for folder, below, files in os.walk(TOP):
        below[:] = sorted(name for name in below if name not in ("out", "target", ".git", "data"))
        for path in (pathlib.Path(folder, name) for name in sorted(files)):
            if os.access(path, os.X_OK) and path.is_file():
                with open(path, "rb") as file:
                    first = file.readline().decode(errors="replace")
                if first.startswith("#!"):
                    yield path, first[2:].split()


def helps():
    """Each script in Python says what it does by --help, in two lines or more; each of a shell has that at its head."""
    found, wrong = 0, []
    for path, first in started():
        found += 1
        name, by = path.relative_to(TOP), os.path.basename(first[-1])
        if by == "python3":
            ran = called(path, "--help")
            if ran.returncode or len(ran.stdout.strip().splitlines()) < 2:
                wrong.append(f"{name} --help: status {ran.returncode}, {(ran.stdout + ran.stderr)[-200:]!r}")
        elif by in SHELLS:
            if not path.read_text(encoding="utf-8").splitlines()[1].startswith("# "):
                wrong.append(f"{name} doesn't say at its head what it does")
            if shutil.which(by) and called(by, "-n", path).returncode:
                wrong.append(f"{name} can't be read by {by}")
    return not wrong, wrong or [f"{found} scripts say what they do"]


def shorten():
    """The recorded boot of the tree, which is short, can't be shortened, and stays as it is."""
    with tempfile.TemporaryDirectory() as folder:
        there, to = pathlib.Path(folder, "linux-boot.trace"), pathlib.Path(folder, "to.trace")
        shutil.copy(TOP / "examples/linux-boot.trace", there)
        records = part_of(TOP / "examples/records", "linux-boot")
        pathlib.Path(f"{there}.records").write_text(records, encoding="utf-8")
        ran = called(TOP / "examples/linux/shorten", there, to)
        if ran.returncode:
            return False, (ran.stdout + ran.stderr).splitlines()
        wrong = [f"linux-boot{suffix} came out otherwise" for suffix, as_it_was in ((".trace", there.read_text(encoding="utf-8")), (".records", records))
                 if to.with_suffix(suffix).read_text(encoding="utf-8") != as_it_was]
    return not wrong, wrong or ["a boot that is short stays as it is"]


def edits():
    """Each planted edit has a function, words and text that stands in its source; each edit in the tables of docs/CHANGING.md is there."""
    ran = called(TOP / ".ci/planted", "--list")
    if ran.returncode:
        return False, (ran.stdout + ran.stderr).splitlines()
    planted = ran.stdout.splitlines()
    there = {edit.partition("/")[2] for edit in planted}
    text = (TOP / "docs/CHANGING.md").read_text(encoding="utf-8").partition("### Wrong bodies, and what refuses them")[2].partition("\n## ")[0]
    named = {name for row in re.findall(r"^\|.*\|(.*)\|$", text, re.MULTILINE) for name in re.findall(r"`(\w+)`", row)}
    wrong = [f"docs/CHANGING.md names {name}, which is no edit" for name in sorted(named - there)]
    return not wrong, wrong or [f"{len(planted)} planted edits stand in their sources, {len(named)} are in the tables"]


CHECKS = {"helps": helps, "shorten": shorten, "edits": edits}
