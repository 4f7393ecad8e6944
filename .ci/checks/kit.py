"""What stays true of the kit: KIT names the one on the path, the sources are laid out by it, and it runs what README and
docs/EMBEDDING.md give a newcomer."""
import os
import pathlib
import re
import shutil
import subprocess
import tempfile

from .common import TOP, called


def kit():
    named = (TOP / "KIT").read_text().strip()
    if not shutil.which("rt"):
        return True, [f"{named}; no rt is on the path to compare it with"]
    here = subprocess.run(["rt", "version"], capture_output=True, text=True).stdout.strip()
    if here == named:
        return True, [named]
    same_logic = here.partition(" ")[2] == named.partition(" ")[2]
    return same_logic, [f"KIT says {named}, rt says {here}" + (", of the same logic" if same_logic else "")]


def layout():
    """That the sources of all crates are laid out as rt fmt does, by one call."""
    if not shutil.which("rt"):
        return True, ["not looked at: no rt is on the path"]
    rattle = pathlib.Path(os.path.realpath(shutil.which("rt"))).with_name("rattle")
    files = [path for path in sorted((TOP / "crates").glob("*/*/**/*")) if path.suffix in (".rt", ".antt") and "out" not in path.parts]
    ran = called(rattle, "fmt", "--check", *files)
    if ran.returncode == 0:
        return True, [f"{len(files)} files are as rt fmt has them"]
    return False, [*(ran.stdout + ran.stderr).splitlines()[:40], "rt fmt in the crate's folder lays them out"]


def trial(folder, crate, trace=None):
    """What rt try prints of a program, from a copy of the sources, without proofs; None where it fails."""
    with open(trace or os.devnull, "rb") as text:
        ran = subprocess.run(["rt", "try"], cwd=f"{folder}/crates/{crate}", stdin=text, capture_output=True)
    return ran.stdout.decode() if ran.returncode == 0 else None


def first_programs():
    """The program that docs/EMBEDDING.md gives to begin with, and README's first look, in a copy of the sources."""
    if not shutil.which("rt"):
        return True, ["no rt to run them with"]
    page = (TOP / "docs/EMBEDDING.md").read_text(encoding="utf-8")
    program, told = re.search(r"^```rust\n(.*?)^```", page, re.MULTILINE | re.DOTALL)[1], re.search(r"It prints `(.*?)`", page)[1]
    with tempfile.TemporaryDirectory() as folder:
        shutil.copytree(TOP / "crates", f"{folder}/crates", ignore=shutil.ignore_patterns("out"))
        shutil.copy(TOP / "HANDLES", folder)
        pathlib.Path(folder, "crates/machine/src").mkdir(parents=True)
        pathlib.Path(folder, "crates/machine/src/main.rt").write_text(program)
        pathlib.Path(folder, "crates.txt").write_text((TOP / "crates.txt").read_text() + "machine: board\n")
        found = {
            "docs/EMBEDDING.md": (trial(folder, "machine"), told + "\n"),
            "README.md": (trial(folder, "vreplay", TOP / "examples/two-guests.trace"), (TOP / "crates/vreplay/stdout").read_text()),
        }
    wrong = [f"{page}: prints {printed!r}, not {wanted!r}" for page, (printed, wanted) in found.items() if printed != wanted]
    return not wrong, wrong or ["both print what they should"]


CHECKS = {"kit": kit, "layout": layout}
TRIES = {"first programs": first_programs}
