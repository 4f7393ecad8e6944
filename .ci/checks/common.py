"""What several checks share: where things are, the pages, and calls of tools."""
import functools
import os
import pathlib
import re
import subprocess
import sys

TOP = pathlib.Path(__file__).resolve().parents[2]
COMPILER = os.environ.get("CC", "cc")
sys.path.insert(0, str(TOP / "packaging"))


@functools.cache
def pages():
    """The repository's pages, without those below a folder of built things."""
    found = []
    for folder, below, files in os.walk(TOP):
        below[:] = sorted(name for name in below if name not in ("out", "target", ".git"))
        found += [pathlib.Path(folder, name) for name in sorted(files) if name.endswith(".md")]
    return found


def called(*words, **how):
    """What a call of a tool came to, from the top of the repository."""
    return subprocess.run(words, **{"capture_output": True, "text": True, "cwd": TOP, **how})


def part_of(path, name):
    """What stands below the line `== NAME` of a file, up to the next such line."""
    found = re.search(rf"^== {re.escape(name)}\n(.*?)(?=^== |\Z)", path.read_text(encoding="utf-8"), re.MULTILINE | re.DOTALL)
    return found[1]


def script(*command, **how):
    """A script as a check: good where its status is 0, with all that it says."""
    ran = called(*command, **how)
    return ran.returncode == 0, (ran.stdout + ran.stderr).splitlines()
