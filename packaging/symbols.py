"""Takes the symbols of what is built into files of their own, which debuggers find by a build's number or by a link."""
import dataclasses
import os
import pathlib
import shutil
import subprocess
import tempfile

from tree import Unmade

OBJCOPY, NM = os.environ.get("OBJCOPY", "objcopy"), os.environ.get("NM", "nm")
NUMBER = ".note.gnu.build-id"
# Before the number itself: three lengths, and the name GNU.
HEAD = 16


@dataclasses.dataclass(frozen=True)
class Stripped:
    """What is built as it is handed out, the file of its symbols, and the build's number. An archive keeps its symbols, and has no number."""

    data: bytes
    symbols: bytes = b""
    number: str = ""


def called(room, tool, *words):
    """What a tool of binutils says, run in a folder."""
    if not shutil.which(tool):
        raise Unmade(f"{tool} isn't installed, which reads or strips what is built: binutils has it")
    ran = subprocess.run([tool, *words], cwd=room, capture_output=True, text=True)
    if ran.returncode:
        raise Unmade(f"{tool} {' '.join(words)}: {(ran.stderr.strip() or 'failed').splitlines()[-1]}")
    return ran.stdout


def stripped(data, name):
    """What is built under this name without its symbols, with a link to the file of these, NAME.debug."""
    with tempfile.TemporaryDirectory() as folder:
        room, symbols = pathlib.Path(folder), f"{name}.debug"
        (room / name).write_bytes(data)
        if name.endswith(".a"):
            called(room, OBJCOPY, "--enable-deterministic-archives", "--strip-debug", name, "bare")
            return Stripped((room / "bare").read_bytes())
        called(room, OBJCOPY, "--only-keep-debug", name, symbols)
        called(room, OBJCOPY, "--strip-unneeded", f"--add-gnu-debuglink={symbols}", name, "bare")
        called(room, OBJCOPY, "--dump-section", f"{NUMBER}=number", "bare", "again")
        return Stripped((room / "bare").read_bytes(), (room / symbols).read_bytes(), (room / "number").read_bytes()[HEAD:].hex())


def exported(data):
    """The names that a shared object shows, in order."""
    with tempfile.TemporaryDirectory() as folder:
        (pathlib.Path(folder) / "shared").write_bytes(data)
        return sorted(line.split()[2] for line in called(folder, NM, "--dynamic", "--defined-only", "shared").splitlines())
