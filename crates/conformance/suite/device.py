"""A device's run over one scenario."""
import contextlib
import dataclasses
import os
import subprocess
import tempfile
import threading
from typing import List, Optional

# A device that can't be asked a scenario says so by this status, and why in its last line on standard error.
CANNOT = 77


class Unusable(Exception):
    """A device that can't be started, or that doesn't tell what is needed to go on."""


def called(words, seconds):
    """What a call of a device came to, or None where there is no end within so many seconds."""
    try:
        return subprocess.run(words, stdin=subprocess.DEVNULL, capture_output=True, timeout=seconds)
    except subprocess.TimeoutExpired:
        return None
    except OSError as error:
        raise Unusable(f"{words[0]} can't be run: {error.strerror}") from None


class Rooms(threading.local):
    """A folder for each thread, with the files of its scenario."""

    def __init__(self):
        self.folder = tempfile.TemporaryDirectory()

    def file(self, name):
        return os.path.join(self.folder.name, name)


ROOMS = Rooms()


@dataclasses.dataclass(frozen=True)
class Device:
    """How a device is called: COMMAND TRACE IMAGE, and what its options are."""

    command: List[str]
    after: Optional[str] = None
    in_place: Optional[str] = None
    fails: Optional[str] = None
    seconds: float = 60.0

    def words(self, scenario):
        """The words of the call, and the file that holds the image afterwards, if any."""
        words = [*self.command, ROOMS.file("trace"), ROOMS.file("image")]
        held = None
        if self.after:
            held = ROOMS.file("after")
            words += [self.after, held]
        if self.in_place:
            held = ROOMS.file("image")
            words += [self.in_place] if self.in_place != "-" else []
        if self.fails and scenario.fails is not None:
            words += [self.fails, ",".join(map(str, scenario.fails))]
        return words, held

    def run(self, scenario):
        """The outcome of the scenario's trace on the device."""
        lay_out(scenario)
        words, held = self.words(scenario)
        ran = called(words, self.seconds)
        if ran is None:
            return Outcome(late=True)
        return Outcome(ran.returncode, ran.stdout, ran.stderr, content_of(held), held is not None)


def lay_out(scenario):
    """Puts a scenario's files in the place of those of the last one, of which a device may have left something."""
    with contextlib.suppress(FileNotFoundError):
        os.remove(ROOMS.file("after"))
    for name, content in (("trace", scenario.read(".trace")), ("image", scenario.image if not scenario.zeros else b"")):
        with open(ROOMS.file(name), "wb") as file:
            file.write(content)
    if scenario.zeros:
        os.truncate(ROOMS.file("image"), scenario.zeros)


def content_of(path):
    try:
        with open(path, "rb") as file:
            return file.read()
    except (OSError, TypeError):
        return None


@dataclasses.dataclass(frozen=True)
class Outcome:
    """What a device answered: its status, its two outputs, and the image where it tells one."""

    status: int = 0
    output: bytes = b""
    error: bytes = b""
    image: Optional[bytes] = None
    tells_image: bool = False
    late: bool = False

    def said(self):
        """Its lines on standard error."""
        return self.error.decode("latin-1").strip().splitlines()

    @property
    def cannot(self):
        """Why the device can't be asked this, or None."""
        if self.status != CANNOT:
            return None
        return (self.error.decode("latin-1").strip().split("\n") or [""])[-1] or "no reason told"

    def found(self):
        """What to compare with the records: the output and a line with the status."""
        ended = b"" if self.output == b"" or self.output.endswith(b"\n") else b"\n"
        return b"%s%sstatus %d\n" % (self.output, ended, self.status)
