"""The program under test: its image, its socket and what it says, in a folder of its own."""
import contextlib
import os
import signal
import subprocess
import tempfile

import disks
from front_end import SPOKEN, WANTED, Feature, FrontEnd, Memory
from queues import KINDS

SECONDS = 10
SERIAL = "KALYUBOS-1"
# What a sanitizer says of a program that it ends, or that goes on.
TOLD = ("runtime error", "Sanitizer")


class Broken(Exception):
    """The program ended, or did what it must not; with its last words."""


def pattern(sectors, seed=1):
    """Sectors that all differ, each in each of its words."""
    return b"".join((seed << 32 | at).to_bytes(8, "little") for at in range(sectors * disks.SECTOR // 8))


class LeftOut(Exception):
    """Why a test can't be tried on this machine."""


class Program:
    """A running kalyubos-vhost over a file of so many sectors, or over what `store` makes in a folder. It must live until it is told to end."""

    def __init__(self, command, *options, sectors=2048, store=None):
        self.command, self.options, self.sectors, self.store = command, options, sectors, store

    def __enter__(self):
        self.folder = tempfile.TemporaryDirectory(prefix="vhost-")
        self.socket, self.image = (os.path.join(self.folder.name, name) for name in ("socket", "image"))
        self.log = open(os.path.join(self.folder.name, "log"), "w+", encoding="utf-8", errors="replace")
        self.disk = [f"--blk-file={self.image}"]
        if self.store:
            self.store = self.store(self.folder.name)
            self.disk = self.store.words
        else:
            with open(self.image, "wb") as image:
                image.write(pattern(self.sectors))
        self.start()
        return self

    def start(self):
        words = [self.command, f"--socket-path={self.socket}", *self.disk, *self.options]
        self.process = subprocess.Popen(words, stdin=subprocess.DEVNULL, stdout=self.log, stderr=self.log)

    def kill(self):
        """Kills it as a crash does."""
        self.process.send_signal(signal.SIGKILL)
        self.process.wait()

    def said(self):
        self.log.flush()
        with open(self.log.name, encoding="utf-8", errors="replace") as log:
            return log.read()

    def must_live(self):
        if self.process.poll() is not None:
            raise Broken(f"it ended with status {self.process.returncode}; it said: {self.said()[-300:]!r}")

    def __exit__(self, kind, error, _):
        try:
            self.must_live()
            self.process.terminate()
            self.process.wait(SECONDS)
            told = [line for line in self.said().splitlines() if any(word in line for word in TOLD)]
            if told:
                raise Broken(told[0])
        finally:
            if self.process.poll() is None:
                self.kill()
            if self.store:
                self.store.close()
            self.log.close()
            self.folder.cleanup()

    def bytes(self, sector, count=1):
        """What its file or its store has of the disk."""
        if self.store:
            return self.store.read(sector * disks.SECTOR, count * disks.SECTOR)
        with open(self.image, "rb") as image:
            image.seek(sector * disks.SECTOR)
            return image.read(count * disks.SECTOR)

    def put(self, sector, content):
        """Has the file's bytes changed behind its back, while no front end is there."""
        with open(self.image, "r+b") as image:
            image.seek(sector * disks.SECTOR)
            image.write(content)

    # --- front ends

    @contextlib.contextmanager
    def machine(self, kind="split", passed=0, memory=None, wanted=WANTED, spoken=SPOKEN, **how):
        """A front end whose queue 0 runs, with a driver of the disk."""
        with FrontEnd(self.socket) as front:
            front.negotiate([*wanted, *features_of(kind)], spoken)
            front.memory = memory or Memory()
            front.set_memory(front.memory)
            front.queue = KINDS[kind](front.memory, passed)
            front.start(front.queue)
            front.disk = disks.Disk(front.queue, **how)
            yield front

    def must_serve(self, kind="split"):
        """That a front end which does all right is served: one sector is read."""
        self.must_live()
        with self.machine(kind) as front:
            done = front.disk.do(disks.IN, 7, wanted=disks.SECTOR)
            if (done.status, done.data) != (disks.OK, self.bytes(7)):
                raise Broken(f"a good front end is served otherwise: {done}")
        self.must_live()


def features_of(kind):
    return [Feature.PACKED] if kind == "packed" else []


def options_of(kind):
    return ["--packed"] if kind == "packed" else []


def same(found, expected, what):
    """That something is as expected."""
    if found != expected:
        raise AssertionError(f"{what}: {str(found)[:200]}, not {str(expected)[:200]}")


def over(*rows):
    """Has a test run once for each row of arguments."""
    def marked(test):
        test.rows = rows
        return test
    return marked
