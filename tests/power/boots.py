"""Linux on two disks in files, and what a stop leaves of these: the part of stops that boots.

keeper.c is each guest's program. A guest's writes are those that it makes alone, on a board of its own.
"""
import collections
import functools
import os
import random
import re
import shutil
import subprocess
import sys
import tempfile

from medium import END, LIE, OUTPUT, SECTOR, SYNC, WRITE, ZEROS, Followed, entries_of, is_torn

HERE = os.path.dirname(os.path.abspath(__file__))
LINUX = os.path.join(os.path.dirname(os.path.dirname(HERE)), "examples", "linux")
MACHINE, KERNEL, TREE = (os.path.join(LINUX, "out", name) for name in ("linux-machine", "Image", "tree"))
CACHE = os.path.join(os.environ.get("XDG_CACHE_HOME") or os.path.expanduser("~/.cache"), "kalyubos", "linux")
KEEPER = os.path.join(HERE, "out", "keeper")
GUESTS = 2

# Of a file system, by the bytes of its blocks: its MiB and its journal's. Raw pages lie behind it.
SIZES = {1024: (8, 1), 4096: (16, 4)}
RAW = 64 * 4096
NAME = "6b616c79-7562-6f73-0000-00000000000{}"

# Disks are compared by so many bytes at once.
PART = 1 << 16

# Where files are looked at: in memory, where there is a place for it, since e2fsck syncs what it changes.
LOOKED_AT = "/dev/shm" if os.access("/dev/shm", os.W_OK) else None

# In seconds. A boot takes two, but a machine may be busy.
TIME_LIMIT = 600

# What e2fsck may say of a file system that only wants its journal replayed. Linux keeps the superblock's two counts late,
# and leaves it to the next mount to free what was unlinked and open.
FINE = re.compile("|".join([
    r"", r".*: recovering journal", r"Pass \d.*", r".*: \d+/\d+ files .*", r".*: \*{5} FILE SYSTEM WAS MODIFIED \*{5}",
    r"Free (blocks|inodes) count wrong \(\d+, counted=\d+\)\.", r"Fix\? yes", r"Setting free (blocks|inodes) count to .*",
    r"Clearing orphaned inode .*", r"Truncating orphaned inode .*",
]))


class Finding(Exception):
    """Something that isn't as it should be."""


def build():
    """Builds the guests' program; what else a boot wants, examples/linux/build makes."""
    for wanted in (MACHINE, KERNEL, TREE):
        if not os.path.exists(wanted):
            sys.exit(f"{wanted} isn't there: examples/linux/build makes it (make linux)")
    words = "-march=rv64ima -mabi=lp64 -Os -Wall -Wextra -static -nostdlib -ffreestanding -fno-stack-protector".split()
    words += ["-I", f"{CACHE}/built/usr/include", "-isystem", f"{CACHE}/linux-source-6.1/tools/include/nolibc", "-include", "nolibc.h"]
    subprocess.run(["riscv64-linux-gnu-gcc", *words, "-o", KEEPER, os.path.join(HERE, "keeper.c")], check=True)


def booted(seed, shim, files):
    """One boot: what was counted, and the finding, where there is one."""
    dice, counts = random.Random(f"boot {seed}"), collections.Counter()
    with tempfile.TemporaryDirectory() as room, tempfile.TemporaryDirectory(dir=LOOKED_AT) as looked_at:
        try:
            boot = Boot(seed, shim, room, looked_at)
            log = boot.log([0, 1])
            alone = [boot.log([guest]) for guest in range(GUESTS)]
            for guest in range(GUESTS):
                check_alone(guest, log, alone[guest])
            stops = Stops(boot, log, alone)
            for moment in sorted(dice.sample(range(len(log) + 1), files)):
                stops.check(moment, dice, counts)
            if seed % 10 == 0:
                check_lies(boot, alone, dice, counts)
        except Finding as finding:
            return seed, counts, str(finding)
    return seed, counts, None


class Boot:
    """The disks of one seed, in a folder."""

    def __init__(self, seed, shim, room, looked_at):
        self.shim, self.room, self.looked_at = shim, room, looked_at
        self.block = 4096 if seed % 4 == 3 else 1024
        self.disks = [self.new_disk(guest, GUESTS * seed + guest + 1) for guest in range(GUESTS)]

    def name(self, *words):
        return os.path.join(self.room, "-".join(str(word) for word in words))

    def new_disk(self, guest, number):
        """The bytes of a disk: an ext4 file system with a journal, and raw pages behind it."""
        root, disk, (size, journal) = self.name("root", guest), self.name("disk", guest), SIZES[self.block]
        for folder in ("dev", "files"):
            os.makedirs(os.path.join(root, folder))
        shutil.copy(KEEPER, os.path.join(root, "init"))
        write(os.path.join(root, "name"), f"{number}\n".encode())
        write(disk, bytes(size << 20))
        words = ["-q", "-t", "ext4", "-b", str(self.block), "-J", f"size={journal}", "-O", "^metadata_csum",
                 "-U", NAME.format(guest), "-E", f"hash_seed={NAME.format(0)}", "-d", root, disk]
        subprocess.run(["mke2fs", *words], env=dict(os.environ, E2FSPROGS_FAKE_TIME="1767225600"), check=True)
        return read(disk) + bytes(RAW)

    def log(self, guests, lies=""):
        """The log of a boot of these guests, whose files and consoles it numbers in their order."""
        to, log = self.name("to", *guests), self.name("log", *guests)
        os.makedirs(to, exist_ok=True)
        disks = [self.name("disk", guest) for guest in guests]
        for disk, guest in zip(disks, guests):
            write(disk, self.disks[guest])
        write(log, b"")
        consoles = [os.path.join(to, f"guest-{place}.console") for place in range(len(guests))]
        around = dict(os.environ, LD_PRELOAD=self.shim, STOPS_LOG=log, STOPS_FILES=":".join(disks), STOPS_TOLD=":".join(consoles),
                      STOPS_LIES=lies)
        words = [MACHINE, "--kernel", KERNEL, "--tree", TREE, "--to", to, "--quiet", "--hosted", "threads", *disks]
        try:
            run = subprocess.run(words, capture_output=True, text=True, env=around, timeout=TIME_LIMIT, check=False)
        except subprocess.TimeoutExpired:
            raise Finding(f"guests {guests} aren't off within {TIME_LIMIT} seconds") from None
        entries = entries_of(read(log))
        for place, guest in enumerate(guests):
            console = b"".join(entry.data for entry in entries if entry.kind == OUTPUT and entry.file == place)
            wrong = re.search(rb"failed: .*|.*I/O error.*|.*panic.*|.*EXT4-fs error.*", console)
            if run.returncode or wrong or b"going off" not in console:
                raise Finding(f"guest {guest}: {wrong[0] if wrong else console[-200:]!r}, status {run.returncode}, {run.stderr[-200:]!r}")
        return entries


def own(entries, file):
    """The entries of one file and its console: what its guest does."""
    calls = {entry.call for entry in entries if entry.kind != OUTPUT and entry.kind != END and entry.file == file}
    return [entry for entry in entries if entry.call in calls or entry.kind == OUTPUT and entry.file == file]


def calls_of(entries, file):
    """The calls of one file, and their ends."""
    return [entry for entry in own(entries, file) if entry.kind != OUTPUT]


def deeds(entries):
    """The writes and syncs, and all that is told."""
    calls = [(entry.kind, entry.at, entry.data) for entry in entries if entry.kind in (WRITE, ZEROS, SYNC)]
    return calls, b"".join(entry.data for entry in entries if entry.kind == OUTPUT)


def check_alone(guest, log, alone):
    """That a guest writes and syncs the same beside another as alone, in the same order, and tells the same."""
    if deeds(own(log, guest)) != deeds(own(alone, 0)):
        raise Finding(f"guest {guest} writes or tells another thing beside the other guest than alone")


class Stops:
    """The stops of a boot: both disks as its log goes, and each as the log of its guest alone does."""

    def __init__(self, boot, log, alone):
        self.boot, self.log = boot, log
        self.disks = [Followed(boot.disks[guest], guest, log) for guest in range(GUESTS)]
        self.alone = [Followed(boot.disks[guest], 0, calls_of(alone[guest], 0)) for guest in range(GUESTS)]
        self.calls = [{entry.call for entry in calls_of(log, guest)} for guest in range(GUESTS)]

    def check(self, moment, dice, counts):
        """One file of each disk that a stop at this moment leaves: one guest's files are in it, and the other's bytes are its own."""
        guest = dice.randrange(GUESTS)
        left = [disk.at(moment).one_left(dice) for disk in self.disks]
        told = told_by(self.log[:moment], guest)
        check_files(self.boot, guest, left[guest], told)
        done = len([entry for entry in self.log[:moment] if entry.call in self.calls[1 - guest]])
        check_own(1 - guest, left[1 - guest], self.alone[1 - guest].at(done))
        counts["stops"] += 1
        counts["files that were told"] += len(told)


def told_by(entries, guest):
    """The files that a guest has told of: their lengths and seeds."""
    console = b"".join(entry.data for entry in entries if entry.kind == OUTPUT and entry.file == guest)
    return {name.decode(): (int(length), int(seed)) for name, length, seed in re.findall(rb"kept (\w+) (\d+) (\d+)\r?\n", console)}


def check_files(boot, guest, disk, told):
    """That e2fsck has only the journal to replay, and that each file that was told is there."""
    name, wanted, folder = (os.path.join(boot.looked_at, word) for word in ("disk", "wanted", "dumped"))
    write(name, disk)
    run = subprocess.run(["e2fsck", "-fy", name], capture_output=True, text=True, check=False)
    odd = [line for line in run.stdout.split("\n") if not FINE.fullmatch(line)]
    if run.returncode not in (0, 1) or odd:
        raise Finding(f"guest {guest}: e2fsck ends with {run.returncode}: {odd[:3]}")
    run = subprocess.run(["e2fsck", "-fn", name], capture_output=True, text=True, check=False)
    if run.returncode:
        raise Finding(f"guest {guest}: once the journal is replayed e2fsck ends with {run.returncode}: {run.stdout[-300:]!r}")
    shutil.rmtree(folder, ignore_errors=True)
    os.makedirs(folder)
    write(wanted, "".join(f"dump /files/{file} {folder}/{file}\n" for file in told).encode())
    subprocess.run(["debugfs", "-f", wanted, name], capture_output=True, check=False)
    for file, (length, seed) in told.items():
        path = os.path.join(folder, file)
        found = read(path) if os.path.exists(path) else None
        if found is None or found[:length] != pattern(seed, length):
            what = "isn't there" if found is None else f"has {len(found)} bytes, and {length} were told"
            raise Finding(f"guest {guest}: its file {file} was synced and told, and {what}")


def check_own(guest, disk, medium):
    """That a disk is what a stop may leave of its guest's own writes, as far as it has come."""
    for sector in other_sectors(disk, medium.safe):
        first, last = SECTOR * sector, SECTOR * (sector + 1)
        written = [write.data[first - write.at:last - write.at] for write in medium.unsafe.values()
                   if write.at <= first and last <= write.at + write.count]
        if not is_torn(disk[first:last], [medium.safe[first:last]] + written):
            raise Finding(f"guest {guest}: its sector {sector} has bytes that it didn't write, while the other is stopped")


def other_sectors(one, other):
    """The sectors in which two disks of one length differ."""
    for start in range(0, len(one), PART):
        if one[start:start + PART] != other[start:start + PART]:
            for at in range(start, min(start + PART, len(one)), SECTOR):
                if one[at:at + SECTOR] != other[at:at + SECTOR]:
                    yield at // SECTOR


@functools.lru_cache(maxsize=200)
def pattern(seed, length):
    """What keeper.c fills a file with."""
    found = bytearray(length)
    for at in range(length):
        seed = (seed * 1103515245 + 12345) % (1 << 32)
        found[at] = seed >> 16 & 0xFF
    return bytes(found)


def check_lies(boot, alone, dice, counts):
    """That syncs which are answered at once, and not done, are found."""
    log = boot.log([0, 1], "20 on")
    first = next(at for at, entry in enumerate(log) if entry.kind == LIE)
    stops = Stops(boot, log, alone)
    for _ in range(50):
        try:
            stops.check(dice.randrange(first, len(log) + 1), dice, collections.Counter())
        except Finding:
            counts["boots without syncs, and found"] += 1
            return
    raise Finding("from sync 20 on none is done, and nothing is found")


def read(name):
    with open(name, "rb") as file:
        return file.read()


def write(name, data):
    with open(name, "wb") as file:
        file.write(data)
