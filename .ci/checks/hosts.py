"""What stays true of the hosts in C: the header, the Rust crate and the library's exports are those of one table, the pages' lines
compile, and the parts of examples do what their texts say, over a stub of the library, and over the library where it is built."""
import difflib
import os
import pathlib
import re
import shutil
import subprocess
import tempfile

from .common import COMPILER, TOP, called, script

LINUX, EMBED = TOP / "examples/linux", TOP / "examples/embed"
HOSTS, SUPPORT, TESTS = EMBED / "hosts", EMBED / "support", EMBED / "tests"


def compiled(to, sources):
    """Compiles a program of examples/linux, with warnings as errors; what is wrong, or nothing."""
    command = [COMPILER, "-std=gnu11", "-O2", "-Wall", "-Wextra", "-Werror", "-I", TOP / "crates/board_ffi", "-o", to]
    ran = subprocess.run([*command, *sources], capture_output=True, text=True, cwd=LINUX)
    return (ran.stdout + ran.stderr).splitlines() if ran.returncode else []


def self_test(*sources):
    """A self-test of examples/linux, where there is a C compiler."""
    if not shutil.which(COMPILER):
        return True, [f"no {COMPILER} to build its self-test with"]
    with tempfile.TemporaryDirectory() as folder:
        wrong = compiled(f"{folder}/self-test", sources)
        if wrong:
            return False, wrong
        ran = subprocess.run([f"{folder}/self-test"], capture_output=True, text=True)
    return ran.returncode == 0, (ran.stdout + ran.stderr).splitlines()


# What stands round the lines of C in README.md.
FIRST_HOST = """#include "kalyubos.h"
enum { BLOCK_LINE };
static uint8_t image[4096];
void set_line(int line, bool is_high);
void first_host(void)
{
uint32_t value;
struct kalyubos_pending pending;
%s}
"""


def readme():
    """README's lines of C, with the header."""
    if not shutil.which(COMPILER):
        return True, [f"no {COMPILER} to compile its lines of C with"]
    lines = re.search(r"^```c\n(.*?)^```", (TOP / "README.md").read_text(encoding="utf-8"), re.MULTILINE | re.DOTALL)[1]
    with tempfile.TemporaryDirectory() as folder:
        source = pathlib.Path(folder, "first_host.c")
        source.write_text(FIRST_HOST % lines)
        wrong = compiled(f"{folder}/first_host.o", [source, "-c"])
    return not wrong, wrong or [f"its {len(lines.splitlines())} lines of C compile"]


# What stands before the lines of C in docs/EMBEDDING.md: what is the reader's own.
EXITS = """#include "kalyubos.h"
#include "file_disk.h"
static struct kalyubos board;
struct access { bool is_store; uint16_t offset; uint8_t width; uint32_t value; };
struct guest { struct kalyubos board; struct kalyubos_pending lines; uint64_t begun, ended, failed; struct file_disk disk; };
void begin(struct guest *guest, uint8_t tag);
void set_line(uint8_t slot, uint8_t window, bool is_high);
bool show_output(uint8_t slot);
void repeat_later(struct guest *guest);
struct running { struct kalyubos_guest guest; struct kalyubos_pending lines; bool is_due, has_exit, has_ended; };
bool take_output(struct running *guest);
void begin_asked(struct running *guest);
void set_lines(struct running *guest);
void take_exit(struct running *guest);
void complete_one(struct running *guest);
"""


def embedding():
    """The lines of C of docs/EMBEDDING.md, with the header and file_disk.h."""
    if not shutil.which(COMPILER):
        return True, [f"no {COMPILER} to compile its lines of C with"]
    blocks = re.findall(r"^```c\n(.*?)^```", (TOP / "docs/EMBEDDING.md").read_text(encoding="utf-8"), re.MULTILINE | re.DOTALL)
    with tempfile.TemporaryDirectory() as folder:
        source = pathlib.Path(folder, "exits.c")
        source.write_text(EXITS + "\n".join(blocks))
        wrong = compiled(f"{folder}/exits.o", ["-I", SUPPORT, source, "-c"])
    return not wrong, wrong or [f"its {sum(len(block.splitlines()) for block in blocks)} lines of C compile"]


RECORDER = ["record-test.c", "record.c", "watch.c", "mistake.c", "window.c", "queue.c", "chain.c"]


def differences(program, folder, name, *words):
    """How what the recorder's host writes differs from the texts of this name that were written by hand."""
    ran = subprocess.run([program, f"{folder}/trace", *words], capture_output=True, text=True)
    wrong = [] if not ran.returncode else [f"status {ran.returncode}", *ran.stderr.splitlines()]
    for found, expected in (("trace", "trace"), ("trace.records", "records"), ("trace.mistakes", "mistakes")):
        path, wanted = pathlib.Path(folder, found), LINUX / f"{name}.{expected}"
        told = path.read_text().splitlines() if path.exists() else []
        wrong += [line.rstrip() for line in difflib.unified_diff(wanted.read_text().splitlines(), told, wanted.name, found, n=0)]
    return wrong


def library():
    """What a host in C is linked to where the library is built, or nothing."""
    built, header = TOP / "packaging/out/libkalyubos.a", TOP / "crates/board_ffi/kalyubos.h"
    is_built = built.exists() and built.stat().st_mtime > header.stat().st_mtime
    return [built] if is_built else []


def recorder():
    """record.c and watch.c over a stub of the library, and over the library where it is built: with an image, and with disks
    that the host serves."""
    if not shutil.which(COMPILER):
        return True, [f"no {COMPILER} to build it with"]
    over = {"a stub": ["record-stub.c"]}
    if library():
        over["the library"] = library()
    for name, sources in over.items():
        with tempfile.TemporaryDirectory() as folder:
            program = f"{folder}/record-test"
            wrong = compiled(program, [*RECORDER, *sources])
            wrong = wrong or differences(program, folder, "record-test") + differences(program, folder, "record-hosted", "hosted")
            if wrong:
                return False, [f"over {name}", *wrong]
    return True, ["its traces, records and mistakes over " + " and ".join(over)]


def full_outlet():
    """kvm.c of examples/embed, over a stub of the library and over the library where it is built: a guest with 65 emergency
    writes into an outlet of 64 bytes, beside one that goes on; a guest of two CPUs; and over the library two with network cards."""
    if not shutil.which(COMPILER):
        return True, [f"no {COMPILER} to build its host with"]
    if not os.access("/dev/kvm", os.R_OK | os.W_OK):
        return True, ["not tried: no /dev/kvm that may be opened"]
    over = {"a stub": [TESTS / "kvm-stub.c"]}
    if library():
        over["the library"] = library()
    for name, sources in over.items():
        wrong = flooded(sources, CARDS if sources == library() else [])
        if wrong:
            return False, [f"over {name}", *wrong]
    return True, ["a KVM guest that fills its outlet puts out all, the other goes on, and two CPUs of one stand, over " + " and ".join(over),
                  *(["frames come from card to card, over the library"] if library() else [])]


# The words that have kvm.c run guests with network cards: over both rings, with and without EVENT_IDX.
CARDS = [["cards", "split-event", "split"], ["cards", "packed", "packed-event"]]


def differing(name, printed):
    """In what differs what a host printed from what is expected of a name."""
    wanted = called(EMBED / "expected", name).stdout.splitlines()
    return [line.rstrip() for line in difflib.unified_diff(wanted, printed.splitlines(), "expected", "found", n=0)]


def flooded(sources, cards):
    """What is wrong with kvm.c over these sources of the library's functions, or nothing."""
    with tempfile.TemporaryDirectory() as folder:
        host = f"{folder}/kvm"
        parts = [HOSTS / "kvm.c", *(SUPPORT / name for name in ("cpus.c", "device_tree.c", "file_disk.c"))]
        wrong = compiled(host, ["-I", SUPPORT, *parts, *sources, "-pthread"])
        runs = [([], "guests"), (["hosted"], "guests"), (["flood"], "flood"), (["pair"], "pair")]
        for words, name in () if wrong else runs + [(words, "cards") for words in cards]:
            ran = subprocess.run([host, *words], capture_output=True, text=True, timeout=60)
            wrong += differing(name, ran.stdout)
            wrong += ran.stderr.splitlines() if ran.returncode else []
    return wrong


# How long file_disk.c may be, which serves the disks of several guests by threads: a stranger reads it whole.
MOST_LINES = 260


def disks():
    """disk.c of examples/embed: two guests whose disks are files, by io_uring and by threads."""
    length = len((SUPPORT / "file_disk.c").read_text().splitlines())
    if length > MOST_LINES:
        return False, [f"file_disk.c has {length} lines, more than {MOST_LINES}"]
    if not shutil.which(COMPILER):
        return True, [f"no {COMPILER} to build its host with"]
    sources = [HOSTS / "disk.c", SUPPORT / "file_disk.c", SUPPORT / "file_ring.c"]
    with tempfile.TemporaryDirectory() as folder:
        if not library():
            wrong = [line for source in sources for line in compiled(f"{folder}/{source.stem}.o", ["-I", SUPPORT, source, "-c"])]
            return not wrong, wrong or ["compiled alone: the library isn't built (`make library` builds it)"]
        host, ways = f"{folder}/disk", []
        wrong = compiled(host, ["-I", SUPPORT, *sources, *library(), "-pthread"])
        for words in () if wrong else ([], ["threads"]):
            ran = subprocess.run([host, *words], capture_output=True, text=True, timeout=60)
            wrong += differing("disk", ran.stdout)
            ways += [line.rpartition(" by ")[2] for line in ran.stderr.splitlines()[:1]]
    return not wrong, wrong or [f"two guests on files, by {' and by '.join(ways)}, whose code has {length} lines"]


# The calls of file_disk.c and file_ring.c that fail in turn.
CALLS = ["open", "lseek", "malloc", "aligned_alloc", "pipe2", "pthread_create", "mmap", "syscall", "read", "write",
         "pread", "pwrite", "fdatasync", "fallocate"]


def failing_disks():
    """file_fails.c of examples/embed: disks on files of which each call fails in turn end their operations and leave nothing."""
    if not shutil.which(COMPILER):
        return True, [f"no {COMPILER} to build it with"]
    with tempfile.TemporaryDirectory() as folder:
        sources = ["-I", SUPPORT, TESTS / "file_fails.c", SUPPORT / "file_disk.c", SUPPORT / "file_ring.c"]
        wrong = compiled(f"{folder}/fails", [*sources, "-pthread", *(f"-Wl,--wrap={call}" for call in CALLS)])
        if wrong:
            return False, wrong
        ran = subprocess.run([f"{folder}/fails"], capture_output=True, text=True, timeout=120)
    return ran.returncode == 0, (ran.stdout + ran.stderr).splitlines()


def racing():
    """The hosts of examples/embed for guests that run on, and the program of these over KVM: that they compile without a warning."""
    if not shutil.which(COMPILER):
        return True, [f"no {COMPILER} to compile them with"]
    sources = [*(HOSTS / name for name in ("kvm-racing.c", "turns.c")), SUPPORT / "racing_host.c",
               *(TESTS / name for name in ("racing.c", "racing_rows.c", "racing_threads.c", "racing_accesses.c"))]
    with tempfile.TemporaryDirectory() as folder:
        wrong = [line for source in sources for line in compiled(f"{folder}/{source.stem}.o", ["-I", SUPPORT, source, "-c", "-pthread"])]
        built, said = script(EMBED / "racing-build", f"{folder}/program")
    return not wrong and built, wrong + said or [f"{len(sources)} hosts and a guest compile"]


AGAINST, MODEL = "crates/conformance/against", "crates/conformance/mutants/model.py"


CHECKS = {
    "header": lambda: script(TOP / "crates/c_values/api/make", "--check"),
    "cpu": lambda: self_test("cpu-test.c", "cpu.c"),
    "virtqueue": lambda: self_test("queue-test.c", "queue.c", "chain.c"),
    "readme": readme,
    "embedding": embedding,
    "recorder": recorder,
    "full outlet": full_outlet,
    "disks": disks,
    "failing disks": failing_disks,
    "racing": racing,
}
