"""What make check tries on the program and the library, which it builds without a proof: every scenario and row of the matrix,
traces of guests from seeds, broken texts, the suite in one process, the worked calls of a host, and the hosts in C. A check of them that
passed isn't made again while it stands on the same: what was built, the compiler, and each file but pages and what a crate is proved and
built of."""
import json
import re
import shutil
import tempfile
import threading

from .common import COMPILER, TOP, called, script
from .runner import processors
import proving

RUN_ON, IN_PROCESS = "crates/conformance/run-on", TOP / "crates/conformance/in-process"
PROGRAM, LIBRARY = TOP / "out/vreplay-unproved", TOP / "out/libkalyubos-unproved.a"
TRACES = "300"


def built(crate):
    """Builds the crate without a proof, where a source changed."""
    good, lines = script("packaging/unproved", crate)
    return good, lines[-1:] if good else lines


def counted(*words):
    """run-on with these words: its counts, and what differs."""
    good, lines = script(RUN_ON, "--quiet", "--jobs", str(processors()), *words)
    return good, lines[-1:] + lines[:-1]


def in_one_process():
    """The suite on the C library, over an image and with disks that the host serves."""
    said = []
    with tempfile.TemporaryDirectory() as folder:
        for flags, sources, words in (
            ([], [], []),
            (["-DHOSTED"], ["disks.c"], ["--fails", "--fails", "--calls", "--table", IN_PROCESS / "HOSTED.md"]),
        ):
            device = f"{folder}/device"
            own = [IN_PROCESS / name for name in ("run.c", "trace.c", "kalyubos.c", *sources)]
            ran = called(COMPILER, "-std=c11", "-O2", "-Wall", "-Wextra", "-I", "crates/board_ffi", *flags, "-o", device, *own, LIBRARY)
            good, lines = (False, ran.stderr.splitlines()) if ran.returncode else counted("--adapter", "--after", "--save", *words, device)
            said += lines if not good else lines[:1]
            if not good:
                return False, said
    return True, [f"over an image {said[0]}; with the host's disks {said[1].replace(' differ', ' differ as HOSTED.md says')}"]


def fuzzed():
    """Traces of hostile and sane guests, of each kind."""
    good, lines = script("fuzz/run", TRACES, "--program", PROGRAM, "--in-place")
    return good, lines[-1:] if good else lines


def host_calls():
    """The worked calls that C makes of the library."""
    good, lines = script("crates/conformance/host-calls/run", LIBRARY)
    counts = [line.split(": ")[1].split()[0] for line in lines if line.endswith(" calls answer as they must")]
    return good, [f"{' + '.join(counts)} calls answer as they must"] if good else lines


def hosts():
    """The hosts of examples/embed that need no KVM."""
    good, lines = script("examples/embed/run", "--unproved")
    count = sum(line.endswith(": prints what it should") for line in lines)
    return good, [f"{count} print what they should", *(line.strip() for line in lines if line.startswith("  "))] if good else lines


def last_line(*words):
    good, lines = script(*words)
    return good, lines[-1:] if good else lines


# What each check stood on when it passed last, and the files on which none stands.
PASSED, LOCK = TOP / "out/check.passed", threading.Lock()
ASIDE = re.compile(r"docs/|(.*/)?README\.md$|[^/]*\.md$|crates/\w+/(src|specs|proofs)/")


def stands_on(name):
    """A sum of all that a check of what was built stands on."""
    listed = called("git", "ls-files", "-co", "--exclude-standard", "-z").stdout.split("\0")
    files = [TOP / path for path in sorted(listed) if path and not ASIDE.match(path)]
    tried = PROGRAM if "program" in AFTER[name] else LIBRARY
    return proving.sum_of([path for path in (tried, *files) if path.is_file()]) + called(COMPILER, "--version").stdout


def passed():
    """What each check stood on when it passed last."""
    return json.loads(PASSED.read_text(encoding="utf-8")) if PASSED.exists() else {}


def unless_passed(name, check):
    """The check, which isn't made where it passed on the same."""
    def made():
        now = stands_on(name)
        if passed().get(name) == now:
            return True, ["not made: it passed on what was built, and on the scripts, as they are (rm out/check.passed has all made)"]
        good, lines = check()
        if good and now == stands_on(name):
            with LOCK:
                PASSED.write_text(json.dumps({**passed(), name: now}), encoding="utf-8")
        return good, lines
    return made


BUILDS = {"program": lambda: built("vreplay"), "library": lambda: built("board_ffi")}
TRIED = {
    "scenarios": lambda: counted("--after", "--save", PROGRAM),
    "fuzz": fuzzed,
    "broken": lambda: last_line("tests/program/broken", "--program", PROGRAM),
    "streams": lambda: last_line("tests/program/streams", PROGRAM),
    "in-process": in_one_process,
    "host calls": host_calls,
    "hosts in C": hosts,
    "racing accesses": lambda: last_line("examples/embed/racing-accesses", "--library", LIBRARY),
}
CHECKS = BUILDS | {name: unless_passed(name, check) for name, check in TRIED.items()}
AFTER = {"scenarios": ["program", "matrix"], "fuzz": ["program"], "broken": ["program"], "streams": ["program"],
         "in-process": ["library", "matrix"], "host calls": ["library"], "hosts in C": ["library"],
         "racing accesses": ["library"]}


def can_build():
    """Why nothing can be built here, or None."""
    lacking = [name for name in ("rt", COMPILER) if not shutil.which(name)]
    return f"{' and '.join(lacking)} isn't there" if lacking else None
