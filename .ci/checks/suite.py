"""What stays true of the suite: its rules, its matrix and the examples agree with the model, `against` finds a wrong device, and
a tool that can't run a device says so."""
import os
import pathlib
import shutil
import tempfile

from .common import TOP, called, script

AGAINST, MODEL = "crates/conformance/against", "crates/conformance/mutants/model.py"
RUN_ON, WRONG = "crates/conformance/run-on", "crates/conformance/mutants/wrong"


def against():
    """`against` over ten seeds with the model as judge: nothing differs on the model, and a wrong device is found."""
    wrong = []
    with tempfile.TemporaryDirectory() as folder:
        for words, status, counts in (
            ([MODEL], 0, "10 traces, 0 differ, "),
            (["--wild", "0.4", MODEL], 0, "10 traces, 0 differ, "),
            (["--wild", "0.4", "--tries", "0", "--keep", folder, "crates/conformance/mutants/wrong", "head and len exchanged"], 1, ""),
        ):
            found = called(AGAINST, "--judge", MODEL, "--seeds", "10", *words)
            if found.returncode != status or not (found.stdout.splitlines() or [""])[-1].startswith(counts):
                wrong += [f"{' '.join(words)}: status {found.returncode}", *found.stdout.splitlines(), *found.stderr.splitlines()[-1:]]
    return not wrong, wrong or ["ten seeds on the model, and ten wild ones, differ in nothing; a wrong device is found"]


def no_device():
    """Tools that run a device say in a sentence that it can't be run, and end with a status of their own."""
    tries = [([AGAINST, "--judge", MODEL, device], 2) for device in ("./no-such-device", "./README.md", "false")]
    tries += [([RUN_ON, "--only", "registers", device], 2) for device in ("./no-such-device", "./README.md")]
    tries += [(["fuzz/run", "1", "--program", device], 1) for device in ("./no-such-device", shutil.which("false"))]
    wrong = []
    for words, status in tries:
        found = called(*words)
        if found.returncode != status or found.stdout or len(found.stderr.splitlines()) != 1:
            wrong += [f"{' '.join(words)}: status {found.returncode}", *(found.stdout + found.stderr).splitlines()[-3:]]
    return not wrong, wrong or [f"{len(tries)} calls end by a sentence and a status"]


# Devices that aren't meant for all scenarios: one that takes each line for good, and one that knows no extended trace.
TAKES_ALL = """#!/bin/sh
awk '$1 ~ /^(r|w|mr|mw|in|sz|st|io)$/ { print "0 done - 0 0" }' "$1"
"""
TAKES_PLAIN = f"""#!/bin/sh
[ "$(head -n 1 "$1")" != "kalyubos 1" ] || {{ echo "fault trace 1 Header"; exit 1; }}
exec {TOP / MODEL} "$@"
"""


def reports():
    """`run-on` reports on a device that takes what is no trace, leaves out what another has no word for, and says whose a
    status is."""
    wrong = []
    with tempfile.TemporaryDirectory() as folder:
        takes_all, takes_plain = pathlib.Path(folder, "takes-all"), pathlib.Path(folder, "takes-plain")
        for path, text in ((takes_all, TAKES_ALL), (takes_plain, TAKES_PLAIN)):
            path.write_text(text)
            path.chmod(0o755)
        for words, status, said in (
            (["--only", "versions", "--only", "texts/*_behind_*", takes_all], 1, "\ntexts "),
            (["--only", "restores/a_*", takes_plain], 1, "\n  found    fault trace 1 Header\n"),
            (["--only", "versions", "--without", "extended", takes_plain], 0, " 0 differ, "),
            (["--only", "requests/type_2_is_unsupported", WRONG, "IOERR is 2 and UNSUPP 1"], 1,
             " is the status of the request of type 2 that line 26 served: UNSUPP expected, IOERR found\n"),
        ):
            found = called(RUN_ON, *words)
            if found.returncode != status or found.stderr or said not in found.stdout:
                wrong += [f"{' '.join(map(str, words))}: status {found.returncode}"]
                wrong += (found.stdout + found.stderr).splitlines()[-5:]
    return not wrong, wrong or ["devices that take all, or plain traces alone, get a report, and a status is said to be a request's"]


def packaged():
    """A suite that a package owns, as links to this one, takes what is made from the user's cache, and writes nothing beside itself."""
    with tempfile.TemporaryDirectory() as folder:
        suite, cache = pathlib.Path(folder, "crates/conformance"), pathlib.Path(folder, "cache/kalyubos")
        suite.mkdir(parents=True)
        cache.mkdir(parents=True)
        for name in ("data", "matrix", "mutants", "run-on", "suite", "rules", "STANDARD.md"):
            (suite / name).symlink_to(TOP / "crates/conformance" / name)
        pathlib.Path(folder, "docs").symlink_to(TOP / "docs")
        (cache / "data").symlink_to(TOP / "crates/conformance/data")
        (suite / "packaged").touch()
        ran = called(suite / "run-on", "--quiet", "--adapter", "--only", "registers", TOP / MODEL, env={**os.environ, "XDG_CACHE_HOME": f"{folder}/cache"})
        good = ran.returncode == 0 and not (suite / "out").exists() and (cache / "data/.made").exists()
    return good, ["its scenarios are in the user's cache"] if good else (ran.stdout + ran.stderr).splitlines()[-5:]


IN_PROCESS = TOP / "crates/conformance/in-process"
# The devices to copy: how each is built, beside its name and the program that it becomes.
TO_COPY = {"console.c": ["cc", "-std=c11", "-O2", "run.c", "trace.c"], "console.rs": ["rustc", "--edition", "2021", "-O"]}
OF_OUTPUT = ["--adapter", "--standard", "--only", "output", "--without", "guests", "--without", "indirect_desc", "--without", "ring_packed"]


def to_copy():
    """The devices that one copies have fewer than 100 lines, and pass the scenarios that their heads name."""
    good, wrong = [], []
    for name, build in TO_COPY.items():
        if not shutil.which(build[0]):
            good.append(f"{name}: there is no {build[0]}")
            continue
        count = len((IN_PROCESS / name).read_text(encoding="utf-8").splitlines())
        with tempfile.TemporaryDirectory() as folder:
            device = pathlib.Path(folder, "device")
            built = called(*build, name, "-o", device, cwd=IN_PROCESS)
            ran = called(RUN_ON, *OF_OUTPUT, device) if built.returncode == 0 else built
        counts = (ran.stdout.splitlines() or [""])[-1]
        found = good if count < 100 and ran.returncode == 0 and " 0 differ, " in counts else wrong
        found.append(f"{name}: {count} lines, {counts or ran.stderr[-300:]}")
    return not wrong, wrong + good


# The scenarios that tables make, and their pages, are made by the first check, so that no two others make them at once.
AFTER = {name: ["matrix"] for name in ("links", "named", "words", "rules", "against", "no device", "reports", "packaged", "to copy", "helps")}
CHECKS = {
    "matrix": lambda: script(TOP / "crates/conformance/matrix/make"),
    "rows": lambda: script(TOP / "crates/conformance/row", "--check"),
    "rules": lambda: script(TOP / "crates/conformance/check-rules"),
    "examples": lambda: script(TOP / "examples/check"),
    "against": against,
    "no device": no_device,
    "reports": reports,
    "packaged": packaged,
    "to copy": to_copy,
}
