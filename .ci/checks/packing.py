"""What stays true of packaging: one version everywhere, `make run`, `make prove` and `make library` tell how far they are and prove
nothing twice, packages come out the same twice, and pages for man have each option."""
import os
import pathlib
import re
import shutil
import subprocess
import sys
import tempfile

from .common import COMPILER, TOP, called, script

# Where the version stands, as the header's number or as words.
VERSIONS = {
    "crates/board_ffi/kalyubos.h": (r"^#define KALYUBOS_VERSION (\d+)$", r"The version of this header, ([\d.]+):"),
    "crates/board_ffi/src/version.rt": (r"VERSION: u32 = (\d+);",),
    "crates/board_ffi/specs/Version.antt": (r"^-- (\d+\.\d+\.\d+)$",),
    "crates/calls/src/manual.rt": (r'VERSION: &str = "(.*)";',),
    "bindings/rust/src/ffi.rs": (r"const VERSION: u32 = (\d+);",),
    "bindings/rust/Cargo.toml": (r'^version = "(.*)"$',),
    "bindings/rust/Cargo.lock": (r'^name = "kalyubos"\nversion = "(.*)"$',),
    "examples/embed/rust/Cargo.lock": (r'^name = "kalyubos"\nversion = "(.*)"$',),
    "README.md": (r"^Version ([\d.]+)\. ",),
}


def spelled(told):
    """A version in words, of a text that has it so or as the header's number."""
    number = 0 if "." in told else int(told)
    return told if "." in told else f"{number // 10000}.{number // 100 % 100}.{number % 100}"


def version():
    """That each place has the same version."""
    said = {}
    for name, patterns in VERSIONS.items():
        text = (TOP / name).read_text(encoding="utf-8")
        for found in (re.search(pattern, text, re.MULTILINE) for pattern in patterns):
            said.setdefault(spelled(found[1]) if found else "no version", []).append(name)
    if len(said) == 1:
        return True, [f"{told} in {len(VERSIONS)} files" for told in said]
    return False, [f"{told}: {', '.join(names)}" for told, names in said.items()]


# Stands for rt: it tells of each call, and builds a program that copies its input.
STANDS_FOR_RT = """#!/bin/sh
[ "$1" = version ] && echo "a kit" && exit
echo "$1" >> "$CALLS"
echo 'rt: chose --jobs 1 for chain'
echo 'so far: 40 of 98 functions checked'
echo 'fn chain::Chain::new: proved'
echo 'talk of the prover' >&2
mkdir -p out
printf '#!/bin/sh\\nexec cat' > out/vreplay
chmod +x out/vreplay
"""

# Stands for packaging/unproved.
STANDS_FOR_UNPROVED = """#!/bin/sh
echo "unproved $1" >> "$CALLS"
mkdir -p out
printf '#!/bin/sh\\nexec cat' > "out/$1-unproved"
chmod +x "out/$1-unproved"
"""

# Calls in their order: the words, whether rt is there, a file that is changed before, the status, what is told and not told, and what is called.
RUN_CALLS = [
    ("run TRACE=none", True, None, 2, "TRACE=none: no such file", "proof", ""),
    ("run TRACE=trace IMAGE=trace", True, None, 2, "whole sectors of 512", "proof", ""),
    ("prove TRACE=trace IMAGE=trace", True, None, 2, "whole sectors of 512", "Proving", ""),
    ("run TRACE=trace SAVE=image", True, None, 2, "SAVE=FILE wants IMAGE=FILE", "proof", ""),
    ("run TRACE=trace", False, None, 2, "rt isn't installed: vreplay can't be built", "proof", ""),
    ("run TRACE=trace", True, None, 0, "without proofs", "Proving", "unproved vreplay"),
    ("prove TRACE=trace", True, None, 0, "] chain, ", "talk of the prover", "run"),
    ("prove TRACE=trace", True, None, 0, "Replaying trace:", "Proving", ""),
    ("run TRACE=trace", False, None, 0, "Replaying trace:", "proof", ""),
    ("run TRACE=trace", True, "crates/chain/src/lib.rt", 0, "The sources changed since vreplay was proved", "Proving", "unproved vreplay"),
    ("prove TRACE=trace", True, None, 0, "crates/vreplay/out/run.log", "40 of 98", "run"),
    ("run TRACE=trace", True, "crates/vreplay/out/vreplay", 0, "No proved vreplay is there", "Proving", "unproved vreplay"),
]


def scratch(folder):
    """The repository as `make run` sees it, without sources, and the paths with and without rt."""
    (folder / "crates/vreplay").mkdir(parents=True)
    shutil.copytree(TOP / "packaging", folder / "packaging", ignore=shutil.ignore_patterns("out"))
    for name in ("Makefile", "crates.txt", "KIT", "crates/vreplay/stdin"):
        shutil.copy(TOP / name, folder / name)
    (folder / "trace").write_text("a record\n")
    for below in ("rt", "others"):
        (folder / below).mkdir()
    for path, text in ((folder / "rt/rt", STANDS_FOR_RT), (folder / "packaging/unproved", STANDS_FOR_UNPROVED)):
        path.write_text(text)
        path.chmod(0o755)
    for tool in ("make", "sh", "cat", "mkdir", "chmod", "find"):
        (folder / "others" / tool).symlink_to(shutil.which(tool))
    (folder / "others/python3").symlink_to(sys.executable)
    return f"{folder}/rt:{folder}/others", f"{folder}/others"


def make_run():
    """`make run` and `make prove` in a scratch folder, where a small script stands for rt."""
    wrong = []
    with tempfile.TemporaryDirectory() as name:
        folder = pathlib.Path(name)
        with_rt, without = scratch(folder)
        calls = folder / "calls"
        for words, has_rt, changed, status, told, untold, called_for in RUN_CALLS:
            calls.write_text("")
            if changed:
                (folder / changed).parent.mkdir(parents=True, exist_ok=True)
                with open(folder / changed, "a", encoding="utf-8") as file:
                    file.write("\n")
            made = subprocess.run(["make", *words.split()], cwd=folder, capture_output=True, text=True,
                                  env=dict(os.environ, PATH=with_rt if has_rt else without, CALLS=str(calls)))
            found = (made.returncode, made.stdout, told in made.stderr, untold in made.stderr, calls.read_text().strip())
            if found != (status, "a record\n" if status == 0 else "", True, False, called_for):
                wrong += [f"make {words}: {found}", *made.stderr.splitlines()]
        log = folder / "crates/vreplay/out/run.log"
        if not wrong and "talk of the prover" not in log.read_text():
            wrong.append("run.log hasn't what rt says")
        wrong += [] if wrong else renewed(folder, dict(os.environ, PATH=with_rt, CALLS=str(calls)))
    return not wrong, wrong or [f"{len(RUN_CALLS)} calls, and one on a terminal, tell how far they are and replay what they should"]


def renewed(folder, environment):
    """What is wrong with the line that a terminal gets, or nothing."""
    terminal, own = os.openpty()
    with open(folder / "said", "wb") as said:
        subprocess.run(["make", "prove", "TRACE=trace"], cwd=folder, env=environment, stdout=said, stderr=own)
    os.close(own)
    shown = b""
    try:
        while got := os.read(terminal, 1 << 16):
            shown += got
    except OSError:  # all is read
        pass
    os.close(terminal)
    good = re.search(rb"\r\[\d+/\d+\] chain: 40 of 98 functions, \d+ seconds? so far", shown) and (folder / "said").read_bytes() == b"a record\n"
    return [] if good else [f"on a terminal: {shown!r}"]


# Stand for rt and rattle in a kit. Each tells of a call and builds an archive.
STAND_FOR_KIT = {"rt": """#!/bin/sh
[ "$1" = version ] && echo "a kit" && exit
echo "rt $1" >> "$CALLS"
mkdir -p out
echo archive > out/libboard_ffi.a
""", "rattle": """#!/bin/sh
echo "rattle $1" >> "$CALLS"
for word; do last=$word; done
[ ! -e "$FAILS" ] || exit 1
echo archive > "$last"
"""}


def over_gate():
    """The library for C after a gate, in a scratch folder with stand-ins for rt and rattle: it is built over what the gate left, by
    rattle alone, and by rt where a source changed since, a crate lacks its library, or rattle fails."""
    wrong = []
    with tempfile.TemporaryDirectory() as name:
        folder = pathlib.Path(name)
        scratch(folder)
        calls, fails = folder / "calls", folder / "fails"
        (folder / "kit/bin").mkdir(parents=True)
        for tool, text in STAND_FOR_KIT.items():
            (folder / "kit/bin" / tool).write_text(text)
            (folder / "kit/bin" / tool).chmod(0o755)
        around = dict(os.environ, PATH=f"{folder}/kit/bin:{folder}/others", CALLS=str(calls), FAILS=str(fails))

        def built(change):
            """The status and the calls that the library takes after a change of what the gate left."""
            shutil.rmtree(folder / "crates", ignore_errors=True)
            subprocess.run([sys.executable, "-c", LEAVE], cwd=folder / "packaging", check=True)
            calls.write_text("")
            change()
            ran = subprocess.run(["packaging/progress", "board_ffi", "the library", f"{folder}/log", "lib"], cwd=folder, env=around, capture_output=True)
            return ran.returncode, calls.read_text().split("\n")[:-1]

        board = folder / "crates/board"
        for what, change, expected in (("as the gate left it", lambda: None, ["rattle build"]),
                                       ("after a change", lambda: (board / "src/lib.rt").write_text("changed"), ["rt lib"]),
                                       ("without a library", lambda: (board / "out/board.library").unlink(), ["rt lib"]),
                                       ("with another library", lambda: (board / "out/rlib/board.rlib/format").write_text("other"), ["rt lib"]),
                                       ("where rattle fails", fails.touch, ["rattle build", "rt lib"])):
            found = built(change)
            wrong += [] if found == (0, expected) else [f"{what}: {found}"]
    return not wrong, wrong or ["it is proved alone after a gate, and with what it stands on after a change"]


# What a gate leaves of each crate that passed, run in packaging.
LEAVE = """
import over_gate, proving
for crate in proving.uses():
    for path in (proving.TOP / "crates" / crate / "src/lib.rt", over_gate.library(crate) / "format"):
        path.parent.mkdir(parents=True)
        path.write_text(crate)
over_gate.note(proving.uses())
"""


# Stands for what is built, as a program and as a library.
STANDS_FOR_BUILT = "int main(void) { return 0; }\n"
NUMBERED = "-Wl,--build-id=sha1"
STAND_INS = {"vreplay": [NUMBERED], "vshow": [NUMBERED], "kalyubos-vhost": [NUMBERED], "libkalyubos.so": [NUMBERED, "-shared", "-fPIC"], "libkalyubos.a": ["-c"]}


def release():
    """The archive and the packages, of stand-ins for what is built: each comes out twice the same, and its links lead to its pages."""
    if not shutil.which("git") or not (TOP / ".git").exists():
        return True, ["not tried: no checkout of git"]
    if not shutil.which(COMPILER) or not shutil.which("objcopy"):
        return True, [f"not tried: no {COMPILER} or objcopy"]
    with tempfile.TemporaryDirectory() as folder:
        for name, flags in STAND_INS.items():
            subprocess.run([COMPILER, "-x", "c", *flags, "-o", f"{folder}/{name}", "-"], input=STANDS_FOR_BUILT, text=True, check=True)
        good, said = script(TOP / "packaging/release", "check", "--built", folder, "--level", "1")
        number = spelled(re.search(VERSIONS["README.md"][0], (TOP / "README.md").read_text(encoding="utf-8"), re.MULTILINE)[1])
        pathlib.Path(folder, "vreplay").write_text(f"stands for {number}-unproved\n")
        is_packed, refused = script(TOP / "packaging/release", "dist", "--built", folder, "--out", folder)
    return good and not is_packed, said + ([refused[-1]] if is_packed else [])



def options_in(text):
    """The options that a text of --help lists, each at the beginning of its line."""
    return {it for line in re.findall(r"^  (-.*?)(?:  |$)", text, re.MULTILINE) for it in re.findall(r"(?<![\w-])--?(?:[A-Za-z][\w-]*)?(?= |,|$)", line)}


def help_of(program):
    """What a program says by --help: those in Rattle by their source, those in Python by a call."""
    if program == "kalyubos-vhost":
        text = "".join(re.findall(r'"(.*)"', re.search(r"HELP\[\] =(.*?);\n", (TOP / "vhost/options.c").read_text(encoding="utf-8"), re.DOTALL)[1]))
        return text.replace("\\n", "\n")
    if program.startswith("kalyubos-"):
        return called(TOP / "crates/conformance" / program.removeprefix("kalyubos-"), "--help").stdout
    source = (TOP / "crates" / {"vshow": "show"}.get(program, program) / "src/program.rt").read_text(encoding="utf-8")
    return re.search(r'^const HELP: &str =\s*"(.*?)";', source, re.MULTILINE | re.DOTALL)[1]


def manuals():
    """That each page for man has the options of its program's --help and no other, and that mandoc finds no fault in it."""
    found, wrong = 0, []
    for path in sorted([*(TOP / "packaging/man").glob("*.1"), TOP / "vhost/kalyubos-vhost.1"]):
        text = path.read_text(encoding="utf-8")
        tags = "\n".join(re.findall(r"^\.TP\n(.*)", text, re.MULTILINE)).replace("\\-", "-")
        said, told = set(re.findall(r'(?<![\w-])--?(?:[A-Za-z][\w-]*)?(?=[ ",]|$)', tags, re.MULTILINE)), options_in(help_of(path.stem))
        found += len(told)
        wrong += [f"{path.name}: {it} is {'not in --help' if it in said else 'missing'}" for it in sorted(said ^ told)]
        if shutil.which("mandoc"):
            page = text.replace("@DATE@", "2026-01-01").replace("@VERSION@", "0")
            wrong += [f"{path.name}: {line}" for line in called("mandoc", "-Tlint", "-Wstyle", input=page).stdout.splitlines()]
    return not wrong, wrong or [f"{found} options, each of --help"]


CHECKS = {"version": version, "make run": make_run, "over gate": over_gate, "release": release, "manuals": manuals}
