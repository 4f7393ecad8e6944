"""Builds the library for C over what the gate left: the libraries that it proved and built from nothing, in the crates' folders.

rt builds these anew for a library of C, since the gate's hold statements alone. rattle takes them as the gate's own checks of the
crates above do, so that the crate itself is all that is proved again.
"""
import hashlib
import os
import pathlib
import shutil

import proving


def library(crate):
    """The library of a crate for those above it, a folder; its file `format` has the sums of the others."""
    return proving.TOP / "crates" / crate / "out" / "rlib" / f"{crate}.rlib"


def noted(crate):
    """The file that says of which sources the gate built the crate's library, and which it is."""
    return proving.TOP / "crates" / crate / "out" / f"{crate}.library"


def told(crate):
    """What stands for a crate's library and its sources, or None where there is no library."""
    form = library(crate) / "format"
    return f"{proving.sources(crate)} {hashlib.sha256(form.read_bytes()).hexdigest()}\n" if form.is_file() else None


def has_stamp(crate):
    """Whether rt built the library for itself: the gate's have no stamp."""
    return (library(crate).parent / "stamp").exists()


def forget():
    """Takes away what an earlier gate left, which rt ci would put back in the place of this one's."""
    for crate in proving.uses():
        if not has_stamp(crate):
            shutil.rmtree(library(crate).parent, ignore_errors=True)


def note(crates):
    """Notes the libraries of these crates that a gate built, which passed and before which all earlier ones were forgotten."""
    for crate in crates:
        if not has_stamp(crate) and told(crate):
            noted(crate).write_text(told(crate), encoding="utf-8")


def is_noted(crate):
    """Whether the crate has the library that the gate proved and built of these sources."""
    return noted(crate).is_file() and noted(crate).read_text(encoding="utf-8") == told(crate)


def is_left(crate):
    """Whether each crate below this one has the library that the gate built of these sources."""
    return all(is_noted(name) for name in proving.order(crate)[:-1])


def words(crate, kit):
    """rattle's words that prove a crate and build its static library, as rt calls it."""
    below, used = proving.order(crate)[:-1], next(tail for head, tail in proving.listed() if head[0] == crate)
    found = ["build", "--crate-name", crate, "src/lib.rt"]
    for name in ["std", *(it for it in used if it not in below)]:
        found += ["--extern", f"{name}={kit}/rlibs/{name}.rlib"]
    found += ["-L", f"dependency={kit}/rlibs"]
    for name in (it for it in used if it in below):
        found += ["--extern", f"{name}={library(name)}"]
    for name in below:
        found += ["-L", f"dependency={library(name).parent}"]
    found += ["--antt-project", f"{kit}/rattle/logic/antt-project.json", "--logic-built", f"{kit}/logic_built", "--jobs", "1"]
    return [*found, "--links", f"{crate}=", "--crate-type", "staticlib", "--toolchain", f"{kit}/toolchain", "--backend", "llvm",
            "-o", str(proving.built(crate))]


def build(crate, what, log):
    """Proves the crate and builds its static library over what the gate left, and shows how far it is. Answers the status."""
    kit = pathlib.Path(os.path.realpath(shutil.which("rt"))).parents[1]
    print(f"Building {what} over the libraries that the gate proved: {crate} alone is proved again, in some minutes. "
          f"What rattle says is in {proving.shown(log)}.", flush=True)
    proving.built(crate).parent.mkdir(parents=True, exist_ok=True)
    display, proved_from = proving.Display(), proving.sources(crate)
    status = proving.run([kit / "bin/rattle", *words(crate, kit)], proving.TOP / "crates" / crate, log, lambda _: None,
                         lambda: display.show(f"proving {crate}"))
    display.end()
    if status:
        proving.tell_end(log)
    else:
        proving.note(crate, proved_from)
        print(f"Proved and built: {what}, {proving.minutes(display.start)}.", flush=True)
    return status
