"""What make check proves: the crates whose files differ from those that were proved last in this checkout, and no other."""
import os

import proving

from .common import TOP, called


def proofs():
    """rt check of each crate that changed, lowest first; and which crates above weren't proved again."""
    states, said = proving.were_checked(), []
    changed = sorted((crate for crate in states if states[crate] == proving.CHANGED), key=lambda crate: len(proving.order(crate)))
    for crate in changed:
        before = proving.sources(crate)
        ran = called("rt", "check", cwd=TOP / "crates" / crate, env={"RT_JOBS": "1", **os.environ})
        if ran.returncode:
            return False, [f"{crate} isn't proved", *(ran.stdout + ran.stderr).splitlines()[-30:]]
        if proving.sources(crate) == before:
            proving.note_checked(proving.order(crate))
        said.append(f"{crate} is proved")
    if set(states.values()) == {proving.NEVER}:
        return True, ["none made: none was made in this checkout before"]
    return True, said or ["no crate differs from what was proved in this checkout"]


def summary():
    """What was proved in this checkout, in plain words."""
    states = proving.were_checked()
    named = {state: [crate for crate in states if states[crate] == state] for state in set(states.values())}
    if set(named) == {proving.NEVER}:
        yield "No crate was ever proved in this checkout, so none was proved now: a first proof of all takes an hour, by make test."
        return
    for state, words in ((proving.CHANGED, "They changed, and aren't proved"), (proving.BELOW, "Crates below them changed, and they were not proved again"),
                         (proving.NEVER, "Never proved in this checkout")):
        if state in named:
            yield f"{words}: {', '.join(named[state])}."
    yield "make test proves all." if set(named) != {proving.PROVED} else "Each crate is as it was proved in this checkout."


CHECKS = {"proofs": proofs}
