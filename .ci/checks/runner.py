"""Runs checks by name, some at once, and prints a line for each with its time."""
import argparse
import concurrent.futures
import os
import sys
import time
import traceback

FAILED = "FAILED: "

# So many lines are shown of one check.
SHOWN = 60


def run(checks, after=None, jobs=1):
    """Runs checks, each once those that it stands on are done: `after` names these. Prints each as it ends, and answers the names
    of those that failed."""
    after, waiting, running, done, failed = after or {}, dict(checks), {}, set(), []
    with concurrent.futures.ThreadPoolExecutor(jobs) as pool:
        while waiting or running:
            for name in [name for name in waiting if not set(after.get(name, ())) & (set(waiting) | set(running.values()))]:
                broken = [it for it in after.get(name, ()) if it in failed]
                check = waiting.pop(name)
                running[pool.submit(timed, untried(broken) if broken else check)] = name
            for ended in concurrent.futures.wait(running, return_when=concurrent.futures.FIRST_COMPLETED).done:
                name = running.pop(ended)
                good, lines, seconds = ended.result()
                if not good:
                    failed.append(name)
                lines = lines[:SHOWN] + [f"and {len(lines) - SHOWN} lines more"] * (len(lines) > SHOWN)
                print(f"{name} ({seconds:.1f} s): {'' if good else FAILED}" + "\n  ".join(lines), flush=True)
    return failed


def with_needed(names, after):
    """These checks and those that they stand on."""
    return {*names, *(it for name in names for it in after.get(name, ()))}


def untried(broken):
    """Stands for a check that can't be made."""
    return lambda: (False, [f"not tried: {', '.join(broken)} failed"])


def timed(check):
    """What a check says, and how many seconds it took."""
    began = time.monotonic()
    try:
        good, lines = check()
    except Exception:  # a check that breaks off is one that fails, and the others go on
        good, lines = False, traceback.format_exc().splitlines()
    return good, lines, time.monotonic() - began


def processors():
    return len(os.sched_getaffinity(0))


def options_of(text, checks, more=None):
    """The words of a call: the names of the checks to make, in `chosen`. `more` adds words of its own."""
    parser = argparse.ArgumentParser(description=text, formatter_class=argparse.RawDescriptionHelpFormatter)
    parser.add_argument("names", nargs="*", metavar="NAME", help="the checks to make; all")
    parser.add_argument("--only", action="append", default=[], metavar="NAME", help="the same")
    parser.add_argument("--list", action="store_true", help="name the checks, and make none")
    parser.add_argument("--jobs", type=int, default=processors(), metavar="N", help="so many at once; as many as there are processors")
    if more:
        more(parser)
    words = parser.parse_args()
    if words.list:
        print(*checks, sep="\n")
        sys.exit(0)
    words.chosen = words.names + words.only or list(checks)
    unknown = [name for name in words.chosen if name not in checks]
    if unknown:
        print(f"no such check: {', '.join(unknown)}. There are: {', '.join(checks)}", file=sys.stderr)
        sys.exit(2)
    return words
