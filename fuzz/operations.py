"""What the records of a hosted trace say of operations, judged by the records alone."""
import re

NUM = "(?:0|[1-9a-f][0-9a-f]*)"
ASKED = re.compile(f"({NUM})=(in|out|out-stable|flush|zeroes|zeroes-stable):({NUM}):({NUM}):(-|{NUM}[+]{NUM}(?:,{NUM}[+]{NUM})*)")
NOTIFY, WAITING = 0x050, (0x044, 0x070)
MOST_RUNS = 256
# The byte of a snapshot that says whether the slot is held.
HELD = 61
# The most bytes that a further disk may have.
UNBOUNDED = 1 << 64


class Wrong(Exception):
    """A record that can't be."""


def without_operations(slot, depth, events, records, is_sane):
    """A guest's records without their sixth fields, which are judged; and how many operations began."""
    plain, count, taken, held = [], 0, set(), False
    for number, (event, record) in enumerate(zip(events, records)):
        rest, _, asked = record.rpartition(" ")
        reply = rest.partition(" ")[0]
        try:
            asked = without_further(slot, event, asked, is_sane)
            check_reply(event, reply, taken, held)
            if (event.word, reply) == ("io", "done"):
                taken.discard(event.line()["tag"])
            if (event.word, reply) == ("drop", "done"):
                taken.clear()
            held = held_after(event, reply, held)
            began = [check_operation(slot, one, 512 * slot.count) for one in asked.split(";")] if asked != "-" else []
            check_asking(event, reply, began, held, [tag for tag in range(depth) if tag not in taken])
        except Wrong as wrong:
            raise Wrong(f"event {number}, {' '.join(event)}"[:120] + f": {record[:100]}: {wrong}") from None
        taken.update(began)
        count += len(began)
        plain.append(rest)
    return plain, count


def without_further(slot, event, asked, is_sane):
    """What began of a slot's own disk. What began of its further ones stands behind it; a sane driver knows all of that."""
    began = [] if asked == "-" else asked.split(";")
    own = [one for one in began if "/" not in one]
    further = [one for one in began if "/" in one]
    if began != own + further:
        raise Wrong("the slot's own disk comes first")
    if is_sane and ";".join(further) != event.begins:
        raise Wrong(f"of further disks {event.begins or '-'} begins")
    for one in further:
        check_operation(slot, one.partition("/")[2], UNBOUNDED)
    return ";".join(own) or "-"


def held_after(event, reply, held):
    """Whether the slot is held behind an event."""
    if (event.word, reply) == ("st", "done"):
        return event.line()["content"][HELD] == 1
    return event.word == "hold" or held and event.word != "release"


def check_reply(event, reply, taken, held):
    """What the host says is idle just where there is nothing to do, and just those writes wait that must."""
    there_is = {"io": lambda: event.line()["tag"] in taken, "drop": lambda: bool(taken), "hold": lambda: not held, "release": lambda: held}
    if event.word in there_is and reply != ("done" if there_is[event.word]() else "idle"):
        raise Wrong(f"in flight are {sorted(taken)}, and it is {'held' if held else 'not held'}")
    waits = bool(taken) and (event.word == "st" or event.writes("b", *WAITING))
    if (reply == "busy") != waits and event.word != "dw":
        raise Wrong(f"it should wait: {waits}")


def check_asking(event, reply, began, held, free):
    """Operations begin with a notify, a completion or a release, none while the slot is held, and take the lowest free tags."""
    notifies = event.writes("b", NOTIFY) and event.line()["width"] == 4
    begins = notifies or (event.word, reply) in (("io", "done"), ("release", "done"))
    if began and (held or not begins):
        raise Wrong("no operation begins here")
    if began != free[:len(began)]:
        raise Wrong(f"the free tags are {free[:5]} ..")


def check_operation(slot, asked, capacity):
    """Its tag. An operation lies inside the guest's memory and its disk, which has so many bytes."""
    match = ASKED.fullmatch(asked)
    if not match:
        raise Wrong("no operation is spelled so")
    kind, start, length = match[2].partition("-")[0], int(match[3], 16), int(match[4], 16)
    runs = [] if match[5] == "-" else [tuple(int(part, 16) for part in run.split("+")) for run in match[5].split(",")]
    ranges = [(0, capacity)] if kind == "zeroes" else slot.regions()
    if len(runs) > MOST_RUNS or any(count == 0 or not any(first <= at and at + count <= first + size for first, size in ranges)
                                    for at, count in runs):
        raise Wrong("a run is empty or outside")
    moved = sum(count for _, count in runs) if kind in ("in", "out") else 0
    if length != moved or start + length > capacity or start % 512 or length % 512 or kind == "flush" and (start or runs):
        raise Wrong("its start, length and runs don't fit")
    return int(match[1], 16)
