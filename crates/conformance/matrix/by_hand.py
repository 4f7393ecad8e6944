"""A scenario that is worked out by hand: its lines with their records, as a table's first row has them."""
from .rows import REPEATED, spelled
from .story import Said, Story


def written_out(name, about, text, **more):
    """Each line is an event and its record with ` > ` between them; `N * ` before it has it N times, `{61*9}` is nine
    times 61."""
    story = Story(name, about, **more)
    for line in text.strip().split("\n"):
        event, _, record = spelled(line.strip()).decode().rstrip("\n").rpartition(" > ")
        many = REPEATED.match(event)
        story.lines += [many[2] if many else event] * (int(many[1]) if many else 1)
        slot, *said = record.split(" ", 3)
        story.said += [Said(int(slot, 16), *said)] * (int(many[1]) if many else 1)
    return story


def up(index=0, size=4, low=0):
    """Lines that bring a console's queue up by hand, with its areas at 80001000, 80002000 and 80003000."""
    more = ["024 4 00000000", f"020 4 {low:08x}"] if low else []
    chosen = ["030 4 00000001"] if index else []
    steps = ["070 4 00000003", "024 4 00000001", "020 4 00000001", *more, "070 4 0000000b", *chosen, f"038 4 {size:08x}",
             "080 4 80001000", "090 4 80002000", "0a0 4 80003000", "044 4 00000001", "070 4 0000000f"]
    return "\n".join(f"w 0 c {step} > 0 done - 0 0" for step in steps)
