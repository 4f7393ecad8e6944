"""The pages of the matrix: the list that the tools read, and MATRIX.md, which says where each field and bit is shown."""
import fnmatch
import os
import re

ROWS_HEAD = """# Worked scenarios

What guests do, and what a virtio-mmio board answers, worked out by hand. `matrix/make` makes the files and this list from
[the rows](../rows/README.md).
"""

LIST_HEAD = """# The matrix

Scenarios that `matrix/make` makes from the tables of [matrix](../../matrix), in the form of
[the worked ones](../rows/README.md#what-a-pair-is). [MATRIX.md](../MATRIX.md) says which field, bit, position and end each
shows. Nothing here is written by hand.
"""

LARGE_HEAD = """# Large disks

Scenarios of [the matrix](../MATRIX.md) whose image is too large to be written out: **NAME.before** has `zeros N`, the number of its
sectors, each of zeros. Nothing here is written by hand.
"""

MATRIX_HEAD = """# The matrix of fields, positions, orders and ends

Where each bit of each number that a guest or a trace gives decides alone, and each end, position, order of checks and later round is met.
`matrix/make` makes this page and the scenarios, in `data/matrix`; [matrix](../matrix) has the tables.

A row shows each thing of its first column in each case of its second. `*` stands for any text, and a pattern fits no other scenario:
`run-on --only PATTERN` runs those that it names.
"""


def listed(folders, head):
    """The page of data/matrix or of data/large: folders with their sentences, and the names and sentences of their scenarios."""
    parts = ["\n\n".join(filter(None, (f"\n## {folder}", sentence, "\n".join(map(named, scenarios))))) + "\n"
             for folder, sentence, scenarios in folders]
    return head + "".join(parts)


def named(scenario):
    """A scenario's line in a list."""
    return ": ".join(filter(None, (f"- `{scenario[0]}`", scenario[1])))


def part_of(table, stories):
    """The part of MATRIX.md of a table: a row for each field, or of what is no field one for all that is shown alike."""
    found = {}
    for story in stories:
        for shown in story.shows:
            found.setdefault(shown, []).append(story.name)
    rows = [((field,), (bits,), names) for (field, bits), names in found.items()]
    if hasattr(table, "COLUMNS"):
        rows = joined(joined(rows, 0), 1)
    names = {story.name for story in stories}
    columns = " | ".join(getattr(table, "COLUMNS", ("Field", "Bits")))
    text = f"\n## {table.TITLE}\n\n{table.HOW}\n\n| {columns} | Shown in |\n|---|---|---|\n"
    text += "".join(f"| {together(fields)} | {together(bits)} | {grouped(shown, names - set(shown))} |\n" for fields, bits, shown in rows)
    return text + "".join(f"| {field} | {bits} | {why} |\n" for field, bits, why in getattr(table, "UNSEEN", ()))


def joined(rows, column):
    """The rows, those of one value in a column as one, which has what they have in the other column."""
    found = {}
    for row in rows:
        found.setdefault(row[column], []).append(row)
    both = ((value, tuple(one for row in alike for one in row[1 - column]), [name for row in alike for name in row[2]])
            for value, alike in found.items())
    return [(value, others, names) if column == 0 else (others, value, names) for value, others, names in both]


def together(values):
    """The values of a cell; those with a comma are kept apart by another sign."""
    return ("; " if len(values) > 1 and any("," in value for value in values) else ", ").join(values)


def grouped(names, others):
    """Patterns that fit the names, and none of the others."""
    found = []
    for name in dict.fromkeys(names):
        if any(fnmatch.fnmatchcase(name, one) for one in found):
            continue
        wider = ((at, it) for at, one in enumerate(found) for it in widened(one, name) if not fnmatch.filter(others, it))
        at, pattern = next(wider, (len(found), name))
        found[at:at + 1] = [pattern]
    return ", ".join(f"`{one}`" for one in found if not any(fnmatch.fnmatchcase(one, it) for it in found if it != one))


def widened(pattern, name):
    """Patterns that fit both: with a star for the one or two words that differ, and for all between the first and the last that do."""
    ours, theirs = (re.split(r"(?<=[_/])|(?=[_/])", one) for one in (pattern, name))
    if len(ours) == len(theirs):
        differ = [one != other for one, other in zip(ours, theirs)]
        if sum(differ) <= 2 and not differ[0]:
            yield "".join("*" if is_other else one for one, is_other in zip(ours, differ)).replace("*_*", "*")
    first = os.path.commonprefix([ours, theirs])
    ours, theirs = ours[len(first):], theirs[len(first):]
    last = os.path.commonprefix([ours[::-1], theirs[::-1]])[::-1]
    if last and last[0] not in "_/":
        del last[0]
    if first:
        yield "".join(first + ["*"] + last)
