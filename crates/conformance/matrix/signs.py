"""Numbers with a prefix or a sign, and long fields of bytes that are wrong at their end, in each line that has one."""
from trace_text import EXTENDED

from .spellings import LINES, NUMBERS, SLOT
from .story import OneLine

TITLE = "Prefixes, signs and long fields"
HOW = ("A number has a prefix, a sign, or another mark that a library's reader of numbers takes: that is Number, in a "
       "width Choice. A long field of bytes has a digit too few or too many, or one that is none at its end: Bytes.")
COLUMNS = ("What", "Where")
FOLDERS = {"bits_signs": "Numbers with a prefix or a sign.",
           "bits_long_fields": "Long fields of bytes that are wrong at their end."}

IDENTITY = ("identity", "6469736b2d62" + "00" * 14)
# The lines that version 2 and an extended trace have otherwise than version 1.
SLOT_OF_VERSION_2 = {"slot_of_version_2": [*SLOT, IDENTITY]}
EXTENDED_LINES = {"slot_of_an_extended_trace": [("regions", "80000000+10000"), ("disk", "image"), *SLOT[2:], IDENTITY],
                  "st": [(8, "0"), ("bytes", "aabb")], "io": [(8, "0"), (8, "0")],
                  "drop": [(8, "0")], "hold": [(8, "0")], "release": [(8, "0")]}
VERDICT = "done"

# What stands before, in or behind a number that is right but for that.
MARKED = {"with_a_prefix": "0x{}", "with_a_prefix_in_upper_case": "0X{}", "with_a_plus": "+{}", "with_a_minus": "-{}",
          "with_a_tab_before_it": "\t{}", "with_a_suffix": "{}h", "with_an_underscore": "{}_0", "with_a_point": "{}.0"}
# And of a field with so many digits, as many with a mark among them.
WITHIN = {"with_a_prefix_among_its_digits": "0x", "with_a_plus_for_a_digit": "+", "with_a_minus_for_a_digit": "-",
          "with_a_tab_for_a_digit": "\t"}

# How many bytes a long field has, and how it ends.
COUNTS = (9, 17, 65, 257, 4097)
ENDS = {"a_digit_too_few": lambda right: right[:-1], "a_digit_too_many": lambda right: right + "0",
        "a_capital_as_its_last_digit": lambda right: right[:-1] + "F",
        "a_capital_as_its_last_but_one": lambda right: right[:-2] + "A" + right[-1],
        "another_letter_as_its_last_digit": lambda right: right[:-1] + "g"}


def stories():
    for first, name, fields in lines():
        for place, (kind, right) in enumerate(fields):
            for how, spelled in marked(kind, right).items():
                yield of_field(first, name, fields, place, how, spelled, "Choice" if kind == "wid" else "Number")
    for version in ("0x1", "+1", "-1", "1h", "0x2", "+2"):
        yield first_line(f"vreplay {version}")
    yield from (first_line(f"kalyubos {version}") for version in ("0x1", "+1"))
    yield from regions()
    yield from long_fields()


def lines():
    """The lines of each format, with their fields."""
    plain = {name: fields for name, fields in LINES.items() if name not in SLOT_OF_VERSION_2}
    for first, there in (("vreplay 1", plain), ("vreplay 2", SLOT_OF_VERSION_2), (EXTENDED, EXTENDED_LINES)):
        yield from ((first, name, fields) for name, fields in there.items())


def marked(kind, right):
    """The wrong spellings of a number, each with its name."""
    if kind == "wid":
        return {how: MARKED[how].format(right) for how in ("with_a_prefix", "with_a_plus", "with_a_minus")}
    if kind in ("off", "val"):
        within = {how: mark + right[len(mark):] for how, mark in WITHIN.items() if len(mark) <= len(right)}
        return {**within, "with_a_prefix": "0x" + right, "with_a_plus": "+" + right, "with_a_minus": "-" + right}
    return {how: mark.format(right) for how, mark in MARKED.items()} if isinstance(kind, int) else {}


def of_field(first, name, fields, place, how, spelled, fault, folder="bits_signs"):
    """A trace of which one field of one line is spelled wrong."""
    word = name.split("_")[0]
    texts = [spelled if at == place else one for at, (_, one) in enumerate(fields)] + [VERDICT] * (word == "io")
    about = f"Field {place + 1} of a line `{word}` {how.replace('_', ' ')} is a fault."
    is_long = folder == "bits_long_fields"
    what = (f"long bytes of `{word}`", "each wrong end") if is_long else (f"each number of `{word}`", "each mark")
    return OneLine(f"{folder}/field_{place + 1}_of_{name}_{how}", about, first, NUMBERS.get(word, 4),
                " ".join([word, *texts]), fault, what)


def first_line(line):
    name = line.replace(" ", "_").replace("+", "plus_").replace("-", "minus_")
    return OneLine(f"bits_signs/line_1_of_{name}", f"Line 1 is `{line}`: that is a fault.", line, 1, line, "Header",
                ("the version in line 1", "each mark"))


def regions():
    """The regions of an extended slot line: a base or a length of the first or the second."""
    rest = " ".join(["image", *(one for _, one in [*SLOT[2:], IDENTITY])])
    for place, what in enumerate(("first_base", "first_length", "second_base", "second_length")):
        for how, mark in MARKED.items():
            numbers = ["80000000", "10000", "90000000", "10000"]
            numbers[place] = mark.format(numbers[place])
            line = "slot {}+{},{}+{} ".format(*numbers) + rest
            about = f"The {what.replace('_', ' ')} of two regions {how.replace('_', ' ')} is a fault."
            yield OneLine(f"bits_signs/{what}_of_slot_{how}", about, EXTENDED, 3, line, "Number",
                       ("each number of the regions of `slot`", "each mark"))


def long_fields():
    for first, name, fields in lines():
        for count in COUNTS if name in ("mw", "in", "st") else ():
            right = bytes(0xa0 + at % 0x50 for at in range(count)).hex()
            for how, end in ENDS.items():
                yield of_field(first, name, fields, len(fields) - 1, f"of_{count}_bytes_with_{how}", end(right),
                               "Bytes", "bits_long_fields")
        for how, spelled in identities(IDENTITY[1]).items() if IDENTITY in fields else ():
            yield of_field(first, name, fields, len(fields) - 1, how, spelled, "Bytes", "bits_long_fields")


def identities(right):
    """Identities that are wrong at their end, or whose forty digits have a prefix or a sign among them."""
    found = {f"with_{how}": end(right) for how, end in ENDS.items()}
    return {**found, "with_a_prefix_among_its_digits": "0x" + right[2:], "with_a_plus_for_a_digit": "+" + right[1:],
            "with_a_prefix": "0x" + right, "of_thirty_two_digits": right[:32], "of_eighty_digits": 2 * right}
