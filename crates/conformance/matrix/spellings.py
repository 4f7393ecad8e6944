"""Each field of each line of a trace, spelled wrong in each way."""
from trace_text import EXTENDED, FIRST_LINES

from .story import OneLine

TITLE = "Spellings"
HOW = "One field of one line is spelled otherwise than it may be, in a trace that is right but for that."
COLUMNS = ("What", "Where")
FOLDERS = {"bits_spellings": "A field of a line that is spelled wrong."}

# The fields of each line, each with its kind, or for a number how many bits it may have, and a right spelling.
SLOT = [(64, "80000000"), (64, "10000"), (64, "0"), (64, "8"), ("mode", "rw"), (16, "50"), (16, "19")]
LINES = {
    "cache": [(32, "8")],
    "slot": SLOT,
    "slot_of_version_2": SLOT + [("identity", "00" * 20)],
    "r": [(8, "0"), ("win", "b"), ("off", "000"), ("wid", "4")],
    "w_of_width_1": [(8, "0"), ("win", "c"), ("off", "108"), ("wid", "1"), ("val", "2e")],
    "w_of_width_2": [(8, "0"), ("win", "c"), ("off", "108"), ("wid", "2"), ("val", "002e")],
    "w_of_width_4": [(8, "0"), ("win", "c"), ("off", "108"), ("wid", "4"), ("val", "0000002e")],
    "mr": [(8, "0"), (64, "80000000"), (32, "4")],
    "mw": [(8, "0"), (64, "80000000"), ("bytes", "aabb")],
    "in": [(8, "0"), ("bytes", "aabb")],
    "sz": [(8, "0"), (16, "50"), (16, "19")],
}
FAULTS = {"mode": "Choice", "disk": "Choice", "win": "Choice", "wid": "Choice", "bytes": "Bytes", "identity": "Bytes", "off": "Number", "val": "Number"}
CHOICES = {"mode": {"in_upper_case": "RW", "cut": "r", "too_long": "rww", "that_is_none": "wo"},
           "disk": {"in_upper_case": "HOST", "with_a_capital": "Image", "cut_behind_its_third_letter": "hos", "cut": "imag", "too_long": "hosted",
                    "too_long_by_a_letter": "images", "that_is_none": "file", "of_a_number": "0"},
           "win": {"in_upper_case": "B", "too_long": "bc", "that_is_none": "d"},
           "wid": {"with_a_leading_zero": "04", "of_0": "0", "of_3": "3", "of_8": "8"}}
# The line in which each word stands: the first behind the slots, but for these.
NUMBERS = {"cache": 2, "slot": 3}


def stories():
    for name, fields in LINES.items():
        word, version = name.split("_")[0], 2 if name.endswith("version_2") else 1
        first = FIRST_LINES[version - 1]
        for place, (kind, right) in enumerate(fields):
            for how, wrong in spellings(kind, right).items():
                spelled = [wrong if at == place else one for at, (_, one) in enumerate(fields)]
                yield OneLine(f"bits_spellings/field_{place + 1}_of_{name}_{how}", f"Field {place + 1} of a line `{word}` {how.replace('_', ' ')} is a fault.",
                              first, NUMBERS.get(word, 4), " ".join([word, *spelled]), FAULTS.get(kind, "Number"),
                              (f"each field of `{word}`" + (" in version 2" if version == 2 else ""), "each spelling that is none"))
    for how, wrong in spellings("disk", "image").items():
        line = " ".join(["slot 80000000+10000", wrong, *(one for _, one in SLOT[2:]), "00" * 20])
        yield OneLine(f"bits_spellings/disk_of_slot_{how}", f"Who has the disk {how.replace('_', ' ')} is a fault.", EXTENDED, 3, line, "Choice",
                      ("who has the disk in `slot`", "each spelling that is none"))


def spellings(kind, right):
    """The wrong spellings of a field, each with its name."""
    if kind in CHOICES:
        return {**CHOICES[kind], "left_empty": ""}
    if kind in ("bytes", "identity"):
        more = {"of_a_byte_less": right[2:], "of_a_byte_more": right + "00", "of_a_dash": "-"} if kind == "identity" else {}
        return {"of_an_odd_digit": right[1:], "in_upper_case": "AA" + right[2:], "with_another_letter": "0g" + right[2:], "left_empty": "", **more}
    if kind in ("off", "val"):
        return {"with_a_digit_less": right[1:], "with_a_digit_more": "0" + right, "in_upper_case": right[:-1] + "A",
                "with_another_letter": right[:-1] + "g", "left_empty": ""}
    return {"with_a_leading_zero": "0" + right, "in_upper_case": "A", "with_another_letter": "g", "left_empty": "",
            "with_a_bit_too_many": f"{1 << kind:x}", "of_all_bits_and_one_more": f"{(2 << kind) - 1:x}"}
