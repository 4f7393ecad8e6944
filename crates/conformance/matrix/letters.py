"""Each place of each line of a trace: a hexadecimal letter in upper case, a tab, a blank."""
from trace_text import EXTENDED

from .spellings import FAULTS
from .story import OneLine

TITLE = "Letters, tabs and blanks"
HOW = ("Each line that a trace of any format has is written out with letters in all of its numbers. Letters are in upper case, each alone; a tab stands for "
       "each blank, before, behind or within each field; a blank at the end. One of these is in the trace, and it is a fault.")
COLUMNS = ("What", "Where")
FOLDERS = {"bits_letters": "One letter of a line in upper case, or one tab or blank too many."}

IDENTITY = ("identity", "abcdef0123456789fedcbaabcdefabcdefabcdef")
NUMBER = (64, "abcdefabcdefabcd")
# The fields of each line: their kinds, or how many bits a number may have, and a right spelling with letters.
OF_SLOT = [(64, "a0000000"), (64, "abcdef000"), (64, "fedcba"), (64, "cafe"), ("mode", "rw"), (16, "abcd"), (16, "efab")]
LINES = [
    ("vreplay 1", "cache", [(32, "abcdefab")], 2), ("vreplay 1", "slot", OF_SLOT, 3), ("vreplay 2", "slot", [*OF_SLOT, IDENTITY], 3),
    ("vreplay 1", "r", [(8, "ab"), ("win", "b"), ("off", "abc"), ("wid", "4")], 4),
    ("vreplay 1", "w", [(8, "cd"), ("win", "c"), ("off", "def"), ("wid", "1"), ("val", "ef")], 4),
    ("vreplay 1", "w", [(8, "ef"), ("win", "c"), ("off", "fab"), ("wid", "2"), ("val", "abcd")], 4),
    ("vreplay 1", "w", [(8, "fa"), ("win", "c"), ("off", "cde"), ("wid", "4"), ("val", "efabcdef")], 4),
    ("vreplay 1", "mr", [(8, "bc"), NUMBER, (32, "fedcbafe")], 4), ("vreplay 1", "mw", [(8, "de"), NUMBER, ("bytes", "abcdeffedcba")], 4),
    ("vreplay 1", "in", [(8, "af"), ("bytes", "fedcbaabcdef")], 4), ("vreplay 1", "sz", [(8, "eb"), (16, "fedc"), (16, "baba")], 4),
    (EXTENDED, "slot", [("regions", "abcdef000+def000,fedcba9000+fedcb000"), ("disk", "image+abcdefabcdefabcd"), *OF_SLOT[2:], IDENTITY], 3),
    (EXTENDED, "slot", [("regions", "fab000+cde000"), ("disk", "host:af"), *OF_SLOT[2:], IDENTITY], 3),
    (EXTENDED, "st", [(8, "fe"), ("bytes", "abcdef")], 4), (EXTENDED, "io", [(8, "ab"), (8, "ef"), ("verdict", "done")], 4),
    (EXTENDED, "drop", [(8, "cd")], 4), (EXTENDED, "hold", [(8, "ef")], 4), (EXTENDED, "release", [(8, "fa")], 4),
    (EXTENDED, "plug", [(8, "ab"), (8, "cd"), ("kind", "entropy")], 4),
    (EXTENDED, "plug", [(8, "ef"), (8, "fa"), ("kind", "network:abcdeffedcba:efab")], 4),
    (EXTENDED, "plug", [(8, "bc"), (8, "de"), ("kind", "console:abcd:efab")], 4),
    (EXTENDED, "plug", [(8, "ad"), (8, "be"), ("kind", "disk"), NUMBER, ("mode", "ro"), IDENTITY, (8, "cf")], 4),
    (EXTENDED, "plug", [(8, "fd"), (8, "eb"), ("kind", "image"), NUMBER, (64, "fedcbafedcbafedc"), ("mode", "rw"), IDENTITY], 4),
    (EXTENDED, "dr", [(8, "ab"), (8, "cd"), ("off", "efa"), ("wid", "2")], 4),
    (EXTENDED, "dw", [(8, "ba"), (8, "dc"), ("off", "fed"), ("wid", "4"), ("val", "abcdefab")], 4),
    (EXTENDED, "supply", [(8, "ac"), (8, "ce"), ("bytes", "abcdef")], 4), (EXTENDED, "frame", [(8, "bd"), (8, "df"), ("bytes", "fedcba")], 4),
    (EXTENDED, "take", [(8, "ae"), (8, "cb")], 4), (EXTENDED, "dsent", [(8, "bf"), (8, "da")], 4), (EXTENDED, "link", [(8, "ca"), (8, "ea"), ("link", "up")], 4),
    (EXTENDED, "dsz", [(8, "db"), (8, "fc"), (16, "abcd"), (16, "fedc")], 4),
    (EXTENDED, "dio", [(8, "ed"), (8, "ac"), (8, "bf"), ("verdict", "failed")], 4),
    (EXTENDED, "ddrop", [(8, "fb"), (8, "ad")], 4), (EXTENDED, "dhold", [(8, "ec"), (8, "ba")], 4), (EXTENDED, "drelease", [(8, "ce"), (8, "fd")], 4),
]
KINDS = FAULTS | {"regions": "Number", "kind": "Choice", "verdict": "Choice", "link": "Choice"}


def stories():
    seen, kinds = {}, set()
    for first, word, fields, number in LINES:
        seen[word] = seen.get(word, 0) + 1
        name = word if seen[word] == 1 else f"{word}_{seen[word]}"
        yield from in_upper_case(first, word, name, fields, number, kinds)
        yield from with_tabs(first, word, name, fields, number)
    for version in ("vreplay 1", "vreplay 2", EXTENDED):
        for how, line in (("a_blank_at_its_end", f"{version} "), ("a_tab_at_its_end", f"{version}\t"), ("a_tab_for_its_blank", version.replace(" ", "\t")),
                          ("a_tab_before_it", f"\t{version}"), ("two_blanks", version.replace(" ", "  "))):
            yield OneLine(f"bits_letters/line_1_{version.replace(' ', '_')}_with_{how}", f"Line 1 with {how.replace('_', ' ')} is a fault.", line, 1, line, "Header",
                       ("line 1", "tabs and blanks"))


def lined(word, fields, place, spelled):
    """The line with another spelling of one field."""
    return " ".join([word, *(spelled if at == place else right for at, (_, right) in enumerate(fields))])


def in_upper_case(first, word, name, fields, number, kinds):
    """Each letter of a number or of bytes, alone; of a kind of field that stood in another line before, the first letter, the middle one and the last."""
    for place, (kind, right) in enumerate(fields):
        if kind in ("mode", "win", "wid", "verdict", "link") or right in ("entropy", "disk", "image"):
            continue
        begins = max(right.find(mark) for mark in ":+") + 1 if kind == "disk" else right.find(":") + 1 if kind == "kind" else 0
        letters = [at for at, letter in enumerate(right) if at >= begins and letter in "abcdef"]
        known = (kind, len(right)) in kinds and kind not in ("kind", "disk")
        for at in sorted({letters[0], letters[len(letters) // 2], letters[-1]}) if known else letters:
            spelled = right[:at] + right[at].upper() + right[at + 1:]
            yield OneLine(f"bits_letters/field_{place + 1}_of_{name}_with_{right[at]}_as_letter_{at + 1}", f"Letter {at + 1} of field {place + 1} of a line `{word}` is in upper case: that is a fault.",
                       first, number, lined(word, fields, place, spelled), KINDS.get(kind, "Number"), (f"letters of `{word}`", "each in upper case, alone"))
        kinds.add((kind, len(right)))


def with_tabs(first, word, name, fields, number):
    """Tabs and blanks at each place between fields and in them."""
    what = (f"places of `{word}`", "tabs and blanks")
    right = lined(word, fields, -1, "")
    for how, line, fault in (("a_blank_at_its_end", f"{right} ", "Fields"), ("a_tab_before_it", f"\t{right}", "Word"), ("a_tab_behind_its_word", right.replace(" ", "\t ", 1), "Word"),
                             ("a_tab_for_its_first_blank", right.replace(" ", "\t", 1), "Word"), ("two_blanks_behind_its_word", right.replace(" ", "  ", 1), "Fields"),
                             ("a_tab_in_a_field_of_its_own", f"{right} \t", "Fields")):
        yield OneLine(f"bits_letters/{name}_with_{how}", f"A line `{word}` with {how.replace('_', ' ')} is a fault.", first, number, line, fault, what)
    for place, (kind, spelled) in enumerate(fields):
        # The kind of a device says how many fields there are.
        fault = "Fields" if spelled in ("disk", "image") else KINDS.get(kind, "Number")
        tabs = (("before", f"\t{spelled}"), ("behind", f"{spelled}\t"), ("within", f"{spelled[:len(spelled) // 2]}\t{spelled[len(spelled) // 2:]}"))
        for turn, (how, wrong) in enumerate(tabs):
            if (place + len(right)) % 3 == turn or place == len(fields) - 1:
                yield OneLine(f"bits_letters/{name}_with_a_tab_{how}_field_{place + 1}", f"A line `{word}` with a tab {how} field {place + 1} is a fault.", first, number,
                           lined(word, fields, place, wrong), fault, what)
        if place:
            cut = " ".join([word, *(one for _, one in fields[:place])]) + "\t" + " ".join(one for _, one in fields[place:])
            yield OneLine(f"bits_letters/{name}_with_a_tab_for_the_blank_before_field_{place + 1}", f"A line `{word}` with a tab for the blank before field {place + 1} is a fault.", first, number,
                       cut, "Fields", what)
