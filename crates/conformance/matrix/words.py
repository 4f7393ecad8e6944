"""The word of each line, spelled otherwise, with another mark beside it; and fields of many bytes."""
from trace_text import FIRST

from .spellings import LINES, NUMBERS
from .story import BASE, OneLine, Slot, Story

TITLE = "Words and marks"
HOW = ("A mark that another format would allow stands behind the word of a line, before it, behind its last field or in the place of a space; "
       "or the word is cut, doubled, or in upper case. Each is a fault. Fields of up to 2^17 + 1 bytes are none.")
COLUMNS = ("What", "Where")
FOLDERS = {"bits_words": "Words that are spelled wrong, marks beside them, and fields of many bytes."}

MARKS = {"colon": ":", "comma": ",", "semicolon": ";", "dot": ".", "equals": "=", "hash": "#", "dash": "-", "slash": "/", "tab": "\t",
         "quote": '"', "zero": "0", "underscore": "_"}
WORDS = {name.split("_of_")[0]: fields for name, fields in LINES.items() if name not in ("w_of_width_1", "w_of_width_2", "slot_of_version_2")}
FAMILIAR = {"r": "read", "w": "write", "mr": "memread", "mw": "memwrite", "in": "input", "sz": "size", "slot": "guest", "cache": "capacity"}
LONG = (1 << 16) + 1


def stories():
    for at, (word, fields) in enumerate(WORDS.items()):
        right = " ".join(one for _, one in fields)
        for mark, spelled in MARKS.items():
            yield marked(word, f"{mark}_behind", f"{word}{spelled} {right}", "Word", mark)
        for mark in list(MARKS)[at % 3::3]:
            yield marked(word, f"{mark}_before", f"{MARKS[mark]}{word} {right}", "Word", mark)
            yield marked(word, f"{mark}_for_the_space_behind", f"{word}{MARKS[mark]}{right}", "Word", mark)
            yield marked(word, f"{mark}_in_a_field_of_its_own_behind", f"{word} {right} {MARKS[mark]}", "Fields", mark)
        yield from spelled_words(word, right)
    for mark, spelled in MARKS.items():
        yield first_line(f"a_{mark}_behind_its_word", f"vreplay{spelled} 1", mark)
        yield first_line(f"a_{mark}_behind_its_version", f"vreplay 1{spelled}", mark)
    yield many_bytes()


def article(name):
    return ("an_" if name[0] in "aeiou" else "a_") + name


def marked(word, how, line, fault, mark):
    about = f"{article(how).replace('_', ' ')} the word `{word}` is a fault."
    return OneLine(f"bits_words/{article(how)}_{word}", about[0].upper() + about[1:], FIRST, NUMBERS.get(word, 4), line, fault, (f"marks beside `{word}`", mark))


def first_line(how, line, mark):
    return OneLine(f"bits_words/line_1_with_{how}", f"Line 1 with {how.replace('_', ' ')} is a fault.", FIRST, 1, line, "Header", ("marks in line 1", mark))


def spelled_words(word, right):
    """The word in other spellings, each with its fields."""
    found = {"in_upper_case": word.upper(), "with_a_capital": word.capitalize(), "doubled": word + word, "cut": word[:-1],
             "by_a_familiar_name": FAMILIAR[word], "with_an_s": word + "s"}
    for how, spelled in dict.fromkeys(found.items()):
        if how != "with_a_capital" or spelled != word.upper():
            yield OneLine(f"bits_words/word_{word}_{how}", f"The word `{word}` {how.replace('_', ' ')} is a fault.", FIRST, NUMBERS.get(word, 4), f"{spelled} {right}", "Word",
                          (f"other spellings of `{word}`", how.replace("_", " ")))


def many_bytes():
    """Fields of many bytes: typed, written, and read."""
    story = Story("bits_words/fields_of_many_bytes", "A field of bytes has as many as there is memory for.", [Slot(length=0x40000)],
                  shows=[("bytes of `mw`, `in`, and of a reply", "2^16 + 1, 2^17 + 1")])
    for length in (LONG, 2 * LONG - 1):
        content = bytes(length - 1) + b"!"
        story.put(BASE, content)
        story.look(BASE + length - 2, 3, b"\0!\0")
        story.put(BASE + length - 1, b"\0")
    story.put(BASE + LONG - 1, b"!")
    story.look(BASE, LONG, bytes(LONG - 1) + b"!")
    story.type(bytes(LONG), took=4096)
    story.put(BASE + 0x40000 - LONG + 1, bytes(LONG), "badrange")
    return story
