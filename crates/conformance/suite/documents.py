"""docs/model.md and docs/formats.md: their headings, their sentences, and which of these are rules, each with its name."""
import dataclasses
import os
import re

from .scenarios import CRATE

DOCS = os.path.join(os.path.dirname(os.path.dirname(CRATE)), "docs")
DOCUMENTS = ("model.md", "formats.md")
ANCHOR = re.compile(r'<a id="([^"]*)"></a>')
IN_PARENTHESES = re.compile(r"\([^()]*\)")

# Where a sentence ends and another begins, in a line whose parentheses are blotted out.
END = re.compile(r'(?<=[.;)])\s+(?=(?:<a id="[^"]*"></a>)?[A-Z`*])|(?<=\.\*\*)\s+')
NOTE = re.compile(r"(?<=\.) \([^()]*\)$")


@dataclasses.dataclass(frozen=True)
class Sentence:
    """A sentence without the note behind it, the line that it stands in, and its name, which is empty where it is no rule."""

    text: str
    line: str
    name: str


@dataclasses.dataclass(frozen=True)
class Section:
    """A heading, and the sentences up to the next one."""

    heading: str
    sentences: list


def load(document):
    """The sections of a document in its order; what stands in a block of code is left out."""
    found, code = [], False
    with open(os.path.join(DOCS, document), encoding="utf-8") as page:
        for line in map(str.strip, page):
            if line.startswith("```"):
                code = not code
            elif line.startswith("#") and not code:
                found.append(Section(line.lstrip("#").strip(), []))
            elif line and not code and not re.match(r"^\|[-| ]+\|$", line):
                found[-1].sentences.extend(sentences(line))
    return found


def sentences(line):
    """The sentences of a line; a table's row is one, and a name within a sentence begins one of its own."""
    plain = ANCHOR.sub("", line)
    for part in [line.strip("| ")] if line.startswith("|") else parts(re.sub(r"^(- |\d+\. )", "", line)):
        start, *named = re.split(r"(?=<a id=)", part)
        for text in named or [start]:
            name = ANCHOR.match(text)
            yield Sentence(NOTE.sub("", ANCHOR.sub("", text).strip()), plain, name[1] if name else "")


def parts(text):
    """The text cut where sentences end."""
    blotted = IN_PARENTHESES.sub(lambda note: "(" + "-" * (len(note[0]) - 2) + ")", text)
    start = 0
    for end in END.finditer(blotted):
        yield text[start:end.start()]
        start = end.end()
    yield text[start:]
