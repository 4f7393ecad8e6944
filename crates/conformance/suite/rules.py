"""The file `rules`: the rules of the documents by name, and which wrong devices fail which scenario."""
import dataclasses
import os
import re

from . import documents
from .scenarios import CRATE, Broken

PATH = os.path.join(CRATE, "rules")
CHANGES = os.path.join(CRATE, "mutants", "changes")
NAME = r"[a-z_]+/[a-z0-9_]+"
ENDING = re.compile(rf"(?:(.+): )?({NAME}(?:, {NAME})*)")
# A scenario that a sentence names.
NAMED = re.compile(f"`({NAME})`")


@dataclasses.dataclass(frozen=True)
class Row:
    """A line of the file: the rule's name, which is empty below the rule's first line, what is said, and scenarios.

    With both, what is said are wrong devices, with a semicolon between them; without words scenarios alone; without a
    scenario the reason why there is none.
    """

    line: int
    rule: str
    words: str
    beside: tuple

    @property
    def devices(self):
        """The wrong devices, each with the scenario that it fails."""
        return [(device, self.beside[0]) for device in self.words.split("; ")] if self.words and len(self.beside) == 1 else []

    @property
    def scenarios(self):
        return NAMED.findall(self.words) + list(self.beside)


def row(number, line):
    """A line, read: `NAME: WORDS: SCENARIOS`, and below it `  WORDS: SCENARIOS`."""
    rule, said = "", line.strip()
    if not line.startswith(" "):
        rule, _, said = said.partition(":")
    ending = ENDING.fullmatch(said.strip())
    return Row(number, rule, *((ending[1] or "", tuple(ending[2].split(", "))) if ending else (said.strip(), ())))


@dataclasses.dataclass(frozen=True)
class Rule:
    """A rule, where it stands, and the devices that break it, each with the scenario that it fails."""

    line: int
    name: str
    document: str
    heading: str
    sentence: documents.Sentence
    devices: list
    scenarios: set

    def __str__(self):
        return f"docs/{self.document}#{self.name}: {self.sentence.text}"


def lines(path=PATH):
    """The file's rows."""
    with open(path, encoding="utf-8") as file:
        yield from (row(number, line) for number, line in enumerate(map(str.rstrip, file), 1) if line and not line.startswith("#"))


def known():
    """The rules of the documents in their order: where each stands, and its sentence."""
    return {sentence.name: (document, section.heading, sentence) for document in documents.DOCUMENTS for section in documents.load(document)
            for sentence in section.sentences if sentence.name}


def load():
    """The rules in the file's order."""
    there, rules = known(), []
    for line in lines():
        if line.rule and line.rule not in there or not (line.rule or rules):
            raise Broken(f"rules:{line.line}: check-rules says what is wrong with this line")
        if line.rule:
            rules.append(Rule(line.line, line.rule, *there[line.rule], [], set()))
        rules[-1].devices.extend(line.devices)
        rules[-1].scenarios.update(line.scenarios)
    return rules


HEAD = """# The rules, and what shows them

The rules of [docs/model.md](../../docs/model.md) and [docs/formats.md](../../docs/formats.md) in their order. Behind a rule stand
[wrong devices](README.md#how-strong-it-is), each with a scenario that it fails. A scenario without a device shows the rule, or fails
on a device that breaks it. A sentence says why no scenario shows a rule or a part of it.
"""


def page():
    """The file as a page, with links to the rules and below their headings."""
    there, lines_of, at = known(), [HEAD], (None, None)
    for line in lines():
        if line.rule and there[line.rule][:2] != at:
            if there[line.rule][0] != at[0]:
                lines_of.append(f"## docs/{there[line.rule][0]}")
            at = there[line.rule][:2]
            lines_of.append(f"\n### {at[1]}\n")
        beside = ", ".join(f"`{name}`" for name in line.beside)
        link = [f"[{line.rule}](../../docs/{at[0]}#{line.rule})"] if line.rule else []
        lines_of.append(("- " if line.rule else "  - ") + ": ".join(link + [part for part in (line.words, beside) if part]))
    return "\n".join(lines_of)


def measured():
    """The devices that mutants makes, each with the scenario that it fails: the first lines of its blocks."""
    with open(CHANGES, encoding="utf-8") as file:
        firsts = [block.strip("\n").split("\n")[0] for block in file.read().split("\n\n")]
    return {tuple(first.rsplit(" | ", 1)) for first in firsts}


def by_scenario(rules):
    """The rules that name each scenario."""
    found = {}
    for rule in rules:
        for name in rule.scenarios:
            found.setdefault(name, []).append(rule)
    return found
