"""STANDARD.md: of each scenario and of each rule, whether the standard asks for it or this project chose it."""
import dataclasses
import fnmatch
import os
import re

from .scenarios import CRATE, Broken

PAGE = os.path.join(CRATE, "STANDARD.md")
SECTION = re.compile(r"(?<![\d.])\d+(?:\.\d+)+(?![\d.]*\d)|(?<![\w.])6(?=[,)]|$)")
NOTE = re.compile(r"\(([^()]*)\)")
NAME = re.compile(r"`([^`]*)`")
OURS = re.compile(r"\bours\b")


@dataclasses.dataclass(frozen=True)
class Basis:
    """On what something stands: sections of the standard, this project's choice, or both in part."""

    text: str

    @property
    def is_standard(self):
        return not self.text.startswith("ours")

    def __str__(self):
        return f"standard: {self.text}" if self.is_standard else "ours" + self.text[len("ours"):]


def rows(heading):
    """The two cells of each row below a heading of the page."""
    with open(PAGE, encoding="utf-8") as page:
        text = page.read().partition(f"\n## {heading}\n")[2].partition("\n## ")[0]
    cells = [line.strip("|").split("|") for line in text.splitlines() if line.startswith("| ")]
    return [(first.strip(), second.strip()) for first, second in cells[1:]]


def load(suite, is_whole=True):
    """The basis of each scenario, by name."""
    found, wrong = judged(suite, is_whole)
    if wrong:
        raise Broken("STANDARD.md: " + wrong[0])
    return found


def judged(suite, is_whole=True):
    """The basis of each scenario, and what is wrong with the page: a name goes before a pattern, and either is one of a whole suite."""
    names, patterns, wrong = tabled()
    found, used = {}, set()
    subjects = {scenario.subject for scenario in suite}
    near = {subject: [one for one in patterns if may_fit(one[0], subject)] for subject in subjects}
    for scenario in suite:
        fitting = [(word, basis) for word, basis in near[scenario.subject] if fnmatch.fnmatchcase(scenario.name, word)]
        used.update(word for word, _ in fitting)
        if scenario.name not in names and not fitting:
            wrong.append(f"{scenario.name} has no row")
        else:
            found[scenario.name] = names.get(scenario.name) or fitting[0][1]
            if scenario.name not in names and len({basis for _, basis in fitting}) > 1:
                wrong.append(f"{scenario.name} fits {fitting[0][0]} and {fitting[1][0]}")
    if is_whole:
        wrong += [f"{name} is no scenario" for name in names if name not in found]
        wrong += [f"no scenario fits {word}" for word, _ in patterns if word not in used]
    return found, wrong


def subjects():
    """The subjects that may have a scenario of the standard."""
    names, patterns, _ = tabled()
    return {word.partition("/")[0] for word, basis in [*names.items(), *patterns] if basis.is_standard}


def tabled():
    """The page's scenarios: the names, the patterns, and the names that stand twice."""
    names, patterns, wrong = {}, [], []
    for cell, text in rows("Scenarios"):
        for word in NAME.findall(cell):
            if "*" in word:
                patterns.append((word, Basis(text)))
            elif word in names:
                wrong.append(f"{word} stands twice")
            else:
                names[word] = Basis(text)
    return names, patterns, wrong


def may_fit(pattern, subject):
    """Whether a pattern may name a scenario of a subject."""
    of_subject, slash, _ = pattern.partition("/")
    return not slash or fnmatch.fnmatchcase(subject, of_subject)


def of_headings():
    """The basis of each heading by `DOCUMENT, HEADING`; a row is `DOCUMENT: HEADING; HEADING`."""
    found = {}
    for cell, basis in rows("Rules"):
        document, _, names = cell.partition(": ")
        found.update((f"{document}, {name}", basis) for name in names.split("; "))
    return found


def of_rules(rules):
    """The basis of each rule, in their order, and what is wrong with the page."""
    headings = of_headings()
    found = []
    for rule in rules:
        basis = noted(rule.sentence.text) or noted(rule.sentence.line)
        basis = basis or headings.get(f"{rule.document}, {rule.heading}")
        found.append(Basis(basis) if basis else None)
    wrong = [f"rules:{rule.line}: no basis: {rule.heading} has no row in STANDARD.md"
             for rule, basis in zip(rules, found) if basis is None]
    known = {f"{rule.document}, {rule.heading}" for rule in rules}
    return found, wrong + [f"STANDARD.md: no rule stands below a heading {name}" for name in headings if name not in known]


def noted(text):
    """The basis that notes in a text tell, or none."""
    notes = NOTE.findall(text)
    sections = [section for note in notes for section in SECTION.findall(note)]
    ours = any(OURS.search(note) for note in notes)
    if not sections:
        return "ours" if ours else None
    return ", ".join(dict.fromkeys(sections)) + (", and ours in part" if ours else "")
