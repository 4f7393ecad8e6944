"""The results of a run: for a reader, and in the forms in which a CI reads them."""
import dataclasses
import functools
from typing import Optional

from .difference import Difference
from .scenarios import Scenario

# So many scenarios are named behind one that differs alike, and so many rules are quoted at most.
NAMED, MOST = 3, 4
# Why a scenario is left out that --only doesn't name.
NOT_ASKED = "not asked for"


@dataclasses.dataclass(eq=False)
class Result:
    """Of one scenario: it was left out and why, or it ran, and in what it differs."""

    scenario: Scenario
    left_out: Optional[str] = None
    different: Optional[Difference] = None
    expected: bool = False
    seconds: float = 0.0

    @property
    def name(self):
        return self.scenario.name

    @property
    def ran(self):
        return self.left_out is None

    @property
    def is_surprise(self):
        """Whether it differs, and isn't known to."""
        return self.different is not None and not self.expected

    @functools.cached_property
    def lines(self):
        """What differs, and what the scenario shows."""
        return [*self.different.lines(self.scenario), *rule_lines(self.scenario)] if self.different else []

    def __str__(self):
        if self.left_out is not None:
            return f"{self.name} left out: {self.left_out}"
        if not self.different:
            return f"{self.name} ok"
        return "\n  ".join([f"{self.name} differs" + (", as the table says" if self.expected else ""), *self.lines])


@functools.lru_cache(maxsize=None)
def shown_rules():
    from . import rules
    return rules.by_scenario(rules.load())


def rule_lines(scenario):
    """What the scenario shows: the rules that name it, four at most, or else what the list says of it beside its name."""
    named = shown_rules().get(scenario.name, [])
    if not named:
        return [f"it shows: {scenario.about}"] if scenario.about else []
    more = [f"and {len(named) - MOST} more rules of crates/conformance/rules"] if len(named) > MOST else []
    return [f"rule: {rule}" for rule in named[:MOST]] + more


# --- for a reader

def by_subjects(results):
    """The results of what ran, by subjects."""
    found = {}
    for one in results:
        if one.ran:
            found.setdefault(one.scenario.subject, []).append(one)
    return found


def summary(results, is_quiet):
    """A line for each subject; where that is enough, for each with a scenario that differs and isn't known to."""
    subjects = by_subjects(results)
    width = max(map(len, subjects), default=0)
    for subject, of in subjects.items():
        differ, surprises = ([one for one in of if getattr(one, what)] for what in ("different", "is_surprise"))
        known = f", {len(differ) - len(surprises)} of them as the table says" if len(differ) > len(surprises) else ""
        if surprises:
            yield f"{subject:{width}}  {len(differ)} of {len(of)} differ{known}, first {surprises[0].name}"
        elif not is_quiet:
            differing = f", {len(differ)} differ, all as the table says" if differ else ""
            yield f"{subject:{width}}  {len(of)} ran{differing}"


def blocks(results):
    """What differs and isn't known to: of each kind of difference the first in full, and the others by their names."""
    kinds = {}
    for one in results:
        if one.is_surprise:
            kinds.setdefault(one.different.kind, []).append(one)
    for first, *others in kinds.values():
        yield str(first)
        if others:
            names = ", ".join(one.name for one in others[:NAMED]) + (", .." if len(others) > NAMED else "")
            yield f"  {len(others)} more differ{'s' if len(others) == 1 else ''} alike: {names}"


def reasons(results, others):
    """Why scenarios were left out, and how many by each reason; `others` has those that weren't looked at."""
    found = dict(others)
    for one in results:
        if not one.ran:
            found[one.left_out] = found.get(one.left_out, 0) + 1
    for reason, count in sorted(found.items(), key=lambda item: -item[1]):
        yield f"left out {count}: {reason}"


# --- for a CI

def tap(results):
    """TAP version 13. A scenario that is left out is skipped, one that the table has is to do."""
    lines = ["TAP version 13", f"1..{len(results)}"]
    for number, result in enumerate(results, 1):
        line = f"{'not ok' if result.different else 'ok'} {number} - {result.name}"
        if result.left_out is not None:
            line += f" # SKIP {result.left_out}"
        elif result.expected:
            line += " # TODO as the table says"
        lines += [line, *(f"# {more}" for more in result.lines)]
    return "\n".join(lines) + "\n"


def junit(results):
    """JUnit's XML, a test suite for each subject."""
    import xml.etree.ElementTree as xml
    root = xml.Element("testsuites")
    subjects = {}
    for result in results:
        subjects.setdefault(result.scenario.subject, []).append(result)
    for subject, of in subjects.items():
        suite = xml.SubElement(root, "testsuite", name=subject, tests=str(len(of)), errors="0",
                               failures=str(sum(one.is_surprise for one in of)),
                               skipped=str(sum(not one.ran or one.expected for one in of)))
        for one in of:
            case = xml.SubElement(suite, "testcase", classname=subject, name=one.name.partition("/")[2],
                                  time=f"{one.seconds:.3f}")
            if not one.ran:
                xml.SubElement(case, "skipped", message=one.left_out)
            elif one.expected:
                xml.SubElement(case, "skipped", message="differs as the table says")
            elif one.different:
                xml.SubElement(case, "failure", message=one.lines[0]).text = "\n".join(one.lines)
    xml.indent(root)
    return xml.tostring(root, encoding="unicode", xml_declaration=True) + "\n"
