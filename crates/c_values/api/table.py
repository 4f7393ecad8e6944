"""The table of what C calls, as table.toml has it: its sections, and in each the entries in the order of the header."""
import collections
import dataclasses
import pathlib
import re
import tomllib

TOP = pathlib.Path(__file__).resolve().parents[3]
PATH = pathlib.Path(__file__).with_name("table.toml")

# The types that aren't structs of the table, as C has them.
SCALARS = {"u8": "uint8_t", "u16": "uint16_t", "u32": "uint32_t", "u64": "uint64_t", "usize": "size_t", "bool": "bool", "char": "char",
           "void": "void"}


class Wrong(Exception):
    """What is wrong with the table, in a sentence."""


@dataclasses.dataclass(frozen=True)
class Type:
    """A type as the table has it: `&`, `&mut ` or nothing, then `*const `, `*mut ` or nothing before the base. `[base]` is a slice,
    `[base; count]` an array."""

    written: str
    reference: str
    pointer: str
    base: str
    is_slice: bool
    count: str

    FORM = re.compile(r"(&mut |&)?(\[)?(\*mut |\*const )?(\w+)(?(2)(?:; (\w+))?\])")

    @staticmethod
    def of(written):
        found = Type.FORM.fullmatch(written)
        if not found:
            raise Wrong(f"{written} is no type of the table")
        reference, bracket, pointer, base, count = found.groups(default="")
        return Type(written, reference, pointer, base, bool(bracket) and not count, count)


@dataclasses.dataclass(frozen=True)
class Item:
    """A parameter of a call, or a field of a struct, with its comment."""

    name: str
    type: Type
    comment: str = ""

    @staticmethod
    def of(written, comment=""):
        name, _, kind = written.partition(": ")
        return Item(name, Type.of(kind), " ".join(comment.split()))


@dataclasses.dataclass(frozen=True)
class Number:
    """A number of a list: its name behind KALYUBOS_, its comment, and what is said of it to a person."""

    name: str
    number: int
    comment: str
    sentence: str

    @staticmethod
    def of(name, number, comment="", sentence=""):
        comment = " ".join(comment.split())
        return Number(name, number, comment, sentence or comment)


@dataclasses.dataclass(kw_only=True)
class Entry:
    """What all entries have: the comment above, and the line of the table."""

    text: str = ""
    line: int = 0

    @property
    def place(self):
        return f"{PATH.relative_to(TOP)}:{self.line}"


@dataclasses.dataclass(kw_only=True)
class Verbatim(Entry):
    """Lines of C that stand in the header as they are."""

    c: str


@dataclasses.dataclass(kw_only=True)
class Constant(Entry):
    """A number of its own, and where Rattle has it."""

    constant: str
    number: int
    type: str = ""
    define: bool = False
    rattle: list = ()


@dataclasses.dataclass(kw_only=True)
class Numbers(Entry):
    """A list of numbers, where Rattle has them, and which enum of the Rust crate has their names behind the prefix."""

    numbers: str
    type: str
    rows: list
    prefix: str = ""
    rattle: list
    renamed: dict = dataclasses.field(default_factory=dict)
    mirror: str = ""

    def __post_init__(self):
        self.rows = [Number.of(*row) for row in self.rows]


@dataclasses.dataclass(kw_only=True)
class Struct(Entry):
    """A struct: its name in C and in Rust, where Rattle has it, and in which file of the Rust crate it is public, if it is."""

    struct: str
    type: str
    fields: list
    rattle: list = ()
    mirror: str = ""
    derive: str = ""
    summary: str = ""
    is_handle: bool = False
    only_c: bool = False

    def __post_init__(self):
        self.fields = [Item.of(*field) for field in self.fields]


@dataclasses.dataclass(kw_only=True)
class Call(Entry):
    """A call: the crate that exports it, or C, its parameters and what it returns. `look_at_it` marks an answer that mustn't be lost;
    `sentences` names the list whose sentences it returns, and `other` is that of a number that isn't in it."""

    call: str
    of: str
    takes: str
    returns: str = "u32"
    look_at_it: bool = False
    sentences: str = ""
    other: str = ""

    def __post_init__(self):
        self.takes = [Item.of(item) for item in self.takes.split(", ") if item]


KINDS = {"c": Verbatim, "constant": Constant, "numbers": Numbers, "struct": Struct, "call": Call}


@dataclasses.dataclass
class Section:
    """A part of the header, with a comment of its own if it has one."""

    name: str
    entry: list
    text: str = ""


@dataclasses.dataclass
class Table:
    """All of it: what the header says first, and its sections."""

    head: str
    section: list

    def all(self, kind):
        return [entry for section in self.section for entry in section.entry if isinstance(entry, kind)]

    def in_c(self):
        """How C names each type."""
        return SCALARS | {struct.type: f"struct {struct.struct}" for struct in self.all(Struct)}


def read():
    """The table of table.toml."""
    written = PATH.read_text(encoding="utf-8")
    try:
        told = tomllib.loads(written)
    except tomllib.TOMLDecodeError as why:
        raise Wrong(f"{PATH.relative_to(TOP)}: {why}") from why
    sections = [made(Section, {**it, "entry": [entry_of(entry, written) for entry in it.get("entry", [])]}) for it in told["section"]]
    table = Table(told["head"].rstrip("\n"), sections)
    judge(table)
    return table


def entry_of(told, written):
    """An entry of the kind that its keys name."""
    key = next((key for key in KINDS if key in told), None)
    if not key:
        raise Wrong(f"an entry is of none of the kinds {', '.join(KINDS)}: {told}")
    before = written.partition(f'\n{key} = "{told[key]}"\n')[0]
    return made(KINDS[key], {**told, "line": before.count("\n") + 2})


def made(kind, told):
    """One of these, whose texts end without a line feed."""
    try:
        return kind(**{key: value.rstrip("\n") if isinstance(value, str) else value for key, value in told.items()})
    except (TypeError, Wrong) as why:
        raise Wrong(f"{PATH.relative_to(TOP)}:{told.get('line', 1)}: {why}") from why


def judge(table):
    """Refuses a table that has a name or a number twice, a type that it doesn't have, or a number without a sentence."""
    refuse_twice("the call", [it.call for it in table.all(Call)])
    refuse_twice("the struct", [it.struct for it in table.all(Struct)])
    refuse_twice("the name", [it.constant for it in table.all(Constant)] + [row.name for it in table.all(Numbers) for row in it.rows])
    for numbers in table.all(Numbers):
        refuse_twice(f"{numbers.place}: the number", [row.number for row in numbers.rows])
    types = table.in_c()
    for entry in table.all(Call) + table.all(Struct):
        for item in entry.takes if isinstance(entry, Call) else entry.fields:
            if item.type.base not in types:
                raise Wrong(f"{entry.place}: {item.name}: the table has no type {item.type.base}")
    said = {call.sentences for call in table.all(Call)}
    for numbers in (it for it in table.all(Numbers) if it.numbers in said):
        refuse_twice(f"{numbers.place}: the sentence", [row.sentence for row in numbers.rows])
        if not all(row.sentence for row in numbers.rows):
            raise Wrong(f"{numbers.place}: a number has no sentence")


def refuse_twice(what, all_of_them):
    twice = [it for it, count in collections.Counter(all_of_them).items() if count > 1]
    if twice:
        raise Wrong(f"{what} {twice[0]!r} stands twice")
