"""Where the crates in Rattle have something else than the table: an export, a struct's fields, or a number. Each with its file and line."""
import dataclasses
import itertools
import re

from table import Call, Constant, Numbers, Struct, TOP

CRATES = TOP / "crates"
EXPORT = re.compile(r'#\[unsafe\(no_mangle\)\]\s*pub extern "C" fn (\w+)\(([^()]*)\) -> (\w+)')
CONSTANT = re.compile(r"^(?:pub(?:\(crate\))? )?const (\w+): (\w+) = (0x[\da-f_]+|[\d_]+);", re.MULTILINE)

# What a call takes, or a handle holds, that has no bytes.
NO_BYTES = "Global"


@dataclasses.dataclass(frozen=True)
class Found:
    """What a source has of a name, and where."""

    name: str
    told: object
    place: str


def differences(table):
    """What isn't the same, in sentences."""
    names = names_of(table)
    yield from calls(table, names)
    for struct in table.all(Struct):
        for reference in struct.rattle:
            yield from fields(struct, reference, names)
    for constant in table.all(Constant):
        for reference in constant.rattle:
            file, name = reference.split()
            yield from one_number(constant, name, [it for it in constants(file) if it.name == name] or [Found(name, None, f"crates/{file}")])
    for numbers in table.all(Numbers):
        yield from listed(numbers)


def names_of(table):
    """How the table names what Rattle names otherwise."""
    told = {reference.split()[1]: struct.type for struct in table.all(Struct) for reference in struct.rattle}
    return told | {reference.split()[1]: constant.constant for constant in table.all(Constant) for reference in constant.rattle}


def as_the_table(written, names):
    """A type of Rattle, as the table writes it."""
    return re.sub(r"\w+", lambda word: names.get(word[0], word[0]), re.sub(r"'\w+ |<'\w+>", "", " ".join(written.split())))


def source(file):
    """A file of crates/ with its text, which is none where it isn't there."""
    path = CRATES / file
    return path, path.read_text(encoding="utf-8") if path.is_file() else ""


def found_in(path, text, position, name, told):
    return Found(name, told, f"{path.relative_to(TOP)}:{text.count(chr(10), 0, position) + 1}")


# ---- calls

def calls(table, names):
    """What differs between the table's calls and the exports of both libraries."""
    handles = {struct.type for struct in table.all(Struct) if struct.is_handle}
    of_table = {call.call: call for call in table.all(Call) if call.of != "C"}
    exported = [(crate, it) for crate in sorted({call.of for call in of_table.values()}) for it in exports(crate, names)]
    for crate, export in exported:
        call = of_table.get(export.name)
        if not call:
            yield f"{export.place}: {export.name} isn't in the table" if export.name else f"{export.place}: an export that can't be read"
        elif crate != call.of:
            yield f"{export.place}: {export.name} is a call of {crate}, and of {call.of} in the table ({call.place})"
        elif export.told != signature(call, handles):
            yield f"{export.place}: {export.name}{export.told}, and the table has {signature(call, handles)} ({call.place})"
    there = {export.name for _, export in exported}
    yield from (f"{call.place}: {call.call}: {call.of} has no such export" for call in of_table.values() if call.call not in there)


def exports(crate, names):
    """The exports of a crate. Of one that can't be read the name is empty."""
    for path in sorted((CRATES / crate / "src").glob("*.rt")):
        text = path.read_text(encoding="utf-8")
        read = {found.start(): found for found in EXPORT.finditer(text)}
        for mark in re.finditer(r"#\[unsafe\(no_mangle\)\]", text):
            found = read.get(mark.start())
            if not found:
                yield found_in(path, text, mark.start(), "", "")
                continue
            told = parameters(found[2], names)
            yield found_in(path, text, found.start(1), found[1], f"({told}) -> {found[3]}")


def parameters(written, names):
    """The parameters of an export, as the table writes them."""
    parts = [re.split(r":\s*", part.strip(), maxsplit=1) for part in re.split(r",\s*(?=\w+:|$)", written.strip()) if part]
    return ", ".join(f"{name}: {as_the_table(kind, names)}" for name, kind in parts if kind != NO_BYTES)


def signature(call, handles):
    """A call as its export has it, which borrows each handle as one that changes."""
    told = [f"{item.name}: {f'&mut {item.type.base}' if item.type.base in handles else item.type.written}" for item in call.takes]
    return f"({', '.join(told)}) -> {call.returns}"


# ---- structs

def fields(struct, reference, names):
    """What differs between a struct of the table and that of a source."""
    file, name = reference.split()
    path, text = source(file)
    found = re.search(rf"#\[repr\(C\)\]\npub struct {name}(?:<'a>)? \{{(.*?)\n\}}", text, re.DOTALL)
    if not found:
        yield f"crates/{file}: there is no struct {name} with #[repr(C)], as in the table ({struct.place})"
        return
    there = [f"{field}: {as_the_table(kind, names)}" for field, kind in re.findall(r"^    (?:pub )?(\w+): ([^,]+),$", found[1], re.MULTILINE)
             if kind != NO_BYTES]
    wanted = [f"{field.name}: {field.type.written}" for field in struct.fields]
    if struct.is_handle:  # what it points to is nobody's but the library's, and so is its name
        there, wanted = [it.partition(": ")[2] for it in there], ["*mut u8"]
    if name.startswith("Told"):  # what is told is only read
        there, wanted = ([re.sub(r"&mut |\*mut ", "&", it.replace("*const ", "&")) for it in some] for some in (there, wanted))
    if there != wanted:
        yield f"{found_in(path, text, found.start(), name, '').place}: {name} has {first_difference(there, wanted)} ({struct.place})"


def first_difference(there, wanted):
    """Where two lists part, in words."""
    has, wants = next(pair for pair in itertools.zip_longest(there, wanted, fillvalue="nothing more") if pair[0] != pair[1])
    return f"{has}, and {wants} in the table"


# ---- numbers

def constants(file, kind=r"\w+"):
    """The constants of a source that are numbers of a type."""
    path, text = source(file)
    return [found_in(path, text, found.start(), found[1], int(found[3], 0)) for found in CONSTANT.finditer(text) if re.fullmatch(kind, found[2])]


def arms(file, enum):
    """The numbers of an enum's variants, as they are matched with one another, in either direction."""
    path, text = source(file)
    there = [(found, found[1], found[2]) for found in re.finditer(rf"\b{enum}::(\w+) => (\d+)", text)] \
        + [(found, found[2], found[1]) for found in re.finditer(rf"(\d+) => Some\({enum}::(\w+)\)", text)]
    return [found_in(path, text, found.start(), re.sub(r"(?<=[a-z])(?=[A-Z])", "_", name).upper(), int(number)) for found, name, number in there]


def one_number(constant, name, found):
    yield from (f"{it.place}: {name} is {it.told}, and KALYUBOS_{constant.constant} {constant.number} in the table ({constant.place})"
                for it in found if it.told != constant.number)


def listed(numbers):
    """What differs between a list of the table and the sources that have its numbers."""
    rows, there = {row.name: row.number for row in numbers.rows}, set()
    for reference in numbers.rattle:
        file, what = reference.split()
        found = constants(file, numbers.type) if what == "const" else arms(file, what)
        if not found:
            yield f"crates/{file}: there is no number of {numbers.numbers}, as in the table ({numbers.place})"
        for it in found:
            name = numbers.renamed.get(it.name, it.name if what == "const" else numbers.prefix + it.name)
            there.add(name)
            if name not in rows:
                yield f"{it.place}: {it.name} isn't among the {numbers.numbers} of the table ({numbers.place})"
            elif rows[name] != it.told:
                yield f"{it.place}: {it.name} is {it.told}, and {name} of {numbers.numbers} {rows[name]} in the table ({numbers.place})"
    files = ", ".join(dict.fromkeys(reference.split()[0] for reference in numbers.rattle))
    yield from (f"{numbers.place}: {name} of {numbers.numbers} is in none of {files}" for name in rows
                if name.startswith(numbers.prefix) and name not in there)
