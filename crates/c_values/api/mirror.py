"""Where the Rust crate shows something otherwise than the table has it: the structs that are public as C has them, and the enums that
have a variant for each number of a list."""
import re

from binding import in_rust
from rattle import first_difference
from table import Numbers, Struct, TOP

SOURCES = TOP / "bindings/rust/src"


def differences(table):
    """What isn't the same, in sentences."""
    for entry in table.all(Struct) + table.all(Numbers):
        if not entry.mirror:
            continue
        file, name = entry.mirror.split()
        text = (SOURCES / file).read_text(encoding="utf-8")
        what = r"#\[repr\(C\)\]\npub struct" if isinstance(entry, Struct) else "pub enum"
        found = re.search(rf"{what} {name} \{{(.*?)\n\}}", text, re.DOTALL)
        there = shown(entry, found[1]) if found else []
        if there != wanted(entry):
            line = text.count("\n", 0, found.start()) + 1 if found else 1
            yield f"bindings/rust/src/{file}:{line}: {name} has {first_difference(there, wanted(entry))} ({entry.place})"


def shown(entry, body):
    """What the crate has: fields with their types, or names of variants."""
    if isinstance(entry, Struct):
        return re.findall(r"^    pub (\w+: .*),$", body, re.MULTILINE)
    return [name for name in re.findall(r"^    (\w+)(?:\(.*\))?,$", body, re.MULTILINE) if name != "Other"]


def wanted(entry):
    """What it should have."""
    if isinstance(entry, Struct):
        return [it for field in entry.fields for it in in_rust(field)]
    names = [row.name.removeprefix(entry.prefix) for row in entry.rows if row.name.startswith(entry.prefix)]
    return ["".join(word.capitalize() for word in name.split("_")) for name in names]
