"""ffi.rs of bindings/rust, as the table has it: in the form of rustfmt."""
from header import first_sentence
from table import Call, Constant, Numbers, Struct

# The longest line of rustfmt.
WIDTH = 100

FRONT = """//! The declarations of `kalyubos.h`, which says what each call does and what its caller must keep. `crates/c_values/api/make` makes
//! them of a table.

"""

EMPTY = """
impl {name} {{
    pub const fn empty() -> {name} {{
        {name} {{
            {field}: std::ptr::null_mut(),
        }}
    }}
}}
"""


def binding(table):
    """All of ffi.rs."""
    structs = [it for it in table.all(Struct) if not it.only_c]
    used = [f"use crate::{it.mirror.partition('.')[0]}::{it.type};" for it in structs if it.mirror]
    parts = [FRONT, "\n".join([*sorted(used), "use std::ffi::c_void;"]), "\n"]
    for entry in (entry for section in table.section for entry in section.entry):
        if isinstance(entry, Constant) and entry.type:
            parts.append(f"\n/// {first_sentence(entry.text)}\npub const {entry.constant}: {entry.type} = {number(entry)};\n")
        elif isinstance(entry, Numbers):
            parts.append(module(entry))
        elif isinstance(entry, Struct) and not (entry.only_c or entry.mirror):
            parts.append(struct(entry))
    calls = [declared(call) for call in table.all(Call) if call.of != "C"]
    return "".join(parts) + '\nunsafe extern "C" {\n' + "".join(calls) + "}\n"


def number(constant):
    return "u32::MAX" if constant.number == 0xffffffff else constant.number


def module(entry):
    """A list of numbers, of which the crate uses those that it knows."""
    rows = "".join(f"    pub const {row.name}: {entry.type} = {row.number};\n" for row in entry.rows)
    return f"\n/// {first_sentence(entry.text)}\n#[allow(dead_code)]\npub mod {entry.numbers} {{\n{rows}}}\n"


def struct(entry):
    """A struct, and how an empty handle is made."""
    derived = f"#[derive({entry.derive})]\n" if entry.derive else ""
    shown = "" if entry.is_handle else "pub "
    fields = "".join(f"    {shown}{it},\n" for field in entry.fields for it in in_rust(field))
    text = f"\n/// {entry.summary or first_sentence(entry.text)}\n{derived}#[repr(C)]\npub struct {entry.type} {{\n{fields}}}\n"
    return text + (EMPTY.format(name=entry.type, field=entry.fields[0].name) if entry.is_handle else "")


def in_rust(item):
    """A parameter or a field as Rust declares it: of a slice a pointer and a length."""
    kind = item.type
    base = f"{kind.pointer}{'c_void' if kind.base == 'void' else kind.base}"
    if kind.count:
        return [f"{item.name}: [{base}; {kind.count}]"]
    pointer = {"&": "*const ", "&mut ": "*mut ", "": ""}[kind.reference]
    return [f"{item.name}: {pointer}{base}", *([f"{item.name}_len: usize"] if kind.is_slice else [])]


def declared(call):
    """A call's declaration, in lines as rustfmt breaks them."""
    parameters = [it for item in call.takes for it in in_rust(item)]
    front = f"    pub fn {call.call}"
    one = f"{front}({', '.join(parameters)})"
    length = len(f"{one} -> {call.returns};")
    if length <= WIDTH:
        between = " " if length < WIDTH else "\n        "
        return f"{one}{between}-> {call.returns};\n"
    return f"{front}(\n" + "".join(f"        {it},\n" for it in parameters) + f"    ) -> {call.returns};\n"
