"""kalyubos.h and the sentences in C, as the table has them."""
import re
import textwrap

from table import Call, Constant, Numbers, Struct, Verbatim

# The longest line that is made, but for comments above an entry: these have the lines of the table.
WIDTH = 120

# Comments stand beside declarations, in one column behind those that aren't wider than this.
WIDEST = 40

FRONT = """#ifndef KALYUBOS_H
#define KALYUBOS_H

#include <stdbool.h>
#include <stddef.h>
#include <stdint.h>

#ifdef __cplusplus
extern "C" {
#endif

/* An answer that a host must look at: a lost KALYUBOS_MORE or KALYUBOS_IO leaves the guest waiting for ever. */
#if defined(__GNUC__) || defined(__clang__)
#define KALYUBOS_LOOK_AT_IT __attribute__((warn_unused_result))
#else
#define KALYUBOS_LOOK_AT_IT
#endif
"""

BACK = """
#ifdef __cplusplus
}
#endif

#endif
"""

# A number that C has a name for.
NAMED = {0xffffffff: "UINT32_MAX"}


def header(table):
    """All of kalyubos.h."""
    parts = [f"{block(table.head)}\n{FRONT}"]
    for section in table.section:
        parts += [f"\n{comment(section.text)}\n"] if section.text else []
        parts += [f"\n{comment(entry.text)}\n{declared(entry, table)}\n" if entry.text else f"{gap(entry)}{declared(entry, table)}\n"
                  for entry in section.entry]
    return "".join(parts) + BACK


def gap(entry):
    """What stands before an entry without a comment: a call stands right below the one before, whose comment is of both."""
    return "" if isinstance(entry, Call) else "\n"


def comment(text):
    """A comment above an entry."""
    one = f"/* {text} */"
    return one if "\n" not in text and len(one) <= WIDTH else block(text)


def block(text):
    return "\n".join(["/*", *(f" * {line}".rstrip() for line in text.split("\n")), " */"])


def declared(entry, table):
    """An entry without its comment."""
    match entry:
        case Verbatim():
            return entry.c
        case Constant(define=True):
            return f"#define KALYUBOS_{entry.constant} {NAMED.get(entry.number, entry.number)}"
        case Constant():
            return f"enum {{ KALYUBOS_{entry.constant} = {entry.number} }};"
        case Numbers():
            rows = [f"KALYUBOS_{row.name} = {row.number}," for row in entry.rows]
            rows[-1] = rows[-1].rstrip(",")
            return braced("enum", beside(list(zip(rows, (row.comment for row in entry.rows)))))
        case Struct():
            return braced(f"struct {entry.struct}", beside([it for field in entry.fields for it in field_in_c(field, table.in_c())]))
        case Call():
            return ("KALYUBOS_LOOK_AT_IT\n" if entry.look_at_it else "") + prototype(entry, table.in_c())


def braced(what, lines):
    return "\n".join([f"{what} {{", *lines, "};"])


def field_in_c(field, names):
    """The declarations of a field, each with what stands beside it: of a slice a pointer and a length."""
    first, *others = in_c(field, names)
    return [(f"{first};", field.comment), *((f"{other};", "") for other in others)]


def in_c(item, names):
    """A parameter or a field as C declares it: of a slice a pointer and a length."""
    kind = item.type
    is_const = kind.pointer == "*const " or not kind.pointer and kind.reference == "&"
    stars = "*" * (bool(kind.reference) + bool(kind.pointer))
    count = f"[{kind.count if kind.count.isdigit() else f'KALYUBOS_{kind.count}'}]" if kind.count else ""
    first = f"{'const ' if is_const else ''}{names[kind.base]} {stars}{item.name}{count}"
    return [first, f"size_t {item.name}_len"] if kind.is_slice else [first]


def beside(declarations):
    """Lines of declarations, indented, with their comments in one column."""
    lines = []
    column = max((len(it) for it, _ in declarations if 4 + len(it) <= WIDEST), default=0) + 1
    for declaration, told in declarations:
        front = f"    {declaration:{column}}" if told else f"    {declaration}"
        front += " " if told and len(declaration) >= column else ""
        lines += wrapped(front, told) if told else [front]
    return lines


def wrapped(front, told):
    """A comment behind this, in as many lines as it wants. Its end stands behind a word."""
    lines = textwrap.wrap(f"/* {told}\0*/", WIDTH, initial_indent=front, subsequent_indent=" " * (len(front) + 3), break_long_words=False,
                          break_on_hyphens=False)
    return [line.replace("\0", " ") for line in lines]


def prototype(call, names):
    """A call's declaration, with its parameters in lines."""
    returned = in_returns(call.returns, names)
    front = f"{returned}{call.call}("
    parameters = [it for item in call.takes for it in in_c(item, names)] or ["void"]
    lines, line = [], front
    for place, parameter in enumerate(parameters):
        ended = parameter + (");" if place == len(parameters) - 1 else ",")
        if line.strip() and not line.endswith("(") and len(line) + 1 + len(ended) > WIDTH:
            lines.append(line)
            line = " " * len(front) + ended
        else:
            line += ended if line.endswith("(") else f" {ended}"
    return "\n".join([*lines, line])


def in_returns(written, names):
    """What stands before a call's name: what it returns, in C."""
    found = re.fullmatch(r"(\*const )?(\w+)", written)
    return f"const {names[found[2]]} *" if found[1] else f"{names[found[2]]} "


SENTENCES = """/* {first} Made by crates/c_values/api/make. */
#include "kalyubos.h"

{call}
{{
    switch ({number}) {{
{cases}
    default:
        return "{other}";
    }}
}}
"""


def sentences(call, table):
    """A function in C that has a sentence for each number of a list."""
    rows = next(numbers.rows for numbers in table.all(Numbers) if numbers.numbers == call.sentences)
    cases = "\n".join(f'    case KALYUBOS_{row.name}:\n        return "{row.sentence}";' for row in rows)
    return SENTENCES.format(first=first_sentence(call.text), call=prototype(call, table.in_c()).rstrip(";"), number=call.takes[0].name,
                            cases=cases, other=call.other)


def first_sentence(text):
    return re.split(r"(?<=\.)\s", text)[0].replace("\n", " ")
