"""Scenarios each of which is wrong in another way, beside one that passes, and what `scenarios` must tell of each."""
import os

PAIR = {".trace": "vreplay 1\ncache 1\nslot 80000000 1000 0 0 rw 50 19\nr 0 b 008 4\n", ".records": "0 v:00000002 - 0 0\nstatus 0\n"}

# A file below what should be a file makes a folder of it.
IN_FOLDER = ".trace/README.md"

# The name of each, in what it isn't the pair (None stands for a file that it lacks), and what is told of it.
WRONG = [
    ("good", {}, None),
    ("no_records", {".records": None}, ".records is missing"),
    ("no_trace", {".trace": None}, ".trace is missing"),
    ("folder", {".trace": None, IN_FOLDER: "It can't be read as a trace.\n"}, ".trace can't be read"),
    ("no_text", {".records": b"0 v:\xff"}, ".records can't be read"),
    ("good", {}, " is named twice"),
    ("record", {".records": "0 v:00000003 - 0 0\nstatus 0\n"},
     r".records differs, line 1: expected '0 v:00000003 - 0 0\n', found '0 v:00000002 - 0 0\n'"),
    ("status", {".records": "0 v:00000002 - 0 0\nstatus 1\n"}, r".records differs, line 2: expected 'status 1\n', found 'status 0\n'"),
    ("line_too_few", {".records": "0 v:00000002 - 0 0\n"}, r".records differs, line 2: expected no line, found 'status 0\n'"),
    ("line_too_many", {".records": "0 v:00000002 - 0 0\nstatus 0\nstatus 0\n"},
     r".records differs, line 3: expected 'status 0\n', found no line"),
    ("line_without_end", {".records": "0 v:00000002 - 0 0\nstatus 0"}, r".records differs, line 2: expected 'status 0', found 'status 0\n'"),
    ("flush", {".after": "flushes 1\n"}, r".after differs, line 1: expected 'flushes 1\n', found 'flushes 0\n'"),
    ("sector", {".after": "flushes 0\nsector 1 00\n"}, r".after differs, line 1: expected 'sector 1 00\n', found no line"),
    ("half_a_byte", {".before": "1\n"}, ".before isn't in its form"),
    ("half_a_sector", {".before": "10\n"}, ".before isn't in its form"),
    ("two_calls_in_a_line", {".fails": "0 12\n"}, ".fails isn't in its form"),
]


def put_into(folder):
    """Writes the scenarios into a folder, with the page that lists them, and gives what must be told of them."""
    for name, others, _ in WRONG:
        for end, content in (PAIR | others).items():
            if content is not None:
                path = os.path.join(folder, name + end)
                os.makedirs(os.path.dirname(path), exist_ok=True)
                with open(path, "wb") as file:
                    file.write(content if isinstance(content, bytes) else content.encode())
    with open(os.path.join(folder, "README.md"), "w", encoding="utf-8") as page:
        page.writelines(f"- `{name}`\n" for name, _, _ in WRONG)
    return [name + told for name, _, told in WRONG if told]
