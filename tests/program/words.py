"""Which words name a call, and which don't; and what a person is told of a text. Tables for tests/program/calls, worked out from
docs/formats.md.
"""
import os

# Words that name a call, in every order: with TRACE, IMAGE, and FILE where the image is saved. "" is a call in place.
IN_PLACE = ""
TAKEN = [
    (["t", "i"], "t", "i", None),
    (["--", "t", "i"], "t", "i", None),
    (["t", "--", "i"], "t", "i", None),
    (["t", "i", "--"], "t", "i", None),
    (["--save", "f", "t", "i"], "t", "i", "f"),
    (["t", "--save", "f", "i"], "t", "i", "f"),
    (["t", "i", "--save", "f"], "t", "i", "f"),
    (["--save=f", "t", "i"], "t", "i", "f"),
    (["t", "--save=f", "i"], "t", "i", "f"),
    (["t", "i", "--save=f"], "t", "i", "f"),
    (["--save", "f", "--", "t", "i"], "t", "i", "f"),
    (["t", "--save=f", "--", "i"], "t", "i", "f"),
    (["t", "i", "--save=f", "--"], "t", "i", "f"),
    (["t", "i", "--save=a b=c"], "t", "i", "a b=c"),
    (["t", "i", "--save", "-"], "t", "i", "-"),
    (["t", "i", "--save=--save"], "t", "i", "--save"),
    (["t", "i", "--save=--in-place"], "t", "i", "--in-place"),
    (["t", "i", "--save", "i"], "t", "i", "i"),
    (["--in-place", "t", "i"], "t", "i", IN_PLACE),
    (["t", "--in-place", "i"], "t", "i", IN_PLACE),
    (["t", "i", "--in-place"], "t", "i", IN_PLACE),
    (["--in-place", "--", "t", "i"], "t", "i", IN_PLACE),
    (["t", "i", "--in-place", "--"], "t", "i", IN_PLACE),
    (["--", "--save", "-V"], "--save", "-V", None),
    (["--", "t", "--in-place"], "t", "--in-place", None),
    (["--in-place", "--", "--in-place", "-V"], "--in-place", "-V", IN_PLACE),
    (["-", "i"], "-", "i", None),
]

# Words that leave out a file, that aren't taken, that ask for help or a version, or that ask to save an image in place.
REFUSED = [
    ["t"],
    [""],
    ["--"],
    ["--", "t"],
    ["t", "--"],
    ["--save", "f"],
    ["--save=f"],
    ["--save", "f", "t"],
    ["t", "--save", "f"],
    ["--save", "t", "i"],
    ["t", "i", "x"],
    ["t", "i", "--", "x"],
    ["--", "t", "i", "--save=f"],
    ["t", "i", "--save"],
    ["t", "i", "--save", "--"],
    ["t", "i", "--save", "--save"],
    ["t", "i", "--save", "f", "--save", "g"],
    ["t", "i", "--save=f", "--save=f"],
    ["t", "i", "--sav", "f"],
    ["t", "i", "--s=f"],
    ["t", "i", "-s", "f"],
    ["t", "i", "-save", "f"],
    ["t", "i", "--other"],
    ["t", "i", "-x"],
    ["t", "i", "--SAVE", "f"],
    ["t", "i", "--help=yes"],
    ["--help"],
    ["--help", "t", "i"],
    ["t", "i", "--help"],
    ["-h"],
    ["-h", "t", "i"],
    ["t", "i", "-h"],
    ["--version"],
    ["--version", "t", "i"],
    ["t", "i", "--version"],
    ["-V"],
    ["-V", "t", "i"],
    ["t", "i", "-V"],
    ["-hV"],
    ["-hV", "t", "i"],
    ["t", "i", "-hV"],
    ["t", "--in-place"],
    ["--in-place"],
    ["t", "i", "--in-place", "--in-place"],
    ["t", "i", "--in-place=true"],
    ["t", "i", "--in-place="],
    ["t", "i", "--in"],
    ["t", "i", "-in-place"],
    ["t", "i", "--in-place", "--save", "f"],
    ["--save=f", "--in-place", "t", "i"],
    ["t", "i", "x", "--in-place"],
]

# Words that ask for the help or the version, alone and among others.
ASK = [["--help"], ["-h"], ["--version"], ["-V"], ["-V", "t", "i", "--help"], ["t", "--help", "i", "-V"], ["--other", "-h"]]


def wish(words):
    """What the first of the words that asks for something asks for, or nothing. What follows -- is a file."""
    asks = {"-h": "help", "--help": "help", "-V": "version", "--version": "version", "--": None}
    return next((asks[word] for word in words if word in asks), None)


def has_help(text, name, takes):
    """Whether a text is a program's help: its name, how a call looks, a line for each thing that it takes, an example, and
    each status."""
    lines = text.splitlines()
    rows = [*takes, "--", "-h, --help", "-V, --version"]
    status = lines.index(next((line for line in lines if line.startswith("Status: 0 ")), lines[-1]))
    return lines[0].startswith(name + " ") and any(line.startswith(f"Usage: {name}") for line in lines) and \
        all(any(line.startswith(f"  {row}  ") for line in lines) for row in rows) and \
        any(line.startswith(f"Example: {name} ") for line in lines) and \
        [line[8:9] for line in lines[status:]] == list("0123") and all(len(line) < 120 for line in lines)


def version():
    """The version that the library's header has."""
    header = os.path.join(os.path.dirname(os.path.abspath(__file__)), "..", "..", "crates", "board_ffi", "kalyubos.h")
    with open(header, encoding="utf-8") as file:
        number = next(int(line.split()[-1]) for line in file if line.startswith("#define KALYUBOS_VERSION "))
    return f"{number // 10000}.{number // 100 % 100}.{number % 100}"


EVERY_LINE = "each line ends with a line feed, and the first two are there"
FIRST_LINE = 'the first line is "vreplay 1", "vreplay 2" or "kalyubos 1"'
WORDS = "a line begins with slot, r, w, mr, mw, in or sz"
WORDS_EXTENDED = "a line begins with slot, r, w, mr, mw, in, sz, st, io, drop, hold, release, plug, dr, dw, supply, frame, take, dsent, link, dsz, dio, ddrop, dhold or drelease"
NUMBER = "is lower case hexadecimal digits without zeros in front, of {} bits at most, as 1f"
BYTES = "bytes are two lower case hexadecimal digits each, as 4142, or - for none"
IDENTITY = "an identity is 20 bytes by two lower case hexadecimal digits each, so 40 digits"
OFFSET = "a register offset is three lower case hexadecimal digits, as 070"
REGIONS = "a memory is one to eight regions by base and length, as 80000000+1000 or 0+1000,80000000+1000"
NAMED = "6469736b2d300000000000000000000000000000"
ONE_SLOT = b"vreplay 1\ncache 1\nslot 80000000 1000 0 8 rw 50 19\nr 0 c 008 4\n"

# Texts of a call without words, and what a person is told.
TEXTS = [
    (ONE_SLOT, ""),
    (b"", f'line 1: {EVERY_LINE}; found ""'),
    (b"vreplay 1\ncache 1\nr 0 c 00", f'line 3: {EVERY_LINE}; found "r 0 c 00"'),
    (b"vreplay 4\n", f'line 1: {FIRST_LINE}; found "vreplay 4"'),
    (b"vreplay 3\n", f'line 1: {FIRST_LINE}; found "vreplay 3"'),
    (b"kalyubos 2\n", f'line 1: {FIRST_LINE}; found "kalyubos 2"'),
    (b'\x7fELF"\\\r\n', f'line 1: {FIRST_LINE}; found "\\x7fELF\\"\\\\\\x0d"'),
    (b"vreplay 1\nslot 0 1000 0 1 rw 50 19\n",
     'line 2: the second line is the cache\'s, as "cache 8"; found "slot 0 1000 0 1 rw 50 19"'),
    (b"vreplay 1\ncache 0a\n", f'line 2: a number of sectors {NUMBER.format(32)}; found "0a"'),
    (b"vreplay 1\ncache 1\n", "the trace's board: a board needs a slot"),
    (b"vreplay 1\ncache 1\nslot 80000000 1000 0 9 rw 50 19\n",
     "slot 0 (line 3): an extent passes the end of the image"),
    (b"vreplay 1\ncache 1\nslot 0 1000 0 2 rw 50 19\nslot 0 1000 1 1 ro 50 19\n",
     "slot 1 (line 4): two extents share a sector"),
    (b"vreplay 1\ncache 1\nslot 0 fff 0 1 rw 50 19\n",
     "slot 0 (line 3): a guest's memory: a region's size is no multiple of 4096, or the memory is too large"),
    (b"vreplay 1\ncache 1\nslot 0 1000 0 1 rw 50 19\nslot 1 1000 1 1 rw 50 19\n",
     "slot 1 (line 4): a guest's memory: a region's base is no multiple of 4096, or the memory passes 2^64"),
    (b"vreplay 1\ncache 0\nslot 0 1000 0 1 rw 50 19\n",
     "the trace's board: the cache: the capacity of the cache is not in 1..=65536 sectors"),
    # a slot line of each version
    (f"vreplay 1\ncache 1\nslot 0 1000 0 1 rw 50 19 {NAMED}\n".encode(),
     'line 3: slot has 7 fields after it, each after one space, as "slot 80000000 1000 0 8 rw 50 19"; '
     'found "slot 0 1000 0 1 rw 50 19 6469736b2d30000"..'),
    (b"vreplay 2\ncache 1\nslot 0 1000 0 1 rw 50 19\n",
     f'line 3: slot has 8 fields after it, each after one space, as "slot 80000000 1000 0 8 rw 50 19 {NAMED}"; '
     'found "slot 0 1000 0 1 rw 50 19"'),
    (b"vreplay 2\ncache 1\nslot 0 1000 0 1 rw 50 19 -\n", f'line 3: {IDENTITY}; found "-"'),
    (b"vreplay 2\ncache 1\nslot 0 1000 0 1 rw 50 19 6469736b2d30\n", f'line 3: {IDENTITY}; found "6469736b2d30"'),
    (b"vreplay 2\ncache 1\nslot 0 1000 0 1 wr 50 19 -\n", 'line 3: a disk is rw or ro; found "wr"'),
    (b"vreplay 2\ncache 1\nslot 0 1000 0 1 wr 50 019 -\n", f'line 3: a number of rows {NUMBER.format(16)}; found "019"'),
    (b"vreplay 2\ncache 1\nin 0 6c7\n", f'line 3: {BYTES}; found "6c7"'),
    # a slot line of an extended trace, with regions and who has the disk
    (f"kalyubos 1\ncache 1\nslot 0+1000 0 1 rw 50 19 {NAMED}\n".encode(),
     f'line 3: slot has 8 fields after it, each after one space, as "slot 80000000+1000,100000000+1000 image 0 8 rw 50 19 {NAMED}"; '
     'found "slot 0+1000 0 1 rw 50 19 6469736b2d30000"..'),
    (f"kalyubos 1\ncache 1\nslot 80000000 1000 0 1 rw 50 19 {NAMED}\n".encode(), f'line 3: {REGIONS}; found "80000000"'),
    (f"kalyubos 1\ncache 1\nslot 0+1000 file 0 1 rw 50 19 {NAMED}\n".encode(), 'line 3: a slot\'s disk is image, image+8 by its spare sectors, or host:1 to host:40; found "file"'),
    (f"kalyubos 1\ncache 1\nslot 0+1000 host:1 0 80000000000000 rw 50 19 {NAMED}\n".encode(),
     "slot 0 (line 3): an extent passes the end of the image"),
    (f"kalyubos 1\ncache 1\nslot 0+1000,1000+1000 image 0 1 rw 50 19 {NAMED}\n".encode(),
     "slot 0 (line 3): a guest's memory: a region doesn't begin above the end of the one before it"),
    # a restore, which an extended trace has alone
    (b"vreplay 2\ncache 1\nst 0 4b\n", f'line 3: {WORDS}; found "st 0 4b"'),
    (b"kalyubos 1\ncache 1\nrestore 0 4b\n", f'line 3: {WORDS_EXTENDED}; found "restore 0 4b"'),
    (b"kalyubos 1\ncache 1\nst 0\n", 'line 3: st has 2 fields after it, each after one space, as "st 0 4b414c59"; found "st 0"'),
    (b"kalyubos 1\ncache 1\nst 0 4B\n", f'line 3: {BYTES}; found "4B"'),
    (b"kalyubos 1\nhosted\n", 'line 2: the second line is the cache\'s, as "cache 8"; found "hosted"'),
    # completions, which it has alone too
    (b"vreplay 2\ncache 1\nio 0 0 done\n", f'line 3: {WORDS}; found "io 0 0 done"'),
    (b"kalyubos 1\ncache 1\nio 0\n", 'line 3: io has 3 fields after it, each after one space, as "io 0 0 done"; found "io 0"'),
    (b"kalyubos 1\ncache 1\nio 0 0 ok\n", 'line 3: what came of an operation is done or failed; found "ok"'),
    (b"vreplay 2\ncache 1\ndrop 0\n", f'line 3: {WORDS}; found "drop 0"'),
    (b"kalyubos 1\ncache 1\ndrop 0 0\n", 'line 3: drop has 1 field after it, each after one space, as "drop 0"; found "drop 0 0"'),
    (b"kalyubos 1\ncache 1\nhold\n", 'line 3: hold has 1 field after it, each after one space, as "hold 0"; found "hold"'),
    (b"kalyubos 1\ncache 1\nrelease 100\n", f'line 3: a slot {NUMBER.format(8)}; found "100"'),
    (b"kalyubos 1\ncache 1\nreleases 0\n", f'line 3: {WORDS_EXTENDED}; found "releases 0"'),
    # further devices, of which a disk has fields of its own
    (b"kalyubos 1\ncache 1\nplug 0\n", 'line 3: plug has 3 fields after it, each after one space, as "plug 0 0 entropy"; found "plug 0"'),
    (b"kalyubos 1\ncache 1\nplug 0 0 disk\n",
     'line 3: plug has 7 fields after it, each after one space, as "plug 0 0 disk 800 rw 6469736b2d310000000000000000000000000000 4"; found "plug 0 0 disk"'),
    (b"kalyubos 1\ncache 1\nplug 0 0 balloon\n",
     'line 3: a further device is entropy, network:525400123456:5dc by its address and its MTU, console:50:19 by its columns and rows, disk or image; found "balloon"'),
    (f"kalyubos 1\ncache 1\nplug 0 0 disk 8 rw {NAMED} 100\n".encode(), f'line 3: a number of operations {NUMBER.format(8)}; found "100"'),
    (f"kalyubos 1\ncache 1\nplug 0 0 disk 08 rw {NAMED} 1\n".encode(), f'line 3: a disk\'s number of sectors {NUMBER.format(64)}; found "08"'),
    (f"kalyubos 1\ncache 1\nplug 0 0 disk 8 wr {NAMED} 1\n".encode(), 'line 3: a disk is rw or ro; found "wr"'),
    (b"kalyubos 1\ncache 1\nplug 0 0 console:50\n",
     'line 3: a further device is entropy, network:525400123456:5dc by its address and its MTU, console:50:19 by its columns and rows, disk or image; found "console:50"'),
    (b"kalyubos 1\ncache 1\ndsent 0\n", 'line 3: dsent has 2 fields after it, each after one space, as "dsent 0 0"; found "dsent 0"'),
    (b"kalyubos 1\ncache 1\ndsz 0 0 50\n", 'line 3: dsz has 4 fields after it, each after one space, as "dsz 0 0 50 19"; found "dsz 0 0 50"'),
    (b"kalyubos 1\ncache 1\ndsz 0 0 10000 19\n", f'line 3: a number of columns {NUMBER.format(16)}; found "10000"'),
    (b"kalyubos 1\ncache 1\ndio 0 0 done\n", 'line 3: dio has 4 fields after it, each after one space, as "dio 0 0 0 done"; found "dio 0 0 done"'),
    (b"kalyubos 1\ncache 1\nddrop 0\n", 'line 3: ddrop has 2 fields after it, each after one space, as "ddrop 0 0"; found "ddrop 0"'),
    (b"kalyubos 1\ncache 1\ndhold 0 100\n", f'line 3: a further device {NUMBER.format(8)}; found "100"'),
    (b"kalyubos 1\ncache 1\ndrelease 0\n", 'line 3: drelease has 2 fields after it, each after one space, as "drelease 0 0"; found "drelease 0"'),
    (b"vreplay 2\ncache 1\ndhold 0 0\n", f'line 3: {WORDS}; found "dhold 0 0"'),
    (b"kalyubos 1\ncache 1\n", "the trace's board: a board needs a slot"),
    (f"vreplay 2\ncache 1\nslot 0 1000 0 9 rw 50 19 {NAMED}\n".encode(),
     "slot 0 (line 3): an extent passes the end of the image"),
    (b"vreplay 1\ncache 1\n" + b"slot 0 1000 0 0 rw 0 0\n" * 17,
     "the trace's board: after \"vreplay 1\" it has sixteen slots at most, after another first line sixty-four"),
    (b"vreplay 2\ncache 1\n", "the trace's board: a board needs a slot"),
]

# The line behind those of ONE_SLOT, and what a person is told of it.
LINES = [
    (b"", f'{WORDS}; found ""'),
    (b"read 0", f'{WORDS}; found "read 0"'),
    (b"slot", 'slots stand before all events; found "slot"'),
    (b"r 0 b 000", 'r has 4 fields after it, each after one space, as "r 0 b 070 4"; found "r 0 b 000"'),
    (b"in 0  61", 'in has 2 fields after it, each after one space, as "in 0 6c730a"; found "in 0  61"'),
    (b"r 100 b 00 4", f'a slot {NUMBER.format(8)}; found "100"'),
    (b"r 0 d 70 4", f'{OFFSET}; found "70"'),
    (b"w 0 b 07G 4 00000001", f'{OFFSET}; found "07G"'),
    (b"w 0 b 070 4 1",
     'a value is two lower case hexadecimal digits for each byte of its width, as 0000000f of width 4; found "1"'),
    (b"r 0 d 000 3", 'a window is b or c; found "d"'),
    (b"r 0 b 000 4\r", 'a width is 1, 2 or 4; found "4\\x0d"'),
    (b"w 0 b 070 3 zz", 'a width is 1, 2 or 4; found "3"'),
    (b"mr 0 80000000 00", f'a length {NUMBER.format(32)}; found "00"'),
    (b"mr 0 10000000000000000 1", f'an address {NUMBER.format(64)}; found "10000000000000000"'),
    (b"mw 0 80000000 AB", f'{BYTES}; found "AB"'),
    (b"in 0 61626364656667686970717273747576777879z",
     f'{BYTES}; found "61626364656667686970717273747576777879z"'),
    (b"in 0 000102030405060708090a0b0c0d0e0f10111213z",
     f'{BYTES}; found "000102030405060708090a0b0c0d0e0f10111213"..'),
    (b"in 0 ", f'{BYTES}; found ""'),
    (b"sz 0 10000 19", f'a number of columns {NUMBER.format(16)}; found "10000"'),
    (b"sz 0 50 ", f'a number of rows {NUMBER.format(16)}; found ""'),
]

# Traces that are refused, each with its last line: each kind of fault of a trace and of its board.
FAULTS = [
    (b"vreplay 1", "fault trace 1 Cut"),
    (b"vreplay 4\ncache 1\n", "fault trace 1 Header"),
    (b"vreplay 3\ncache 1\n", "fault trace 1 Header"),
    (b"kalyubos 2\ncache 1\n", "fault trace 1 Header"),
    (b"vreplay 1\n\xff\xfe\n", "fault trace 2 Word"),
    (b"vreplay 1\ncache 1\nx\n", "fault trace 3 Word"),
    (b"vreplay 1\ncache 1\nslot 0 1000 0 8 rw 50 19\nr 0 c 008 4\nslot\n", "fault trace 5 Order"),
    (b"vreplay 1\ncache 1\nslot 0 1000 0 8 rw 50 19\nr 0 c 008\n", "fault trace 4 Fields"),
    (b"vreplay 1\ncache 1\nslot 0 1000 0 8 rw 50 19\nr 0 c 8 4\n", "fault trace 4 Number"),
    (b"vreplay 1\ncache 1\nslot 0 1000 0 8 rw 50 19\nr 0 d 008 4\n", "fault trace 4 Choice"),
    (b"vreplay 1\ncache 1\nslot 0 1000 0 8 rw 50 19\nin 0 6\n", "fault trace 4 Bytes"),
    (b"vreplay 1\ncache 1\n", "fault board NoSlots"),
    (b"vreplay 1\ncache 1\n" + b"slot 0 1000 0 0 rw 50 19\n" * 17, "fault board TooManySlots"),
    (b"vreplay 1\ncache 1\nslot 0 fff 0 8 rw 50 19\n", "fault board BadSize"),
    (b"vreplay 1\ncache 1\nslot 1 1000 0 8 rw 50 19\n", "fault board BadBase"),
    (b"vreplay 1\ncache 1\nslot 0 1000 0 9 rw 50 19\n", "fault board ExtentOutside"),
    (b"vreplay 1\ncache 1\nslot 0 1000 0 2 rw 50 19\nslot 0 1000 1 1 rw 50 19\n", "fault board ExtentsOverlap"),
    (b"vreplay 1\ncache 0\nslot 0 1000 0 8 rw 50 19\n", "fault board BadCapacity"),
    (f"kalyubos 1\ncache 1\nslot 0+1000,1000+1000 image 0 8 rw 50 19 {NAMED}\n".encode(), "fault board NotApart"),
    (b"kalyubos 1\nhosted\n", "fault trace 2 Word"),
    (f"kalyubos 1\ncache 1\nslot 80000000+1000 0 8 rw 50 19 {NAMED}\n".encode(), "fault trace 3 Fields"),
    (f"kalyubos 1\ncache 1\nslot 80000000+1000 file 0 8 rw 50 19 {NAMED}\n".encode(), "fault trace 3 Choice"),
    (f"kalyubos 1\ncache 1\nslot 80000000+1000 host:1 0 8 rw 50 19 {NAMED}\nio 0 0 ok\n".encode(), "fault trace 4 Choice"),
    (b"kalyubos 1\ncache 1\n", "fault board NoSlots"),
    (f"kalyubos 1\ncache 0\nslot 80000000+1000 host:1 0 8 rw 50 19 {NAMED}\n".encode(), "fault board BadCapacity"),
    (f"kalyubos 1\ncache 1\nslot 80000000+1000 host:1 0 80000000000000 rw 50 19 {NAMED}\n".encode(), "fault board ExtentOutside"),
]
