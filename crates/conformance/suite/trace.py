"""The lines of a trace: what each is in words, and which features a driver in it takes or asks for.

Lines that are none of a trace are passed over: some scenarios are about just those.
"""
import functools
import re
import typing

import trace_text
from trace_text import slots_of

# Offset, name, and whether a driver may read it.
REGISTERS = {
    0x000: "MagicValue", 0x004: "Version", 0x008: "DeviceID", 0x00c: "VendorID",
    0x010: "DeviceFeatures", 0x014: "DeviceFeaturesSel", 0x020: "DriverFeatures", 0x024: "DriverFeaturesSel",
    0x030: "QueueSel", 0x034: "QueueNumMax", 0x038: "QueueNum", 0x044: "QueueReady", 0x050: "QueueNotify",
    0x060: "InterruptStatus", 0x064: "InterruptACK", 0x070: "Status",
    0x080: "QueueDescLow", 0x084: "QueueDescHigh", 0x090: "QueueDriverLow", 0x094: "QueueDriverHigh",
    0x0a0: "QueueDeviceLow", 0x0a4: "QueueDeviceHigh",
    0x0ac: "SHMSel", 0x0b0: "SHMLenLow", 0x0b4: "SHMLenHigh", 0x0b8: "SHMBaseLow", 0x0bc: "SHMBaseHigh",
    0x0c0: "QueueReset", 0x0fc: "ConfigGeneration",
}
CONFIGURATION = 0x100
WINDOWS = {"b": "block", "c": "console"}

# The identity of each slot of a trace of version 1, as a serial number.
SERIAL = "vreplay-block"

# The bits of section 6, and those of each device (5.2.3, 5.3.3).
EVERY_FEATURE = {
    24: "notify_on_empty", 27: "any_layout", 28: "indirect_desc", 29: "event_idx", 32: "version_1",
    33: "access_platform", 34: "ring_packed", 35: "in_order", 36: "order_platform", 37: "sr_iov",
    38: "notification_data", 39: "notif_config_data", 40: "ring_reset",
}
FEATURES = {
    "b": {0: "barrier", 1: "size_max", 2: "seg_max", 4: "geometry", 5: "ro", 6: "blk_size", 7: "scsi", 9: "flush",
          10: "topology", 11: "config_wce", 12: "mq", 13: "discard", 14: "write_zeroes", 15: "lifetime",
          16: "secure_erase"},
    "c": {0: "size", 1: "multiport", 2: "emerg_write"},
}

# The configuration fields that stand for a feature: the first byte, the byte behind the last, and the feature.
FIELDS = {
    "b": [(8, 12, "size_max"), (12, 16, "seg_max"), (20, 24, "blk_size"), (48, 57, "write_zeroes")],
    "c": [(0, 4, "size"), (8, 12, "emerg_write")],
}


def bit_name(window, bit):
    """The feature of a bit, or `bit_N` where the standard names none."""
    return EVERY_FEATURE.get(bit) or FEATURES[window].get(bit) or f"bit_{bit}"


# The first line of an extended trace.
EXTENDED = trace_text.EXTENDED + "\n"

# Every name that a scenario's features may have.
BESIDE_BITS = {"guests", "extended", "regions", "hosted", "depth", "held", "devices", "disks", "consoles", "spare", "ro", "input", "resize", "size", "restore",
               "vendor", "offer", "fails", "calls"}
NAMED = BESIDE_BITS | {feature for fields in FIELDS.values() for _, _, feature in fields} \
    | {bit_name(window, bit) for window in WINDOWS for bit in range(64)}


class Event(trace_text.Line):
    """An event line."""

    def in_words(self):
        """What the event is, for a reader; a scenario may be about a line that is none."""
        try:
            return f"guest {self['slot']} " + getattr(self, "say_" + self.word)(*self.behind)
        except (KeyError, ValueError):
            return "no event"

    def say_r(self, window, offset, width):
        return f"reads {width} bytes of {place(window, offset)}"

    def say_w(self, window, offset, width, value):
        return f"writes {value} to {place(window, offset)}" + ("" if width == "4" else f", with width {width}")

    def say_mr(self, address, length):
        return f"looks at {counted(int(length, 16))} of its memory at {address}"

    def say_mw(self, address, data):
        return f"puts {counted(bytes_in(data))} into its memory at {address}"

    def say_in(self, data):
        return f"is typed {counted(bytes_in(data))}"

    def say_sz(self, columns, rows):
        return f"gets a console of {int(columns, 16)} by {int(rows, 16)}"

    def say_st(self, data):
        return f"is restored from {counted(bytes_in(data))}"

    def say_io(self, tag, verdict):
        return f"has its disk's operation of tag {tag} {verdict}"

    def say_drop(self):
        return "has what is in flight of its disk dropped"

    def say_hold(self):
        return "is held"

    def say_release(self):
        return "is released"

    def say_plug(self, device, kind, *disk):
        return f"gets device {device}, {' '.join([kind, *disk])}"

    def say_dr(self, device, offset, width):
        return f"reads {width} bytes of offset {offset} of its device {device}"

    def say_dw(self, device, offset, width, value):
        return f"writes {value} to offset {offset} of its device {device}" + ("" if width == "4" else f", with width {width}")

    def say_supply(self, device, data):
        return f"has its device {device} supplied with {counted(bytes_in(data))}"

    def say_frame(self, device, data):
        return f"has a frame of {counted(bytes_in(data))} handed to its device {device}"

    def say_take(self, device):
        return f"has a frame or output taken from its device {device}"

    def say_dsent(self, device):
        return f"has a frame or output of its device {device} dropped"

    def say_link(self, device, link):
        return f"has the link of its device {device} {link}"

    def say_dsz(self, device, columns, rows):
        return f"has its device {device} resized to {int(columns, 16)} by {int(rows, 16)}"

    def say_dio(self, device, tag, verdict):
        return f"has the operation of tag {tag} of its device {device} {verdict}"

    def say_ddrop(self, device):
        return f"has what is in flight of its device {device} dropped"

    def say_dhold(self, device):
        return f"has its device {device} held"

    def say_drelease(self, device):
        return f"has its device {device} released"


def bytes_in(field):
    return 0 if field == "-" else len(field) // 2


def counted(count):
    return f"{count} byte" + ("" if count == 1 else "s")


def place(window, offset):
    """A register in words, as `Status of its block window`."""
    offset = int(offset, 16)
    if offset >= CONFIGURATION:
        return f"byte {offset - CONFIGURATION} of the configuration of its {WINDOWS[window]} window"
    return f"{REGISTERS.get(offset, f'offset {offset:03x}')} of its {WINDOWS[window]} window"


def events_of(text):
    """The events of a trace's text, up to the first line that is none."""
    return trace_text.events_of(text, Event)


def tests_text(text):
    """Whether a trace is about its text, which an adapter doesn't judge: a line has a fault, or it is of version 2."""
    return text.startswith(trace_text.FIRST_LINES[1]) or trace_text.fault_of(text.encode("latin-1")) is not None


def serial_of(slot):
    """The identity of a slot's disk as a serial number, or None where it is no word."""
    serial = slot["identity"].rstrip(b"\0").decode("latin-1") if "identity" in slot else SERIAL
    return serial if re.fullmatch(r"[\w-]+", serial, re.ASCII) else None


def plugs_disk(event):
    """Whether an event plugs in a disk, whoever serves it."""
    return trace_text.is_disk(event.word, event.words[1:])


def plugs_console(event):
    """Whether an event plugs in a console."""
    return event.word == "plug" and event["kind"].startswith("console:")


class Window:
    """The registers of one window that say which features are spoken of."""

    def __init__(self):
        self.device_selector = self.driver_selector = 0


def features_of(text, replies):
    """The names of what a device must have for the trace to be about it.

    They are the features that a driver takes or asks for (DriverFeatures), those that a device shows (the expected
    answers of DeviceFeatures), and those whose configuration fields are touched. Others are no bits: `offer`, all
    offered features are read; `vendor`, VendorID is; `resize`, `input` and `restore`, the host does that; `hosted`, it
    serves a disk; `depth`, several operations of one may be in flight; `held`, what is in flight is dropped, or a slot is held or released; `devices`,
    a slot has further devices; `disks` and `consoles`, some of these are; `spare`, a slot has spare sectors; `guests`, there are more than one; `ro`, a slot is read-only;
    `extended`, the trace is of no version that a plain one has, and `regions`, a memory of it has more than one.
    """
    found = {"extended"} if text.startswith(EXTENDED) else set()
    slots = slots_of(text)
    if len(slots) > 1:
        found.add("guests")
    hosted = {slot.disk() for slot in slots if slot.disk().startswith("host:")}
    if hosted:
        found.add("hosted")
    if hosted - {"host:1"}:
        found.add("depth")
    if any(slot.disk().startswith("image+") for slot in slots):
        found.add("spare")
    if any("," in slot.fields.get("regions", "") for slot in slots):
        found.add("regions")
    if any(slot.fields.get("mode") == "ro" for slot in slots):
        found.add("ro")
    lines = text.split("\n")
    told = {line: read_any(line) for line in set(lines)}
    if any(read is WRONG for read in told.values()):
        del lines[next(at for at, line in enumerate(lines) if told[line] is WRONG):]
    events = [line for line in lines if told[line]][:len(replies)]
    read = {line: told[line] for line in set(events)}
    found.update(*{one.always for one in read.values()})
    speaking, windows = {line: one.access for line, one in read.items() if one.access}, {}
    for line, reply in zip(events, replies) if speaking else ():
        if line in speaking:
            found |= features_at(*speaking[line], reply, windows)
    return found


class Read(typing.NamedTuple):
    """A line that is an event: the features that it has whatever came before, and its access to a register, if that may have others."""

    always: frozenset = frozenset()
    access: typing.Optional[tuple] = None


# A line with the word of an event and other fields: no feature is read of it and of what is behind it.
WRONG = Read(frozenset(["wrong"]))
# A write to a register that doesn't speak of features, whatever its value is.
SILENT = re.compile("w [0-9a-f]+ [bc] (?!0[127])[0-9a-f]{3} [124] [0-9a-f]+")


def read_any(line):
    """What read_line reads, of most lines by their word and the number of their fields."""
    fixed = FIXED.get(line.partition(" ")[0])
    if fixed:
        count, read = fixed
        return read if line.count(" ") == count else WRONG
    return read_line(line.rpartition(" ")[0] + " 0" if SILENT.fullmatch(line) else line)


@functools.lru_cache(maxsize=1 << 14)
def read_line(line):
    """What is read of a line by itself; of one that is no event nothing."""
    words = trace_text.words_of(line)
    if words[0] not in trace_text.EVENTS:
        return None
    event = Event(words)
    if len(words) != 1 + len(event.kinds):
        return WRONG
    try:
        found = frozenset(features_in(event, "", {}))
        return Read(access=access_of(event)) if speaks(event) else Read(found)
    except ValueError:
        return WRONG


def speaks(event):
    """Whether it depends on what came before, or on the reply, which features an access to a register speaks of."""
    if event.word not in ("r", "w") or event["window"] not in WINDOWS or event.fields["width"] != "4":
        return False
    if event.word == "r":
        return event["offset"] == 0x010
    return event["offset"] in (0x014, 0x020, 0x024) or event["offset"] == 0x070 and event["value"] == 0


def features_in(event, reply, windows):
    """The features of one event."""
    if event.word == "in":
        return {"input"}
    if event.word == "sz":
        return {"resize", "size"}
    if event.word == "st":
        return {"restore"}
    if event.word == "io":
        return {"hosted"}
    if event.word in ("drop", "hold", "release"):
        return {"hosted", "held"}
    if event.word in ("dio", "ddrop", "dhold", "drelease") or plugs_disk(event):
        return {"devices", "disks"}
    if event.word == "dsz" or plugs_console(event):
        return {"devices", "consoles"}
    if event.word in ("plug", "dr", "dw", "supply", "frame", "take", "dsent", "link"):
        return {"devices"}
    if event.word not in ("r", "w") or event["window"] not in WINDOWS:
        return set()
    name, offset = event["window"], event["offset"]
    if offset >= CONFIGURATION:
        byte, end = offset - CONFIGURATION, offset - CONFIGURATION + event["width"]
        return {feature for first, behind, feature in FIELDS[name] if byte < behind and end > first}
    if event.fields["width"] != "4":
        return set()
    return features_at(*access_of(event), reply, windows)


# The lines whose features follow from their word: how many fields they have, and what is read of them.
FIXED = {word: (len(kinds), Read(frozenset(features_in(Event([word, *kinds]), "", {})))) for word, kinds in trace_text.LINES.items()
         if word in trace_text.EVENTS - {"r", "w", "plug"}}


def access_of(event):
    """An access to a register: whether it reads, the slot and the window, the offset, and what it writes."""
    is_read = event.word == "r"
    return is_read, (event["slot"], event["window"]), event["offset"], 0 if is_read else event["value"]


def features_at(is_read, key, offset, value, reply, windows):
    """The features of an access to a register."""
    window = windows.get(key)
    if window is None:
        window = windows[key] = Window()
    return shown(key[1], offset, reply, window) if is_read else written(key[1], offset, value, window)


def shown(name, offset, reply, window):
    if offset == 0x00c:
        return {"vendor"}
    if offset != 0x010:
        return set()
    answer = reply.split(" ")[1] if reply.count(" ") >= 4 else ""
    value = int(answer[2:], 16) if answer.startswith("v:") else 0
    return {"offer"} | named(name, value, window.device_selector)


def written(name, offset, value, window):
    if offset == 0x014:
        window.device_selector = value
    elif offset == 0x024:
        window.driver_selector = value
    elif offset == 0x070 and value == 0:
        window.device_selector = window.driver_selector = 0
    elif offset == 0x020:
        return named(name, value, window.driver_selector)
    return set()


def named(name, value, selector):
    if selector > 1:
        return set()
    return {bit_name(name, 32 * selector + bit) for bit in range(32) if value >> bit & 1}
