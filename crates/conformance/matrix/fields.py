"""Each field of both configurations, on slots that differ in one thing each, in each stage of a driver's work, with each width."""
from .drivers import ACKNOWLEDGE, DRIVER, FAULT, FEATURES_OK, STATUS, Buffer, Split
from .registers import ALL, WINDOWS
from .story import BASE, Slot, Story

TITLE = "Configuration fields"
HOW = ("Every offset of the control registers in width 4, and of the configuration and 16 bytes behind it in each width, on a slot that may "
       "be written and one that may not, each with sectors and without: as the board is made, after FEATURES_OK, while the window is live, "
       "and when it needs a reset.")
COLUMNS = ("What", "Where")
FOLDERS = {"bits_configuration": "Each field of both configurations on slots of each kind, in each stage, with each width."}

KINDS_OF_SLOTS = {"of_a_slot_to_be_written": Slot(count=7), "of_a_read_only_slot": Slot(count=7, mode="ro"),
                  "of_an_empty_slot": Slot(count=0), "of_an_empty_read_only_slot": Slot(count=0, mode="ro", columns=0xffff, rows=0)}
OFFERED = {"b": 0x30004244, "c": 0x30000005}


def stories():
    for window in WINDOWS:
        for name, slot in KINDS_OF_SLOTS.items():
            yield configuration(window, name, slot)


def fields(window, slot):
    """The configuration's bytes by the standard's layout: each field at its offset, with its bytes."""
    found = bytearray(64)
    if window == "b":
        layout = {0: (slot.count, 8), 12: (126, 4), 20: (512, 4), 48: (65536, 4), 52: (32, 4)}
    else:
        layout = {0: (slot.columns, 2), 2: (slot.rows, 2)}
    for at, (value, size) in layout.items():
        found[at:at + size] = value.to_bytes(size, "little")
    return bytes(found)


def configuration(window, name, slot):
    """In each stage all that can be read."""
    story = Story(f"bits_configuration/{WINDOWS[window]}_{name}", "Each field shows the same in each stage, in each width.",
                  [slot], shows=[(f"configuration of a {WINDOWS[window]} window", name.replace("_", " "))])
    read_all(story, window, slot, 0, 0)
    queue = Split(story, window, 0 if window == "b" else 1, 4)
    queue.begin()
    read_all(story, window, slot, ACKNOWLEDGE | DRIVER | FEATURES_OK, 0)
    queue.make_ready()
    queue.go()
    read_all(story, window, slot, 0xf, 1)
    queue.offer([Buffer(BASE - 1, 1)])
    queue.notify(FAULT)
    read_all(story, window, slot, 0x4f, 1)
    story.write(window, STATUS, 0)
    read_all(story, window, slot, 0, 0)
    return story


def read_all(story, window, slot, status, is_ready):
    control = {0x000: 0x74726976, 0x004: 2, 0x008: 2 if window == "b" else 3, 0x00c: 0x4f424d56, 0x034: 256, 0x044: is_ready,
               0x010: OFFERED[window] | (0x20 if window == "b" and slot.mode == "ro" else 0),
               0x060: story.words[0, window], 0x070: status, 0x0b0: ALL, 0x0b4: ALL, 0x0b8: ALL, 0x0bc: ALL}
    for offset in range(0, 0x100, 4):
        story.read(window, offset, control.get(offset, 0))
    content = fields(window, slot)
    for width in (1, 2, 4):
        for at in range(0x50):
            found = int.from_bytes(content[at:at + width], "little") if at % width == 0 else 0
            story.read(window, 0x100 + at, found, width=width)
