"""Emergency writes: each width with each byte, in each status, many in a row, and between a console's other output."""
from .by_hand import written_out
from .drivers import DRIVER_FEATURES, DRIVER_SEL, FAULT, STATUS, VERSION_1, Buffer, Packed, Split
from .statuses import EACH
from .story import BASE, Story

TITLE = "Emergency writes"
HOW = ("Bytes of each class, and all 256, are written to emerg_wr in each width, with other bits above them, in each status, before and behind EMERG_WRITE, "
       "256 times in a row, and between texts. No other offset of the configuration, and no other window, puts a byte out.")
COLUMNS = ("What is written", "Where")
FOLDERS = {"emergency": "Each byte, width and status of an emergency write."}

EMERGENCY, WIDTHS = 0x108, (1, 2, 4)
CLASSES = (0x00, 0x09, 0x0a, 0x0d, 0x1b, 0x20, 0x2d, 0x30, 0x41, 0x7e, 0x7f, 0x80, 0xa0, 0xff)
# What stands above the byte, by its width.
ABOVE = {1: (0,), 2: (0, 0xff00, 0x0a00), 4: (0, 0xffffff00, 0x00000a00, 0x41000000, 0x00410000)}


def stories():
    yield by_hand()
    yield shown("each byte of each class", "each width, in each status", in_each_status())
    yield shown("all 256 bytes", "each width", all_bytes())
    yield shown("256 and more in a row", "of one byte and of each width", in_a_row())
    yield shown("bytes between texts", "split and packed, with EMERG_WRITE and without", between_texts())
    yield shown("bytes beside emerg_wr", "each offset of the configuration and each width", beside())


def shown(what, where, story):
    story.shows = [(what, where)]
    return story


def by_hand():
    """A line feed and a byte of 8 bits, of each width, before a driver and behind FAILED."""
    return written_out("emergency/each_width_by_hand", "The low byte of an emergency write goes out, whatever stands above it.", """
        w 0 c 108 1 0a > 0 done 0a 0 0
        w 0 c 108 2 41ff > 0 done ff 0 0
        w 0 c 108 4 0a000100 > 0 done 00 0 0
        w 0 c 070 4 00000080 > 0 done - 0 0
        w 0 c 108 2 0080 > 0 done 80 0 0
        w 0 b 108 1 41 > 0 done - 0 0
        w 0 c 109 1 41 > 0 done - 0 0
        w 0 c 10a 2 4141 > 0 done - 0 0
        """)


def puts(story, byte, width, above=0):
    story.write("c", EMERGENCY, above | byte, output=bytes([byte]), width=width)


def in_each_status():
    story = Story("emergency/each_class_in_each_status", "A byte of each class goes out in each status of the window, in each width.")
    for turn, status in enumerate(EACH):
        story.write("c", STATUS, 0)
        story.write("c", DRIVER_SEL, 1)
        story.write("c", DRIVER_FEATURES, VERSION_1)
        if status:
            story.write("c", STATUS, status)
        for place, byte in enumerate(CLASSES):
            for width in WIDTHS:
                puts(story, byte, width, ABOVE[width][(turn + place) % len(ABOVE[width])])
        story.read("c", STATUS, status)
    queue = Split(story, "c", 1, 4).bring_up()
    queue.offer([Buffer(BASE - 1, 1)])
    queue.notify(FAULT)
    for byte in CLASSES:
        for width in WIDTHS:
            puts(story, byte, width)
    return story


def all_bytes():
    story = Story("emergency/all_bytes_of_each_width", "Each of 256 bytes goes out, in each width, with other bits above it.")
    for width in WIDTHS:
        for byte in range(256):
            puts(story, byte, width, ABOVE[width][byte % len(ABOVE[width])])
    return story


def in_a_row():
    story = Story("emergency/260_of_each_in_a_row", "One byte goes out 260 times in a row, in each width; and two by turns.")
    for width in WIDTHS:
        for byte in (0x00, 0x0a, 0x2e, 0xff):
            for _ in range(260):
                puts(story, byte, width)
    for turn in range(520):
        puts(story, (0x0d, 0x0a)[turn % 2], WIDTHS[turn % 3])
    return story


def between_texts():
    story = Story("emergency/between_texts", "Emergency bytes between texts, of drivers with EMERG_WRITE and without it.")
    for turn, kind in enumerate((Split, Packed) * 2):
        queue = kind(story, "c", 1, 4, low=4 * (turn // 2), at=BASE + 0x1000 + 0x3000 * turn).bring_up()
        for place, byte in enumerate(CLASSES):
            story.put(BASE, bytes([byte, 0x60 + place]))
            queue.offer([Buffer(BASE, 2)])
            puts(story, byte, WIDTHS[place % 3])
            queue.notify(output=bytes([byte, 0x60 + place]))
            puts(story, CLASSES[place - 1], WIDTHS[(place + 1) % 3])
            queue.acknowledge()
    return story


def beside():
    story = Story("emergency/beside_emerg_wr", "A write to any other offset of the configuration, to emerg_wr of the disk's window, or to its middle puts nothing out.")
    for window in "bc":
        for offset in range(0x100, 0x118):
            for width in WIDTHS:
                if (window, offset) != ("c", EMERGENCY):
                    story.write(window, offset, 0x21, width=width)
        puts(story, 0x40, 1)
    return story
