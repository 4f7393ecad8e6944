"""Each bit of a descriptor's address and length, in rings and in tables."""
from .drivers import KINDS, WRITE
from .story import LENGTH, Slot, Story
from .vehicles import VEHICLES, up

TITLE = "Descriptors"
HOW = ("The right address and length are tried, and those that differ from them in one bit: inside memory by the bytes there, "
       "outside by the fault Range.")
FOLDERS = {"bits_descriptors": "Each bit of a descriptor's fields, in rings and in tables."}

# A base and an offset for each kind of ring, so that each bit is once 0 and once 1 in what is right.
BASES = {"split": 0x5555555555550000, "packed": 0xaaaaaaaaaaaa0000}
OFFSETS = {"split": 0x5a5a, "packed": 0xa5a5}
PLACES = [(kind, in_table) for kind in KINDS for in_table in (False, True)]


def where(kind, in_table):
    return f"{kind}_table" if in_table else f"{kind}_ring"


def inside(base, length, address, count):
    return base <= address and address + count <= base + length


def stories():
    for kind, in_table in PLACES:
        for name in VEHICLES:
            yield addresses(kind, in_table, name)
            yield lengths(kind, in_table, name)


def story_of(kind, in_table, name, field, bits):
    place = where(kind, in_table)
    return Story(f"bits_descriptors/{place}_{field}_of_{name}", f"each bit of the {field} of a descriptor in a {place.replace('_', ' ')} decides",
                 [Slot(BASES[kind])], shows=[(f"descriptor's {field}, {place.replace('_', ' ')}", bits)])


def addresses(kind, in_table, name):
    """A buffer of one byte at each address that differs in one bit."""
    base, right = BASES[kind], BASES[kind] + OFFSETS[kind]
    story = story_of(kind, in_table, name, "address", "0..63")
    vehicle = up(story, VEHICLES[name], KINDS[kind], base, in_table)
    vehicle.shows(right, 1, 1)
    for bit in range(64):
        address = right ^ 1 << bit
        if inside(base, LENGTH, address, 1):
            vehicle.shows(address, 1, 2 + bit)
        else:
            vehicle.offer(address, 1)
            vehicle.refused()
    vehicle.shows(right, 1, 0xee)
    return story


def lengths(kind, in_table, name):
    """A buffer that ends with the memory, and lengths of one bit more."""
    base = BASES[kind]
    story = story_of(kind, in_table, name, "length", "0..31")
    vehicle = up(story, VEHICLES[name], KINDS[kind], base, in_table)
    last = base + LENGTH - 1
    vehicle.shows(last, 1, 1)
    for bit in range(1, 32):
        vehicle.offer(last, 1 | 1 << bit)
        vehicle.refused()
    for bit in range(10):
        vehicle.shows(base + 0x8000, 0x155 ^ 1 << bit, 2 + bit)
    return story
