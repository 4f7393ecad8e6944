"""Each bit of a table's own address and length, in the descriptor that names it."""
from .descriptors import BASES, OFFSETS, inside
from .drivers import INDIRECT, INDIRECT_DESC, KINDS, NEXT, Buffer
from .links import FRONT, ROOM, Request, Text
from .story import BASE, LENGTH, Slot, Story
from .vehicles import VEHICLES, up

TITLE = "Tables"
HOW = ("A table lies at each address that differs in one bit from a right one, and has each length that does. Its length tells how many "
       "entries a packed one has, and below what next must be in a split one.")
FOLDERS = {"bits_tables": "Each bit of a table's address and length."}

# The entries lie here, more than a table has.
TABLE = BASE + 0x9000


def stories():
    for kind in KINDS:
        for name in VEHICLES:
            yield addresses(kind, name)
        for vehicle in (Request, Text):
            yield (split_lengths if kind == "split" else packed_lengths)(vehicle)


def addresses(kind, name):
    base, right = BASES[kind], BASES[kind] + OFFSETS[kind]
    story = Story(f"bits_tables/{kind}_address_of_{name}", f"each bit of the address of a {kind} table decides", [Slot(base)],
                  shows=[(f"table's address, {kind}", "0..63")])
    at = up(story, VEHICLES[name], KINDS[kind], base, True)
    count = 16 * len(at.chain(Buffer(base, 1)))
    for bit, address in enumerate([right ^ 1 << bit for bit in range(64)] + [right]):
        if inside(base, LENGTH, address, count):
            at.table = address
            at.shows(base + 0x8000 + bit, 1, 1 + bit)
            at.queue.put(address, bytes(count))
        else:
            at.queue.offer([Buffer(address, count, INDIRECT)])
            at.refused()
    return story


def length_values():
    return [1 << bit for bit in range(32)] + [0x5a0 ^ 1 << bit for bit in range(32)]


def story_of(kind, vehicle):
    story = Story(f"bits_tables/{kind}_length_of_{vehicle.NAME}", f"each bit of the length of a {kind} table decides",
                  shows=[(f"table's length, {kind}", "0..31")])
    queue = KINDS[kind](story, vehicle.WINDOW, vehicle.INDEX, 4, INDIRECT_DESC).bring_up()
    return queue, vehicle(queue)


def is_good(length):
    return length and length % 16 == 0 and length <= 4096


def again(queue, at):
    at.refuse()
    queue.bring_up_again()


def split_lengths(vehicle):
    """The last entry may come next, and the one behind it may not."""
    queue, at = story_of("split", vehicle)
    front = vehicle.FRONT
    queue.put(TABLE, b"".join(queue.entry(Buffer(ROOM + which % 256, 1, vehicle.FLAGS, 0), 0) for which in range(257)))
    for length in length_values():
        number = length // 16
        for following in (number - 1, number) if is_good(length) else (1,):
            if following == 0:
                continue
            queue.put(TABLE, queue.entry(Buffer(front.address, front.length, front.flags | NEXT, following), 0))
            queue.offer([Buffer(TABLE, length, INDIRECT, 0)])
            if is_good(length) and following < number:
                at.serve(following, True)
            else:
                again(queue, at)
    return queue.story


def packed_lengths(vehicle):
    """All entries are taken: the front, and a byte of each other one."""
    queue, at = story_of("packed", vehicle)
    front = vehicle.FRONT
    entries = [front] + [Buffer(ROOM + which, 1, vehicle.FLAGS, 0) for which in range(1, 256)] + [front]
    queue.put(TABLE, b"".join(queue.entry(one, 0) for one in entries))
    for length in length_values():
        number = length // 16
        queue.offer([Buffer(TABLE, length, INDIRECT)])
        if not is_good(length):
            again(queue, at)
        elif vehicle is Text:
            queue.notify(output=b"\xee" + bytes(range(1, number)))
        else:
            last(queue, number)
    return queue.story


def last(queue, number):
    """The status of a FLUSH comes to the last entry's byte; a table of the header alone has no room for one."""
    if number == 1:
        queue.notify()
        return
    queue.put(ROOM + number - 1, b"\xee")
    queue.notify()
    queue.look(ROOM + number - 1, 1, b"\0")
    queue.look_at_used(1 if number == 2 else 0, 0)
