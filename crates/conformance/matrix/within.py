"""Memory that a service changes by its own writes: what is read before, and what is read behind them."""
import dataclasses

from .by_hand import written_out
from .drivers import EVENT_IDX, FAULT, INDIRECT_DESC, KINDS, NEXT, SERVED, WRITE, Buffer, Split, number
from .places import shown
from .requests import GET_ID, IDENTITY, IN, OUT, header
from .segments import OK
from .story import BASE, SECTOR, USED, Slot, Story

TITLE = "Memory that a service changes"
HOW = ("What a service writes, data, typed bytes, used entries and closing writes, lies over what it has read, and "
       "over what it reads later: a header, "
       "descriptors, tables, the available ring, the used ring, event suppression.")
COLUMNS = ("What is written", "Over what")
FOLDERS = {"within": "Memory that changes within a service."}

TEXT, HEADER, STATUS, DATA, TABLE, OTHER = (BASE + at for at in (0x5000, 0x6000, 0x7000, 0x8000, 0xa000, 0xb000))
UNTOUCHED = b"\xee"


def stories():
    yield from shown("used entries", "the used ring, put out", [texts_of_the_used_ring()])
    for kind in KINDS:
        yield from shown("sectors of a read", "the header",
                         [header_under_data(kind, in_table) for in_table in (False, True)])
        yield from shown("sectors of a read", "the header of the chain behind", [header_of_the_next(kind)])
        yield from shown("sectors of a read", "the descriptors of the chain, and of the one behind",
                         [descriptors_under_data(kind)])
        yield from shown("sectors of a read", "a table that the chain behind names", [table_that_was_read(kind)])
        yield from shown("typed bytes", "a table that the chain behind names", [table_that_was_typed(kind)])
        yield from shown("typed bytes", "the descriptor of the chain behind", [descriptor_that_was_typed(kind)])
        yield from shown("typed bytes", "the driver's event suppression",
                         [typed_events(kind, low) for low in (0, EVENT_IDX)])
        yield from shown("used entries and closing writes", "texts over the rings",
                         [rings_put_out(kind, low) for low in (0, EVENT_IDX)])
        yield from shown("closing writes", "a descriptor of the next service",
                         [closed_over_a_descriptor(kind, low) for low in (0, EVENT_IDX)])
    yield from shown("typed bytes", "the available ring",
                     [heads_that_were_typed(), heads_of_a_long_service(), idx_that_was_typed()])
    yield from shown("used entries", "the descriptor of the chain behind", [used_entries_over_descriptors()])


def texts_of_the_used_ring():
    """Three texts of the used ring's first 12 bytes, in one service: what the device has written so far."""
    return written_out("within/three_texts_of_the_used_ring",
                       "Three texts of one service are the used ring: each shows the idx and the entries before it.",
                       """
        w 0 c 070 4 00000003 > 0 done - 0 0
        w 0 c 024 4 00000001 > 0 done - 0 0
        w 0 c 020 4 00000001 > 0 done - 0 0
        w 0 c 070 4 0000000b > 0 done - 0 0
        w 0 c 030 4 00000001 > 0 done - 0 0
        w 0 c 038 4 00000004 > 0 done - 0 0
        w 0 c 080 4 80001000 > 0 done - 0 0
        w 0 c 090 4 80002000 > 0 done - 0 0
        w 0 c 0a0 4 80003000 > 0 done - 0 0
        w 0 c 044 4 00000001 > 0 done - 0 0
        w 0 c 070 4 0000000f > 0 done - 0 0
        mw 0 80003000 eeee2211{ff*32} > 0 done - 0 0
        mw 0 80001000 00300080000000000c00000000000000 > 0 done - 0 0
        mw 0 80001010 04300080000000001000000000000000 > 0 done - 0 0
        mw 0 80002002 0300000001000000 > 0 done - 0 0
        w 0 c 050 4 00000001 > 0 done eeee2211{ff*8}{00*8}{ff*8}eeee0200{00*8} 0 1
        mr 0 80003000 1c > 0 b:00000300000000000000000001000000000000000000000000000000 - 0 1
        """)


def story_of(kind, name, about, **more):
    return Story(f"within/{kind}_{name}", about, **more)


def used(queue, length, count=1, wrote=True, **more):
    """The used entry of the last chain, which had so many descriptors in the ring."""
    queue.look_at_used(length,
                       **({"count": count, "wrote": wrote, **more} if queue.is_packed
                          else {key: one for key, one in more.items() if key != "link"}))


def beside(queue, chain, at):
    """Offers a chain beside those that wait: in a split ring its descriptors stand from an index on."""
    queue.offer(chain, **({} if queue.is_packed else {"head": at}))


# --- sectors of a read

def units(*headers):
    """Sectors of which each is 32 times a header."""
    return b"".join(one * 32 for one in headers)


def header_under_data(kind, in_table):
    """Sectors are made of headers that ask for others; that of a read of sectors 2 to 5 lies in each one's room."""
    image = units(*(header(OUT if sector % 2 else IN, 7 * (sector % 2), 0x1000 + sector) for sector in range(8)))
    story = story_of(f"{kind}_table" if in_table else kind, "header_under_the_data",
                     "A read of four sectors writes other headers over its own: it goes on as the first one said.",
                     image=image)
    queue = KINDS[kind](story, "b", 0, 8, low=INDIRECT_DESC).bring_up()
    for sector in range(4):
        for at in (0, 8, 240, 496):
            queue.put(DATA, UNTOUCHED * 4 * SECTOR)
            queue.put(DATA + SECTOR * sector + at, header(IN, 2))
            queue.put(STATUS, UNTOUCHED)
            chain = [Buffer(DATA + SECTOR * sector + at, 16),
                     *(Buffer(DATA + SECTOR * one, SECTOR, WRITE) for one in range(4)), Buffer(STATUS, 1, WRITE)]
            chain = [queue.table(TABLE, chain)] if in_table else chain
            queue.offer(chain)
            queue.notify()
            used(queue, 4 * SECTOR + 1, len(chain))
            queue.look(STATUS, 1, bytes([OK]))
            queue.look(DATA, 4 * SECTOR, image[2 * SECTOR:6 * SECTOR])
    story.leaves = (image, 0)
    return story


def header_of_the_next(kind):
    """The header of the second chain is of no known type, until the first chain's sectors lie over it."""
    image = units(*(header(IN, 7 - sector, 0x2000 + sector) for sector in range(8)))
    story = story_of(kind, "header_of_the_next_chain",
                     "A read writes a header that the chain behind it, of the same service, begins with.", image=image)
    queue = KINDS[kind](story, "b", 0, 8).bring_up()
    for sector in range(3):
        for at in (0, 256, 496):
            place = DATA + SECTOR * sector + at
            queue.put(HEADER, header(IN, 1))
            queue.put(place, header(3))
            queue.put(OTHER, UNTOUCHED * SECTOR)
            queue.put(STATUS, UNTOUCHED * 2)
            beside(queue, [Buffer(HEADER, 16), Buffer(DATA, 3 * SECTOR, WRITE), Buffer(STATUS, 1, WRITE)], 0)
            beside(queue, [Buffer(place, 16), Buffer(OTHER, SECTOR, WRITE), Buffer(STATUS + 1, 1, WRITE)], 4)
            queue.notify()
            used(queue, SECTOR + 1, 3, **({} if queue.is_packed else {"head": 4}))
            queue.look(STATUS, 2, bytes([OK]) * 2)
            # Sector 1 + `sector` names the sector that is read.
            queue.look(OTHER, SECTOR, image[(6 - sector) * SECTOR:(7 - sector) * SECTOR])
    return story


def entries(queue, buffers, first=0):
    """Descriptors as they stand in a table or ring, the first at this index."""
    return b"".join(queue.entry(one, first + at) for at, one in enumerate(buffers))


def linked(buffers):
    return [dataclasses.replace(one, flags=one.flags | NEXT) for one in buffers[:-1]] + buffers[-1:]


def identity_at(place):
    """A chain that puts the identity out at a place; its header lies at HEADER + 32."""
    return [Buffer(HEADER + 32, 16), Buffer(place, 20, WRITE), Buffer(STATUS + 8, 1, WRITE)]


def image_with(content):
    """An image whose sector 1 begins so."""
    return bytes([0x10]) * SECTOR + content + bytes(SECTOR - len(content)) + b"".join(bytes([0x10 + sector]) * SECTOR
                                                                                      for sector in range(2, 8))


def descriptors_under_data(kind):
    """Sector 1 has descriptors: they lie over those of the chain that reads it, and are those of the chain behind."""
    queue = KINDS[kind](None, "b", 0, 8)
    wrong = [Buffer(OTHER + 64 * at, 32, WRITE) for at in range(4)]
    right = linked(identity_at(OTHER + 0x400))
    if queue.is_packed:
        right = [dataclasses.replace(one, flags=one.flags | queue.mark(4), link=0x77) for one in right]
    content = entries(queue, linked(wrong) + right)
    image = image_with(content)
    story = story_of(kind, "descriptors_under_the_data",
                     "A read writes other descriptors over its own, which goes on as it was, and over those of the "
                     "chain behind, "
                     "which is the new one.", image=image)
    queue = KINDS[kind](story, "b", 0, 8).bring_up()
    ring = queue.areas[0]
    queue.put(OTHER, UNTOUCHED * 0x500)
    queue.put(HEADER, header(IN, 1) + bytes(16) + header(GET_ID))
    queue.put(STATUS, UNTOUCHED * 9)
    chain = [Buffer(HEADER, 16), Buffer(ring, SECTOR, WRITE), Buffer(DATA, SECTOR, WRITE), Buffer(STATUS, 1, WRITE)]
    beside(queue, chain, 0)
    if queue.is_packed:
        queue.offered += 3
    else:
        queue.offer_head(4)
    queue.notify()
    queue.look(STATUS, 9, b"\0" + UNTOUCHED * 7 + b"\0")
    queue.look(DATA, SECTOR, b"\x12" * SECTOR)
    queue.look(OTHER, 0x400, UNTOUCHED * 0x400)
    queue.look(OTHER + 0x400, 21, IDENTITY + UNTOUCHED)
    found = bytearray(image[SECTOR:2 * SECTOR])
    if queue.is_packed:
        found[8:16] = number(2 * SECTOR + 1, 4) + number(0, 2) + number(0x8082, 2)
        found[72:80] = number(21, 4) + number(0x77, 2) + number(0x8082, 2)
    else:
        queue.look_at_used(2 * SECTOR + 1, back=2)
        queue.look_at_used(21, head=4)
    queue.look(ring, SECTOR, bytes(found))
    return story


def table_that_was_read(kind):
    """A table says that another identity place is wanted, until the chain before has read the right one over it."""
    queue = KINDS[kind](None, "b", 0, 8)
    table = identity_at(OTHER + 0x40)
    story = story_of(kind, "table_that_the_chain_before_read", "A read writes a table that the chain behind it names.",
                     image=image_with(entries(queue, table if queue.is_packed else linked(table))))
    queue = KINDS[kind](story, "b", 0, 8, low=INDIRECT_DESC).bring_up()
    for is_first in (True, False):
        queue.put(OTHER, UNTOUCHED * 0x80)
        queue.put(HEADER, header(IN, 1) + bytes(16) + header(GET_ID))
        queue.put(STATUS, UNTOUCHED * 9)
        named = queue.table(TABLE, identity_at(OTHER))
        chain = [Buffer(HEADER, 16), Buffer(TABLE, SECTOR, WRITE), Buffer(STATUS, 1, WRITE)]
        for one, at in ((chain, 0), ([named], 4)) if is_first else (([named], 4), (chain, 0)):
            beside(queue, one, at)
        queue.notify()
        queue.look(STATUS, 9, b"\0" + UNTOUCHED * 7 + b"\0")
        # Offered the other way round, the table is read before it is written over.
        queue.look(OTHER + (0x40 if is_first else 0), 21, IDENTITY + UNTOUCHED)
        queue.look(OTHER + (0 if is_first else 0x40), 20, UNTOUCHED * 20)
    return story


# --- typed bytes

def receive(kind, name, about, low=0):
    story = story_of(kind, name, about)
    return story, KINDS[kind](story, "c", 0, 8, low=low).bring_up()


def table_that_was_typed(kind):
    story, queue = receive(kind, "table_that_was_typed",
                           "What is typed is first a table, and then fills the buffers that it names.", INDIRECT_DESC)
    for turn in range(3):
        table = [Buffer(OTHER + 0x20 * turn, 3, WRITE), Buffer(OTHER + 0x100 + 0x20 * turn, 8, WRITE)]
        content = entries(queue, table if queue.is_packed else linked(table))
        named = queue.table(TABLE, [Buffer(OTHER + 0x300, 3, WRITE)] * 2)
        beside(queue, [Buffer(TABLE, 32, WRITE)], 0)
        beside(queue, [named], 4)
        story.type(content + b"abcdef", took=38, told=USED)
        queue.after(SERVED)
        used(queue, 6, **({} if queue.is_packed else {"head": 4}))
        queue.look(TABLE, 32, content)
        queue.look(OTHER + 0x20 * turn, 4, b"abc\0")
        queue.look(OTHER + 0x100 + 0x20 * turn, 4, b"def\0")
        queue.look(OTHER + 0x300, 3, bytes(3))
    return story


def descriptor_that_was_typed(kind):
    """In a packed ring the place behind isn't offered before."""
    story, queue = receive(kind, "descriptor_that_was_typed",
                           "What is typed is first the descriptor of the chain behind, and then fills its buffer.")
    for turn in range(10):
        at = (queue.offered + 1) % 8 if queue.is_packed else 5
        place = queue.areas[0] + 16 * at
        new = Buffer(OTHER + 0x20 * turn, 4, WRITE, 0x99)
        if queue.is_packed:
            new = dataclasses.replace(new, flags=WRITE | queue.mark(queue.offered + 1))
        beside(queue, [Buffer(place, 16, WRITE)], 0)
        if queue.is_packed:
            queue.offered = (queue.offered + 1) % 16
        else:
            queue.put(place, bytes(16))
            queue.offer_head(5)
        story.type(queue.entry(new, 5) + b"abc", took=19, told=USED)
        queue.after(SERVED)
        used(queue, 3, **({"link": 0x99} if queue.is_packed else {"head": 5}))
        queue.look(OTHER + 0x20 * turn, 4, b"abc\0")
    return story


# What the driver's area says: in a packed ring of 8 the first place that a service passes is `p`.
SAYS = {
    "split": {0: [(0, True), (1, False), (2, True), (0xfffe, True), (0xffff, False)],
              EVENT_IDX: [("p", True), ("p-1", False), ("p+1", None), ("p+2", False)]},
    "packed": {0: [((0, 0), True), ((0, 1), False), (("p+4", 2), True), ((0, 3), True)],
               EVENT_IDX: [((0, 0), True), ((0, 1), False), (("p", 2), True), (("p-1", 2), False), (("p+1", 2), None),
                           (("p+2", 2), False), (("p+8", 2), False)]},
}


def typed_events(kind, low):
    """Of one chain, and of two that say otherwise: what stands there last counts. None is told of two chains alone."""
    story, queue = receive(kind, "events_that_were_typed" + ("_with_event_idx" if low else ""),
                           "What is typed goes over the driver's event suppression: it counts as it then stands.", low)
    area = queue.areas[1] + (4 + 16 if low and not queue.is_packed else 0)
    size = 4 if queue.is_packed else 2
    for last, told in SAYS[kind][low]:
        for first, _ in SAYS[kind][low]:
            for count in (1, 2):
                place = queue.offered
                queue.put(area, spelled_event(queue, first, place))
                typed = spelled_event(queue, first, place) * (count - 1) + spelled_event(queue, last, place)
                for at in range(count):
                    beside(queue, [Buffer(area, size, WRITE)], at)
                story.type(typed, took=len(typed), told=USED if told or told is None and count == 2 else 0)
                queue.after(SERVED)
                queue.acknowledge()
    return story


def spelled_event(queue, says, place):
    """The bytes of a row, with the first place that is passed."""
    named, flags = says if queue.is_packed else (says, None)
    if isinstance(named, str):
        named = (place + int(named[1:] or "0")) % (16 if queue.is_packed else 65536)
        if queue.is_packed:
            named = named % 8 | (0x8000 if named < 8 else 0)
    return number(named, 2) + (b"" if flags is None else number(flags, 2))


# --- used entries and closing writes

class Mirror:
    """What stands in an area, kept beside by what the driver puts and what the rules say that the device writes."""

    def __init__(self, queue, at, length, content):
        self.at, self.content = at, bytearray(content or bytes(length))
        put = queue.put

        def also(address, new):
            put(address, new)
            self.put(address, new)
        queue.put = also
        if content:
            put(at, content)

    def put(self, address, new):
        if self.at <= address < self.at + len(self.content):
            self.content[address - self.at:address - self.at + len(new)] = new


def rings_put_out(kind, low):
    """Texts that are the used ring, or the descriptor ring and the device's area."""
    story = story_of(kind, "rings_that_are_put_out" + ("_with_event_idx" if low else ""),
                     "Texts of one service are what the device writes: used entries and idx show at once, the closing "
                     "writes behind the service.")
    queue = KINDS[kind](story, "c", 1, 8, low=low)
    if queue.is_packed:
        mirrors = [Mirror(queue, queue.areas[0], 128, b""), Mirror(queue, queue.areas[2], 4, UNTOUCHED * 4)]
        chain = [Buffer(queue.areas[0], 128), Buffer(queue.areas[2], 4)]
    else:
        mirrors = [Mirror(queue, queue.areas[2], 70, UNTOUCHED * 70)]
        chain = [Buffer(queue.areas[2], 70)]
    queue.bring_up()
    for turn, count in enumerate((1, 2, 3, 1, 3, 2, 3, 1)):
        place = queue.offered
        named = number(place, 2) if not queue.is_packed else number(place % 8 | (0x8000 if place < 8 else 0),
                                                                    2) + number(2, 2)
        queue.put(queue.areas[1] + (20 if low and not queue.is_packed else 0),
                  named if low or queue.is_packed else bytes(2))
        for at in range(count):
            beside(queue, chain, (turn + at) % 8)
        output = b""
        for at in range(count):
            output += b"".join(bytes(one.content) for one in mirrors)
            if queue.is_packed:
                now = (place + 2 * at) % 16
                mirrors[0].put(queue.areas[0] + 16 * (now % 8) + 8, number(0, 6) + number(0x8080 if now < 8 else 0, 2))
            else:
                mirrors[0].put(queue.areas[2] + 4 + 8 * ((place + at) % 8), number((turn + at) % 8, 4) + bytes(4))
                mirrors[0].put(queue.areas[2] + 2, number(place + at + 1, 2))
        queue.notify(output=output)
        if queue.is_packed:
            mirrors[1].put(queue.areas[2], bytes(4))
        else:
            mirrors[0].put(queue.areas[2], bytes(2))
            if low:
                mirrors[0].put(queue.areas[2] + 68, number(queue.place, 2))
        queue.put(mirrors[-1].at, UNTOUCHED * 2) if turn % 2 else None
    return story


def closed_over_a_descriptor(kind, low):
    """What a closing writes is part of a descriptor, which the driver doesn't write again."""
    story = story_of(kind, "closing_writes_over_a_descriptor" + ("_with_event_idx" if low else ""),
                     "What the service before has written behind its chains is part of a descriptor.")
    queue = KINDS[kind](story, "c", 1, 4, low=low)
    queue.put(TEXT, b"abcdefgh")
    ring = queue.areas[0]
    if queue.is_packed:
        # The four bytes are the length of the second place.
        queue.areas[2] = ring + 16 + 8
        queue.bring_up()
        queue.put_chain([Buffer(TEXT, 3), Buffer(TEXT + 3, 5)])
        queue.put(ring + 16 + 14, bytes(2))
        for first, output in ((ring, b"abc"), (ring + 16, b"")):
            queue.put(first + 14, number(queue.mark(0), 2))
            queue.offered += 1
            queue.notify(output=output)
            used(queue, 0, wrote=False)
        return story
    if low:
        # avail_event is the length of descriptor 3, and the fourth used entry its address.
        queue.areas[2] = ring + 20
        outputs = [b"abcde", b"a", b"ab", b"abc"]
    else:
        # The used flags are the flags of descriptor 3.
        queue.areas[2] = ring + 60
        outputs = [b"abcdefgh", b"abcde", b"abcde"]
    queue.bring_up()
    queue.put(queue.areas[1] + 12, bytes(2))
    queue.put(ring + 32, queue.entry(Buffer(TEXT + 5, 3), 2) + queue.entry(Buffer(TEXT, 5, 0 if low else NEXT, 2), 3))
    for turn, output in enumerate(outputs):
        queue.offer_head(3)
        queue.notify(output=output, told=0 if low and turn else USED)
    if low:
        queue.offer_head(3)
        queue.notify(FAULT)
    return story


def heads_that_were_typed():
    """The first chain's buffer is the entries of those behind it."""
    story, queue = receive("split", "heads_that_were_typed",
                           "What is typed is first the heads of the chains behind, which are read when their turn "
                           "comes.")
    queue.put_chain([Buffer(OTHER + 0x10 * at, 2, WRITE) for at in range(8)])
    for turn in range(6):
        heads = [(turn + 3 * at) % 7 for at in range(2)]
        first = queue.offered
        queue.put(OTHER, bytes(0x80))
        queue.put(queue.areas[0] + 16 * 7, queue.entry(Buffer(queue.areas[1] + 4 + 2 * ((first + 1) % 8), 4, WRITE), 7))
        for head in (7, 6, 6):
            queue.offer_head(head)
        if first % 8 == 6:
            # The second entry behind is the ring's first, and used_event takes what is typed for it.
            heads[1] = 6
        story.type(number(heads[0], 2) + number((turn + 3) % 7, 2) + b"abcd", took=8, told=USED)
        queue.after(SERVED)
        queue.look_at_used(2, head=heads[1])
        queue.look_at_used(2, head=heads[0], back=2)
        found = bytearray(0x80)
        for head, typed in zip(heads, (b"ab", b"cd")):
            found[0x10 * head:0x10 * head + 2] = typed
        queue.look(OTHER, 0x80, bytes(found))
    return story


def heads_of_a_long_service():
    """Twelve chains are on offer. The first one's buffer is the eleven entries behind it."""
    story = story_of("split", "eleven_heads_that_were_typed",
                     "What is typed is first the heads of eleven chains behind, each of which is read when its turn comes.")
    queue, heads = Split(story, "c", 0, 16).bring_up(), (3, 7, 1, 9, 5, 0, 11, 2, 10, 6, 4)
    queue.put(OTHER, bytes(0x100))
    queue.put_chain([*(Buffer(OTHER + 0x10 * at, 2, WRITE) for at in range(15)), Buffer(queue.areas[1] + 6, 22, WRITE)])
    for head in (15, *[12] * 11):
        queue.offer_head(head)
    story.type(b"".join(number(head, 2) for head in heads) + b"AaBbCcDdEeFfGgHhIiJjKk", took=44, told=USED)
    queue.look(queue.areas[2] + 2, 2, number(12, 2))
    for at, head in enumerate(heads):
        queue.look(OTHER + 0x10 * head, 3, b"AaBbCcDdEeFfGgHhIiJjKk"[2 * at:2 * at + 2] + b"\0")
    queue.look(OTHER + 0x10 * 12, 2, bytes(2))
    return story


def idx_that_was_typed():
    """The idx is read once: what is typed over it counts in the next service."""
    story, queue = receive("split", "idx_that_was_typed",
                           "What is typed goes over the available idx: it counts in the next service, and there it may "
                           "be the fault Jump.")
    queue.put_chain([Buffer(queue.areas[1] + 2, 2, WRITE),
                     *(Buffer(OTHER + 0x10 * at, 2, WRITE) for at in range(1, 8))])
    queue.put(queue.areas[1] + 4, b"".join(number(head, 2) for head in (0, 1, 2, 3, 0, 5, 6, 7)))
    queue.put(queue.areas[1] + 2, number(1, 2))
    story.type(number(4, 2) + b"abcdef", took=8, told=USED)
    queue.look(queue.areas[2] + 2, 2, number(1, 2))
    queue.write(0x050, 0)
    queue.look(queue.areas[2] + 2, 2, number(4, 2))
    for at, typed in ((1, b"ab"), (2, b"cd"), (3, b"ef")):
        queue.look(OTHER + 0x10 * at, 3, typed + b"\0")
    queue.put(queue.areas[1] + 2, number(5, 2))
    story.type(number(14, 2) + b"!", took=3)
    queue.look(queue.areas[2] + 2, 2, number(5, 2))
    queue.write(0x050, 0, told=2)
    queue.look(queue.areas[2] + 2, 2, number(5, 2))
    return story


def used_entries_over_descriptors():
    """In a memory from 0 on a used entry is an address there: entry 0 is that of descriptor 2, entry 1 its length and
    flags, entry 2 the address of descriptor 3."""
    story = Story("within/split_used_entries_over_descriptors",
                  "Used entries lie over the descriptors of the chains behind, which are read when their turn comes.",
                  [Slot(base=0)])
    queue = Split(story, "c", 1, 4, areas=[0x1000, 0x2000, 0x101c]).bring_up()
    queue.put(0, b"abcdefgh")
    for first in (1, 0):
        queue.clear()
        queue.bring_up()
        queue.put(0x1000, queue.entry(Buffer(7, 1), 0) + queue.entry(Buffer(6, 1), 1)[:12] + bytes(4))
        queue.put(0x1020, queue.entry(Buffer(0x8000, 4), 2) + queue.entry(Buffer(0x8000, 3), 3))
        for head in (first, 2, 2, 3):
            queue.offer_head(head)
        queue.notify(output=(b"g",
                             b"h")[1 - first] + b"abcdefgh"[first:first + 4] + b"abcdefgh"[first:first + 2] + b"cde")
        queue.look(0x101c, 36, bytes(2) + number(4, 2) + number(first, 8) + number(2, 8) + number(2, 8) + number(3, 8))
    return story
