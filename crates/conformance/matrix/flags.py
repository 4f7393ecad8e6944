"""Each bit of a descriptor's flags: the three or five that count, each for what it says, and the others for nothing."""
from .drivers import AVAIL, FAULT, INDIRECT, INDIRECT_DESC, KINDS, NEXT, NOTHING, SERVED, USED_FLAG, WRITE, Buffer
from .story import BASE, Slot, Story

TITLE = "Flags of descriptors"
HOW = ("A bit is turned in flags that are right. NEXT, WRITE, INDIRECT, and in the first descriptor of a packed list AVAIL and "
       "USED, each change what is served; the others change nothing, one by one and all at once.")
FOLDERS = {"bits_flags": "Each bit of a descriptor's flags, in rings, in tables, and beside INDIRECT."}

HEADER, STATUS, EXTRA = BASE + 0x4000, BASE + 0x6000, BASE + 0x6800
DATA, TABLE = BASE + 0x5000, BASE + 0x7000
WHOLE = Slot()


def stories():
    for kind in KINDS:
        yield of_a_text(kind)
        yield of_a_table_entry(kind)
        yield beside_indirect(kind)
        yield of_a_request(kind)


def others(kind, in_ring=True):
    """All the bits that say nothing."""
    named = NEXT | WRITE | INDIRECT | (AVAIL | USED_FLAG if kind == "packed" and in_ring else 0)
    return 0xffff & ~named


def values(kind):
    """Each bit alone, and all that say nothing."""
    return [1 << bit for bit in range(16)] + [others(kind)]


def transmit(story, kind, low=INDIRECT_DESC):
    """A transmit queue, with a text that is a table of one entry too, and another text behind it."""
    queue = KINDS[kind](story, "c", 1, 4, low).bring_up()
    text = queue.entry(Buffer(STATUS, 1, 0, 0), 0)
    queue.put(DATA, text)
    queue.put(STATUS, b"T")
    queue.put(EXTRA, b"B")
    return queue, text


def of_a_text(kind):
    """A descriptor of a text, and another behind it."""
    story = Story(f"bits_flags/{kind}_ring_of_transmit", f"each bit of the flags of a {kind} descriptor of a text",
                  shows=[(f"descriptor's flags, {kind} ring", "0..15")])
    queue, text = transmit(story, kind)
    for value in values(kind):
        output = {NEXT: text + b"B", WRITE: b"", INDIRECT: b"T"}.get(value, text)
        queue.offer_raw([Buffer(DATA, 16, value, 1), Buffer(EXTRA, 1, 0, 0)], 2 if value == NEXT else 1)
        if kind == "packed" and value in (AVAIL, USED_FLAG):
            queue.notify(NOTHING)
        else:
            queue.notify(SERVED, output)
    return story


def of_a_table_entry(kind):
    """An entry of a table, and another behind it."""
    story = Story(f"bits_flags/{kind}_table_of_transmit", f"each bit of the flags of an entry of a {kind} table",
                  shows=[(f"descriptor's flags, {kind} table", "0..15")])
    queue, text = transmit(story, kind)
    for value in values("split"):
        queue.put(TABLE, queue.entry(Buffer(DATA, 16, value, 1), 0) + queue.entry(Buffer(EXTRA, 1, 0, 0), 1))
        queue.offer_raw([Buffer(TABLE, 32, INDIRECT, 0)], 1)
        if kind == "packed":
            queue.notify(SERVED, b"B" if value == WRITE else text + b"B")
        elif value == INDIRECT:
            queue.notify(FAULT)
            queue.bring_up_again()
        else:
            queue.notify(SERVED, {NEXT: text + b"B", WRITE: b""}.get(value, text))
    return story


def beside_indirect(kind):
    """A descriptor that names a table."""
    story = Story(f"bits_flags/{kind}_beside_indirect", f"each bit of the flags of a {kind} descriptor that names a table",
                  shows=[(f"flags beside INDIRECT, {kind} ring", "0..15")])
    queue, text = transmit(story, kind)
    for value in values(kind):
        queue.offer_raw([Buffer(DATA, 16, INDIRECT ^ value, 1), Buffer(EXTRA, 1, 0, 0)], 1)
        if value == NEXT:
            queue.notify(FAULT)
            queue.bring_up_again()
        elif kind == "packed" and value in (AVAIL, USED_FLAG):
            queue.notify(NOTHING)
        else:
            queue.notify(SERVED, text if value == INDIRECT else b"T")
    return story


# A read of a sector, and one byte behind it that is in the chain where the status has NEXT.
READ = [Buffer(HEADER, 16, NEXT, 1), Buffer(DATA, 512, WRITE | NEXT, 2), Buffer(STATUS, 1, WRITE, 3), Buffer(EXTRA, 1, WRITE, 0)]


def of_a_request(kind):
    """Each of the three descriptors of a read, without INDIRECT_DESC."""
    story = Story(f"bits_flags/{kind}_ring_of_disk", f"each bit of the flags of the {kind} descriptors of a read",
                  shows=[(f"descriptor's flags, {kind} ring", "0..15")])
    queue = KINDS[kind](story, "b", 0, 4).bring_up()
    for number in range(3):
        for value in values(kind):
            turned = [Buffer(one.address, one.length, one.flags ^ value if at == number else one.flags, one.link)
                      for at, one in enumerate(READ)]
            try_request(queue, turned, kind == "packed" and not number and value in (AVAIL, USED_FLAG))
    return story


def try_request(queue, chain, is_not_offered):
    """Offers a chain as it is, and looks at what the rules say comes of it."""
    taken = chain_of(chain)
    queue.put(DATA + 511, b"\xee")
    queue.put(STATUS, b"\xee")
    queue.put(EXTRA, b"\xee")
    queue.offer_raw(chain, len(taken))
    if is_not_offered:
        queue.notify(NOTHING)
        return
    if any(one.flags & INDIRECT for one in taken):
        queue.notify(FAULT)
        queue.bring_up_again()
        return
    queue.notify(SERVED)
    length, data, status, extra = read_by_rule(taken)
    if queue.is_packed:
        queue.look_at_used(length, taken[-1].link, wrote=any(one.flags & WRITE for one in taken), count=len(taken))
    else:
        queue.look_at_used(length)
    queue.look(DATA + 511, 1, data)
    queue.look(STATUS, 1, status)
    queue.look(EXTRA, 1, extra)


def chain_of(chain):
    """The descriptors up to the first without NEXT."""
    last = next(at for at, one in enumerate(chain) if not one.flags & NEXT)
    return chain[:last + 1]


def read_by_rule(taken):
    """The used len, and the last byte of each writable buffer after a read of sector 0."""
    readable = sum(one.length for one in taken if not one.flags & WRITE)
    writable = [one for one in taken if one.flags & WRITE]
    room = sum(one.length for one in writable)
    bytes_there = {DATA: b"\xee", STATUS: b"\xee", EXTRA: b"\xee", HEADER: b""}
    is_good = readable >= 16 and room and (room - 1) % 512 == 0
    if is_good and room > 1 and writable[0].address == DATA:
        bytes_there[DATA] = b"\x10"
    if writable:
        bytes_there[writable[-1].address] = b"\0" if is_good else b"\1"
    length = room if is_good or room == 1 else 0
    return length, bytes_there[DATA], bytes_there[STATUS], bytes_there[EXTRA]
