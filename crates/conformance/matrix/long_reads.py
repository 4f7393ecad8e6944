"""What a long request writes over what it was read from: a device that works in parts looks at it no second time."""
from .by_hand import up, written_out
from .drivers import KINDS, WRITE, Buffer, number
from .follows import Guest, Life, Setup
from .requests import IN, OUT, WRITE_ZEROES, header, segment
from .story import SECTOR, Slot

TITLE = "Long requests"
HOW = ("A request of 300 sectors fails at its first call, at its last, and beside 16, 32, 64, 128 and 256. A read of 300 sectors, and 4,096 "
       "typed bytes, go over the header, the table and the descriptors of their own chain, at the first sector and behind 16, 32, 64, 128 "
       "and 256. All is done as it was read before.")
COLUMNS = ("What fails, or is written over", "Where")
FOLDERS = {"long_reads": "Long requests that fail, and whose own writes go over what they were read from."}

SECTORS, COUNT = 400, 300
DATA, LENGTH = 0x10000, 0x80000
DISK = Slot(length=LENGTH, count=SECTORS)
BEHIND = (0, 1, 2, 15, 16, 31, 32, 63, 64, 127, 128, 129, 255, 256, 257)
IN_ROOM = (0, 16, 48, 64, 112, 128, 240, 256, 496, 512, 1008, 1024, 2032, 2048, 4080)


class Long(Guest):
    """A driver whose disk's queue may have its descriptors anywhere."""

    desc = None

    def areas(self, window, index, home=None):
        found = super().areas(window, index, home)
        return [self.desc, *found[1:]] if self.desc else found


def stories():
    yield by_hand()
    for kind in KINDS:
        for what, over in (("header", over_the_header), ("table", over_the_table), ("descriptors", over_the_descriptors)):
            yield reads(kind, what, over)
        yield typed(kind)
        yield failing(kind)


def by_hand():
    """Typed bytes go over the descriptor of their own chain; the chain behind it is that descriptor as it then is."""
    return written_out("long_reads/typed_bytes_over_a_descriptor_by_hand", "Eight typed bytes are the address of their own descriptor.", up(0) + """
        mw 0 80001000 00100080000000000a00000002000000 > 0 done - 0 0
        mw 0 80002000 000001000000 > 0 done - 0 0
        in 0 {00*8}0c00 > 0 took:a - 0 1
        mr 0 80001000 10 > 0 b:00000000000000000c00000002000000 - 0 1
        mr 0 80003000 c > 0 b:00000100000000000a000000 - 0 1
        """)


def reads(kind, what, over):
    def script(life):
        guest, setup = Long(life), Setup(True, kind == "packed", 8, 0)
        guest.bring_up("b", setup)
        marked(guest)
        for behind in BEHIND:
            over(guest, setup, guest.base + DATA + SECTOR * behind)
            for at in sorted({behind, behind + 1, 0, 16, 32, 64, 127, 128, 129, 256, COUNT - 1}):
                guest.look(guest.base + DATA + SECTOR * at + SECTOR - 2, 2)
            guest.look(guest.done, 1)
    return Life(f"long_reads/{kind}_reads_over_the_{what}", f"A read of 300 sectors goes over its {what}.", script, [DISK],
                zeros=SECTORS, shows=[(f"{what}, {kind}", "behind 0 to 257 sectors")])


def marked(guest):
    """Each sector ends with its number; all before are zeros."""
    guest.put(guest.base + DATA, b"".join(bytes(SECTOR - 2) + number(sector + 1, 2) for sector in range(SECTORS)))
    guest.put(guest.room + 0x3000, header(OUT))
    guest.offer("b", 0, [Buffer(guest.room + 0x3000, 16), Buffer(guest.base + DATA, SECTOR * SECTORS), Buffer(guest.done, 1, WRITE)])
    guest.notify("b", 0)


def chain_of(guest, header_at):
    """The buffers of a read of sectors 40 on."""
    guest.put(header_at, header(IN, 40))
    guest.put(guest.done, b"\xee")
    return [Buffer(header_at, 16), Buffer(guest.base + DATA, SECTOR * COUNT, WRITE), Buffer(guest.done, 1, WRITE)]


def over_the_header(guest, setup, at):
    guest.offer("b", 0, chain_of(guest, at))
    guest.notify("b", 0)
    guest.ends("b", 0)


def over_the_table(guest, setup, at):
    ring, buffers = guest.ring("b", 0), chain_of(guest, guest.room + 0x3000)
    links = [(1, 1), (3, 2), (2, 0)]
    guest.put(at, b"".join(ring.entry(Buffer(one.address, one.length, one.flags if ring.is_packed else flags), link)
                           for one, (flags, link) in zip(buffers, links)))
    guest.offer("b", 0, [Buffer(at, 48, 4)])
    guest.notify("b", 0)
    guest.ends("b", 0)


def over_the_descriptors(guest, setup, at):
    guest.desc = at
    guest.bring_up("b", setup)
    over_the_header(guest, setup, guest.room + 0x3000)


def typed(kind):
    """A table lies in the room for what is typed, and so do the ring's descriptors."""
    def script(life):
        guest, setup = Long(life), Setup(True, kind == "packed", 4, 0)
        room, content = guest.base + DATA, bytes((at * 7 + 1) % 251 for at in range(4096))
        for behind in IN_ROOM:
            for is_table in (True, False):
                guest.desc = None if is_table else room + behind
                guest.bring_up("c", setup)
                ring = guest.ring("c", 0)
                cuts = [Buffer(room, 2048, WRITE), Buffer(room + 2048, 2048, WRITE)]
                if is_table:
                    links = [(3, 1), (2, 0)]
                    guest.put(room + behind, b"".join(ring.entry(Buffer(one.address, 2048, 2 if ring.is_packed else flags), link)
                                                      for one, (flags, link) in zip(cuts, links)))
                guest.offer("c", 0, [Buffer(room + behind, 32, 4)] if is_table else cuts)
                guest.type(content)
                for at in (0, behind, 2040, 4064):
                    guest.look(room + at, 32)
                guest.ends("c", 0)
    return Life(f"long_reads/{kind}_typed_bytes_over_their_chain", "4,096 typed bytes go over the table or the descriptors of their chain.", script,
                [Slot(length=LENGTH)], shows=[(f"table and descriptors, {kind}", "in room for 4,096 typed bytes")])


# --- image calls that fail

FAILS_AT = (0, 1, 15, 16, 17, 31, 32, 33, 63, 64, 65, 127, 128, 129, 255, 256, 257, COUNT - 1, COUNT)


def failing(kind):
    """Reads, writes and zeroes of 300 sectors over a cache of 1, each of which fails at one call, and once more without a failure."""
    def script(life):
        guest = Long(life)
        guest.bring_up("b", Setup(True, kind == "packed", 8, 0))
        marked(guest)
        for turn, at in enumerate(FAILS_AT):
            for content in (header(IN, 3), header(OUT, 50) + bytes([1 + turn] * 2) + bytes(SECTOR * COUNT - 2),
                            header(WRITE_ZEROES) + segment(60, 200) + segment(270, 100, 1)):
                fails_at(guest, content, at)
                sees(guest, content, at)
    return Life(f"long_reads/{kind}_requests_that_fail", "Requests of 300 sectors fail at each of 19 calls.", script, [DISK],
                zeros=SECTORS, cache=1, fails=[], shows=[(f"a request's call, {kind}", "1st to 301st")])


def fails_at(guest, content, at):
    """A request whose call at this place fails."""
    call = guest.life.disk.calls + at
    guest.life.fails.append(call)
    guest.life.disk.fails.add(call)
    asks(guest, content)


def asks(guest, content):
    guest.put(guest.room + 0x3000, content[:48])
    guest.put(guest.done, b"\xee")
    guest.put(guest.base + DATA, content[16:18] + bytes(2))
    room = [Buffer(guest.base + DATA, SECTOR * COUNT, WRITE)] if content[0] == IN else []
    data = [Buffer(guest.base + DATA, SECTOR * COUNT)] if content[0] == OUT else []
    guest.offer("b", 0, [Buffer(guest.room + 0x3000, 16 if content[0] != WRITE_ZEROES else len(content)), *data, *room, Buffer(guest.done, 1, WRITE)])
    guest.notify("b", 0)
    guest.look(guest.done, 1)
    guest.ends("b", 0)


def sees(guest, content, at):
    """What was read beside the sector that failed, or, by reads that don't fail, what was written beside it."""
    if content[0] != IN:
        asks(guest, header(IN, 60 if content[0] == WRITE_ZEROES else 50))
    for sector in (at - 1, at, at + 1, 0, 128):
        if 0 <= sector < COUNT and (sector != at or content[0] == IN):
            guest.look(guest.base + DATA + SECTOR * sector, 2)
            guest.look(guest.base + DATA + SECTOR * sector + SECTOR - 2, 2)
