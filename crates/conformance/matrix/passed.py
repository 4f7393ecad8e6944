"""Which places a service passed: before a fault, in lists that take up more places than the ring has, and in lists and
tables across its end."""
import dataclasses

from .by_hand import up, written_out
from .drivers import (AVAIL, EVENT_IDX, FAULT, INDIRECT, INDIRECT_DESC, KINDS, NEXT, STATUS, USED_FLAG, WRITE, Buffer,
                      Packed, number)
from .places import shown
from .story import BASE, CHANGED, USED, Slot, Story

TITLE = "Places that are passed"
HOW = ("The driver names each place in turn: of a service that ends in a fault, of one that passes up to 2N - 1 places "
       "of a packed ring of N, and of one whose list goes on at the ring's front, with a table behind it.")
COLUMNS = ("What", "Which places are named")
FOLDERS = {"passed": "Which places a service passed, and of which the driver is told."}

TEXT, TABLE, OTHER = BASE + 0x5000, BASE + 0x8000, BASE + 0x9000
SLOT = Slot(identity=b"passed" + bytes(14))


def stories():
    yield from shown("a fault", "its own, split", [the_place_of_a_fault()])
    yield from shown("a chain, then three", "none: by flags, split", [input_behind_the_last()])
    yield from shown("a table, then a chain without one", "none: by flags, split",
                     [a_chain_behind_a_table(), room_behind_a_table()])
    for kind in KINDS:
        yield from shown("a fault behind 0 to 3 chains", f"each near it, {kind}",
                         [faults(kind, begin) for begin in (0, 3, 6)])
        yield from shown("a fault behind 0 to 3 chains", f"none: by flags, {kind}", [flags_and_faults(kind)])
    yield from shown("N + 1 to 2N - 1 places", "each of 2N, packed", map(more_than_the_ring, (3, 4, 8)))
    yield from shown("a list across the ring's end, and tables behind it", "each of 2N, packed",
                     map(lists_and_tables, (3, 4, 5, 8)))


def the_place_of_a_fault():
    """Chain 0 is served, chain 1 is a fault. used_event is 1, which isn't passed; then it is 0."""
    life = """
        w 0 c 070 4 00000000 > 0 done - 0 0
        w 0 c 024 4 00000001 > 0 done - 0 0
        w 0 c 020 4 00000001 > 0 done - 0 0
        w 0 c 024 4 00000000 > 0 done - 0 0
        w 0 c 020 4 20000000 > 0 done - 0 0
        w 0 c 070 4 0000000b > 0 done - 0 0
        w 0 c 030 4 00000001 > 0 done - 0 0
        w 0 c 038 4 00000004 > 0 done - 0 0
        w 0 c 080 4 80001000 > 0 done - 0 0
        w 0 c 090 4 80002000 > 0 done - 0 0
        w 0 c 0a0 4 80003000 > 0 done - 0 0
        w 0 c 044 4 00000001 > 0 done - 0 0
        w 0 c 070 4 0000000f > 0 done - 0 0
        """
    return written_out("passed/the_place_of_a_fault",
                       "used_event names the chain with the fault, which isn't passed; then the one before it, which "
                       "is.", f"""
        mw 0 80005000 74 > 0 done - 0 0
        mw 0 80001000 00500080000000000100000000000000 > 0 done - 0 0
        {life.strip()}
        mw 0 80002002 020000000100000000000100 > 0 done - 0 0
        w 0 c 050 4 00000001 > 0 done 74 0 2
        r 0 c 070 4 > 0 v:0000004f - 0 2
        mr 0 80003000 c > 0 b:000001000000000000000000 - 0 2
        mr 0 80003024 2 > 0 b:0100 - 0 2
        {life.strip()}
        mw 0 8000200c 0000 > 0 done - 0 0
        w 0 c 050 4 00000001 > 0 done 74 0 3
        """)


def input_behind_the_last():
    """The service of one byte leaves a chain. Behind it stand two more when three bytes are typed."""
    return written_out("passed/input_behind_the_last_service",
                       "A service ends once what was typed is gone; the next one sees what was offered since.", f"""
        mw 0 80001000 00500080000000000100000002000000 > 0 done - 0 0
        mw 0 80001010 01500080000000000100000002000000 > 0 done - 0 0
        mw 0 80001020 02500080000000000100000002000000 > 0 done - 0 0
        mw 0 80001030 03500080000000000100000002000000 > 0 done - 0 0
        mw 0 80002000 000002000000010002000300 > 0 done - 0 0
        {up()}
        in 0 61 > 0 took:1 - 0 1
        mr 0 80003002 2 > 0 b:0100 - 0 1
        mw 0 80002002 0400 > 0 done - 0 1
        in 0 626364 > 0 took:3 - 0 1
        mr 0 80003002 2 > 0 b:0400 - 0 1
        mr 0 80005000 4 > 0 b:61626364 - 0 1
        """)


def a_chain_behind_a_table():
    """A table of two entries, and behind it a chain of descriptors 5, 6 and 7."""
    return written_out("passed/a_chain_behind_a_table",
                       "A chain of descriptors behind the size of the table before it is served in the same service.", f"""
        mw 0 80005000 6162636465 > 0 done - 0 0
        mw 0 80008000 0050008000000000010000000100010001500080000000000100000000000000 > 0 done - 0 0
        mw 0 80001000 00800080000000002000000004000000 > 0 done - 0 0
        mw 0 80001050 02500080000000000100000001000600 > 0 done - 0 0
        mw 0 80001060 03500080000000000100000001000700 > 0 done - 0 0
        mw 0 80001070 04500080000000000100000000000000 > 0 done - 0 0
        mw 0 80002000 0000020000000500 > 0 done - 0 0
        {up(index=1, size=8, low=0x10000000)}
        w 0 c 050 4 00000001 > 0 done 6162636465 0 1
        mr 0 80003000 14 > 0 b:0000020000000000000000000500000000000000 - 0 1
        """)


def room_behind_a_table():
    """A table of two buffers of a byte, and behind it three descriptors of a byte, for five bytes typed."""
    return written_out("passed/room_behind_a_table",
                       "A chain of descriptors behind a table in one service has its own used length.", f"""
        mw 0 80008000 0050008000000000010000000300010001500080000000000100000002000000 > 0 done - 0 0
        mw 0 80001000 00800080000000002000000004000000 > 0 done - 0 0
        mw 0 80001050 02500080000000000100000003000600 > 0 done - 0 0
        mw 0 80001060 03500080000000000100000003000700 > 0 done - 0 0
        mw 0 80001070 04500080000000000100000002000000 > 0 done - 0 0
        mw 0 80002000 0000020000000500 > 0 done - 0 0
        {up(size=8, low=0x10000000)}
        in 0 6162636465 > 0 took:5 - 0 1
        mr 0 80005000 5 > 0 b:6162636465 - 0 1
        mr 0 80003000 14 > 0 b:0000020000000000020000000500000003000000 - 0 1
        """)


def queue_of(story, kind, low, size, index=1):
    queue = KINDS[kind](story, "c", index, size, low=low)
    queue.put(TEXT, b"abcdefgh")
    return queue


def name(queue, place):
    """The driver names a place."""
    if queue.is_packed:
        place %= 2 * queue.size
        queue.put(queue.areas[1], number(place % queue.size | (0x8000 if place < queue.size else 0), 2) + number(2, 2))
    else:
        queue.put(queue.areas[1] + 4 + 2 * queue.size, number(place % 65536, 2))


def text(queue, at, **more):
    """Offers a chain of the text's byte at a place, which has a head of its own in a split ring."""
    queue.offer([Buffer(TEXT + at % 8, 1)], **(more if queue.is_packed else {"head": queue.offered % queue.size}))


def wrong(queue, which):
    """Offers a chain that is a fault: a range, a table that wasn't negotiated, or a head that is none; in a packed ring
    a list whose second buffer is outside."""
    head = {} if queue.is_packed else {"head": queue.offered % queue.size}
    if which == 0:
        queue.offer([Buffer(0, 1)], **head)
    elif which == 1:
        queue.offer([Buffer(TABLE, 16, INDIRECT)], **head)
    elif queue.is_packed:
        queue.offer([Buffer(TEXT, 1), Buffer(TEXT, 0xffffffff)])
    else:
        queue.offer_head(queue.size)


def begun(queue, begin):
    """The queue from a reset on, with so many chains served."""
    queue.start_over()
    queue.clear()
    queue.bring_up()
    name(queue, 7 if queue.is_packed else 65535)
    for at in range(begin):
        text(queue, at)
        queue.notify(output=b"abcdefgh"[at % 8:at % 8 + 1], told=0)


def faults(kind, begin):
    """In a ring of 8 a service begins at a place, passes some and comes to a fault; each place near is named."""
    story = Story(f"passed/{kind}_faults_from_place_{begin}",
                  "A fault ends a service: the place named is told if a chain before the fault passed it, and not if "
                  "it is the fault's.", [SLOT])
    queue = queue_of(story, kind, EVENT_IDX, 8)
    for count in range(4):
        for away in range(-1, count + 3):
            begun(queue, begin)
            for at in range(count):
                text(queue, at)
            wrong(queue, (count + away) % 3)
            text(queue, 7)
            name(queue, begin + away)
            queue.notify(FAULT, b"abcdefgh"[:count], told=CHANGED | (USED if 0 <= away < count else 0))
            story.read("c", STATUS, 0x4f)
            if not queue.is_packed:
                queue.look(queue.areas[2] + 2, 2, number(begin + count, 2))
                queue.look(queue.areas[2] + 4 + 8 * queue.size, 2, number(begin + count, 2))
    return story


def flags_and_faults(kind):
    """Where no place is named: the flags decide if anything was passed."""
    story = Story(f"passed/{kind}_faults_by_flags",
                  "A fault ends a service: by the flags a notification is wanted if a chain before the fault was used.",
                  [SLOT])
    queue = queue_of(story, kind, 0, 8)
    for count in range(4):
        for flags in range(4):
            queue.start_over()
            queue.clear()
            queue.bring_up()
            queue.put(queue.areas[1], number(0, 2) + number(flags, 2) if queue.is_packed else number(flags, 2))
            for at in range(count):
                text(queue, at)
            wrong(queue, flags % 3)
            is_wanted = count and (flags != 1 if queue.is_packed else not flags & 1)
            queue.notify(FAULT, b"abcdefgh"[:count], told=CHANGED | (USED if is_wanted else 0))
            story.read("c", STATUS, 0x4f)
    return story


# --- packed rings

def more_than_the_ring(size):
    """N - 2 bytes go to a chain each. The next chain's table has descriptors of used places as its buffers, and what is
    typed joins these; so the Nth chain's list goes on over used places, to the first without NEXT."""
    story = Story(f"passed/packed_lists_over_used_places_of_a_ring_of_{size}",
                  "The last list of a service goes over places that the same service has used: up to 2N - 1 are "
                  "passed, and the next one isn't.", [SLOT])
    queue = Packed(story, "c", 0, size, low=EVENT_IDX | INDIRECT_DESC).bring_up()
    for more in range(1, size):
        for away in range(2 * size):
            first = queue.offered
            positions = [(first + at) % size for at in range(size)]
            name(queue, first + away)
            for at in range(size - 2):
                queue.offer([Buffer(OTHER + at, 1, WRITE)], link=at)
            # The table's buffers are the descriptors of the first places, which those then are again.
            again = [(queue.areas[0] + 16 * positions[at],
                      Buffer(OTHER + 0x20 + at, 1, WRITE | (NEXT if at < more - 1 else 0), 0x50 + at))
                      for at in range(min(more, size - 2))]
            queue.offer([dataclasses.replace(queue.table(TABLE, [Buffer(at, 16, WRITE) for at, _ in again]),
                                             link=0x40)])
            queue.offer([Buffer(OTHER + 0x40, 1, WRITE | NEXT)], link=0x41)
            typed = b"x" * (size - 2) + b"".join(queue.entry(one, 0) for _, one in again) + b"y" + b"z" * len(again)
            # The table's own place, if the list comes to it, has the table's address and used len, and ends the list.
            rest = b"w" * 16 * len(again) if more == size - 1 else b""
            story.type(typed + rest, took=len(typed + rest), told=USED if away < size + more else 0)
            queue.look(OTHER + 0x20, size, b"z" * len(again) + bytes(size - len(again)))
            last = (first + size - 1) % (2 * size)
            mark = (AVAIL | USED_FLAG if last < size else 0) | WRITE
            link = 0x40 if more == size - 1 else 0x50 + more - 1
            queue.look(queue.areas[0] + 16 * (last % size) + 8, 8,
                       number(1 + len(again) + len(rest), 4) + number(link, 2) + number(mark, 2))
            queue.offered = queue.place = (first + size + more) % (2 * size)
            queue.put(OTHER + 0x20, bytes(size))
            queue.clear()
            queue.acknowledge()
    return story


def lists_and_tables(size):
    """Texts in a list that begins at one of the ring's last places, in a table, a list of one, and a table again."""
    story = Story(f"passed/packed_lists_across_the_end_and_tables_in_a_ring_of_{size}",
                  "A list across the ring's end, and tables behind it in the same service: each used entry has the "
                  "wrap "
                  "counter of its own first place, and each place named is told if it was passed.", [SLOT])
    queue = queue_of(story, "packed", EVENT_IDX | INDIRECT_DESC, size)
    queue.bring_up()
    turn = 0
    for count in range(2, size):
        for before in range(1, count):
            for away in range(2 * size):
                # The list begins so many places before the ring's end, in each lap.
                while queue.offered % size != size - before:
                    name(queue, queue.offered + size)
                    text(queue, 0)
                    queue.notify(output=b"a", told=0)
                first, chains, turn = queue.offered, [], turn + 1
                offer_list(queue, [Buffer(TEXT + at, 1) for at in range(count)], 0x100 + turn, chains,
                           b"abcdefgh"[:count])
                for at in range(min(3, size - count)):
                    entries = [Buffer(TEXT + 1 + at, 1), Buffer(TEXT + 4, 2)][:1 + (turn + at) % 2]
                    output = b"".join(b"abcdefgh"[one.address - TEXT:one.address - TEXT + one.length]
                                      for one in entries)
                    one = [queue.table(TABLE + 0x40 * at, entries)] if at != 1 else entries[:1]
                    offer_list(queue, [Buffer(one[0].address, one[0].length, one[0].flags)], 0x200 + 16 * at, chains,
                               output if at != 1 else output[:1])
                passed = (queue.offered - first) % (2 * size)
                name(queue, first + away)
                queue.notify(output=b"".join(output for _, _, output in chains), told=USED if away < passed else 0)
                for place, link, _ in chains:
                    mark = AVAIL | USED_FLAG if place < size else 0
                    queue.look(queue.areas[0] + 16 * (place % size) + 8, 8,
                               number(0, 4) + number(link, 2) + number(mark, 2))
                queue.acknowledge()
    return story


def offer_list(queue, buffers, link, chains, output):
    """Offers a list, and notes its first place, its id and what it puts out."""
    chains.append((queue.offered, link, output))
    queue.offer([Buffer(one.address, one.length, one.flags, link) for one in buffers], link=link)
