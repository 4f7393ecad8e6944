"""What a queue, a window, a console and the cache do in later rounds, after a fault, and after a stop and a start."""
from .drivers import EVENT_IDX, FAULT, INDIRECT_DESC, KINDS, NEXT, SERVED, STATUS, WRITE, Buffer, Packed, Split, number
from .places import HEADER, ROOM, STATUS_BYTE, TEXT, shown
from .segments import IOERR, OK, Disk, segment
from .story import BASE, SECTOR, Slot, Story, plain_image

TITLE = "Rounds"
HOW = "What is done once is done again: in later rounds of a ring, of 16 bits and of 2N places, after a fault, a stop, a reset."
COLUMNS = ("What", "When")
FOLDERS = {"rounds": "What a queue, a window, a console and the cache do the second and the third time."}


def stories():
    kinds = KINDS.values()
    yield from shown("used entry, used idx", "three rounds of a split ring", [*map(split_rounds, (1, 2, 4, 8)), ring_of_256()])
    yield from shown("used entry, wrap", "six laps of a packed ring", map(packed_rounds, (1, 2, 3, 4, 5, 8)))
    yield from shown("event", "six laps of a packed ring, three rounds of a split one",
                     [*map(packed_events, (1, 2, 3, 4, 5, 8)), split_events()])
    yield from shown("used idx, used entry, used_event, avail_event", "into the third round of 16 bits", [sixteen_bits()])
    yield from shown("chains of several descriptors, tables", "three rounds", [*map(lists_of_two, kinds), *map(tables, kinds)])
    yield from shown("a chain that waits, a notify of nothing", "three rounds",
                     [*map(unserved_again, kinds), notifications_again()])
    yield from shown("place", "after each of three faults and resets", [*map(faults, kinds), *map(fault_in_a_round, kinds)])
    yield from shown("place, size, areas", "after a stop and a start", [*map(stops, kinds), *map(starts_at_other_sizes, kinds)])
    yield from shown("events", "after a stop and a start", map(events_after_stops, kinds))
    yield from shown("a ready queue", "made ready, moved and resized in each of three rounds", map(ready_again, kinds))
    yield from shown("both queues of a console", "three rounds of each", map(both_queues, kinds))
    yield from shown("status, registers, features", "after each of three resets",
                     [*map(resets, kinds), *map(statuses, kinds), *map(indirect_again, kinds), kinds_in_turn(), event_idx_again(),
                      features_again()])
    yield from shown("interrupt words", "acknowledged and set again", map(interrupts, kinds))
    yield from shown("size and generation, emergency bytes, a read-only disk", "three lives",
                     [configuration_again(), emergency_again(), read_only_again()])
    yield from shown("pending input", "four times its room", map(pending, kinds))
    yield from shown("sectors", "three rounds over caches of 1, 2, 3 and 8", map(cached, (1, 2, 3, 8)))
    yield from shown("sectors", "after a fault, a reset, a stop and a start", [kept_through_resets()])
    yield from shown("a sector whose write fails", "three times", map(failed_again, (1, 2)))
    yield from shown("each register", "written twice", map(written_twice, kinds))
    yield from shown("image calls", "three rounds over caches of 1, 2 and 3", [*cached_calls(), *called(), flushes_again()])


def named(kind, what):
    return f"rounds/{'packed' if kind.is_packed else 'split'}_{what}"


# --- a ring's rounds

def split_rounds(size):
    """Three rounds of a small ring, each chain with a head, a text and a length of its own."""
    story = Story(f"rounds/three_rounds_of_a_split_ring_of_{size}", "Each used entry and each used idx of three rounds.")
    queue = Split(story, "c", 0, size).bring_up()
    for turn in range(3 * size + 1):
        head = (turn * 3 + turn // size) % size
        queue.offer([Buffer(TEXT + 16 * head, 9, WRITE)], head=head)
        length = 1 + turn % 9
        story.type(bytes([0x40 + turn]) * length, took=length, told=1)
        queue.after(SERVED)
        queue.look_at_used(length, head=head)
        queue.look(TEXT + 16 * head, length, bytes([0x40 + turn]) * length)
    return story


def packed_rounds(size):
    """Six laps of a small ring, which are three rounds of its places."""
    story = Story(f"rounds/six_laps_of_a_packed_ring_of_{size}", "Each used entry of six laps: its length, id and flags.")
    queue = Packed(story, "c", 0, size).bring_up()
    for turn in range(6 * size + 1):
        length = 1 + turn % 9
        queue.offer([Buffer(TEXT, 9, WRITE)], link=0x1000 + turn)
        story.type(bytes([0x40 + turn]) * length, took=length, told=1)
        queue.after(SERVED)
        queue.look_at_used(length, link=0x1000 + turn)
        queue.look(queue.areas[0] + 16 * (turn % size), 8, number(TEXT, 8))
        queue.look(TEXT, length, bytes([0x40 + turn]) * length)
    return story


def lists_of_two(kind):
    """Chains of two in a ring of five (packed) or four (split): lists go over the ring's end in each round."""
    story = Story(named(kind, "chains_of_two_and_three_in_three_rounds"),
                  "Chains of two and three descriptors in turn, through three rounds.")
    size = 5 if kind.is_packed else 4
    queue = kind(story, "c", 1, size).bring_up()
    queue.put(TEXT, bytes(range(0x61, 0x71)))
    for turn in range(13):
        count = 2 + turn % 2
        buffers = [Buffer(TEXT + (turn + at) % 14, 1) for at in range(count)]
        queue.offer(buffers, **({"link": turn + 1} if kind.is_packed else {}))
        queue.notify(output=bytes(0x61 + (turn + at) % 14 for at in range(count)))
        queue.look_at_used(0, **({"link": turn + 1, "wrote": False, "count": count} if kind.is_packed else {}))
    return story


def tables(kind):
    """The same table offered again and again, changed in between."""
    story = Story(named(kind, "a_table_in_three_rounds"), "A table is read anew each time: its buffers and their number change.")
    queue = kind(story, "c", 1, 2, low=INDIRECT_DESC).bring_up()
    queue.put(TEXT, bytes(range(0x61, 0x71)))
    for turn in range(9):
        count = 1 + turn % 4
        joined = 0 if kind.is_packed else NEXT
        table = [Buffer(TEXT + turn + at, 1, joined if at < count - 1 else 0) for at in range(count)]
        queue.offer([queue.table(BASE + 0x8000, table)])
        queue.notify(output=bytes(0x61 + turn + at for at in range(count)))
    return story


def packed_events(size):
    """In each lap the place that was passed is named, then the same position with the other wrap."""
    story = Story(f"rounds/a_packed_event_in_six_laps_of_a_ring_of_{size}",
                  "In each of six laps the place passed is told, and the one half a round away isn't.")
    queue = Packed(story, "c", 1, size, low=EVENT_IDX).bring_up()
    for turn in range(6 * size):
        now = queue.offered
        named_place = now if turn % 3 else (now + size) % (2 * size)
        queue.put(queue.areas[1], number(named_place % size | (0x8000 if named_place < size else 0), 2) + number(2, 2))
        queue.put(queue.areas[2], b"\xee" * 4)
        queue.offer([Buffer(TEXT, 0)])
        queue.notify(told=1 if named_place == now else 0)
        queue.look(queue.areas[2], 4, bytes(4))
        queue.acknowledge()
    return story


def split_events():
    """used_event and avail_event in three rounds of a ring of four."""
    story = Story("rounds/events_in_three_rounds_of_a_split_ring",
                  "used_event names the place passed, the one before or the one behind; avail_event follows.")
    queue = Split(story, "c", 1, 4, low=EVENT_IDX).bring_up()
    for turn in range(13):
        away = (0, 1, -1, 4, -4)[turn % 5]
        queue.put(queue.areas[1] + 12, number((turn + away) % 65536, 2))
        queue.put(queue.areas[2], b"\xee\xee")
        queue.put(queue.areas[2] + 36, b"\xee\xee")
        queue.offer([Buffer(TEXT, 0)])
        queue.notify(told=0 if away else 1)
        queue.look(queue.areas[2], 2, bytes(2))
        queue.look(queue.areas[2] + 36, 2, number(turn + 1, 2))
        queue.acknowledge()
    return story


def wide(story, low=0, queue=1):
    """A split ring of 256, one empty text for all heads, which are 0 to 255."""
    ring = Split(story, "c", queue, 256, low=low).bring_up()
    ring.put(ring.areas[0], ring.entry(Buffer(TEXT, 0), -1) * 256)
    ring.put(ring.areas[1] + 4, b"".join(number(head, 2) for head in range(256)))
    return ring


def serve(ring, count, **said):
    """That many more chains of a wide ring."""
    ring.offered = (ring.offered + count) % 65536
    ring.put(ring.areas[1] + 2, number(ring.offered, 2))
    ring.notify(**said)


def ring_of_256():
    story = Story("rounds/three_rounds_of_a_split_ring_of_256",
                  "Services of 100 chains through three rounds of 256: the last used entry and the idx of each.")
    ring = wide(story)
    for _ in range(8):
        serve(ring, 100)
        ring.look_at_used(0, head=(ring.place - 1) % 256)
        ring.look_at_used(0, head=(ring.place - 100) % 256, back=100)
    return story


def sixteen_bits():
    """Places around 2^15 and 2^16 in two rounds of 16 bits, and into the third."""
    story = Story("rounds/the_third_round_of_16_bits",
                  "Around 2^15 and 2^16, twice: the used idx and entry, avail_event and used_event. Last, one chain too many.")
    ring = wide(story, low=EVENT_IDX)
    for turn in range(4):
        ring.put(ring.areas[1] + 4 + 512, number((ring.place - 1) % 65536, 2))
        for _ in range(127):
            serve(ring, 256, told=0)
        serve(ring, 252 if turn else 255, told=0)
        near(ring)
    ring.offered = (ring.place + 257) % 65536
    ring.put(ring.areas[1] + 2, number(ring.offered, 2))
    ring.notify(FAULT)
    return story


def near(ring):
    """Four services of one chain from place 0x7fff or 0xffff on, and one of none."""
    for away in (0, 1, -1, 0):
        ring.put(ring.areas[1] + 4 + 512, number((ring.place + away) % 65536, 2))
        serve(ring, 1, told=0 if away else 1)
        ring.look_at_used(0, head=(ring.place - 1) % 256)
        ring.look(ring.areas[2] + 4 + 2048, 2, number(ring.place, 2))
        ring.acknowledge()
    serve(ring, 0, told=0)


# --- after a fault, a stop, a reset

def used_again(queue, **more):
    """One more chain of a text of one byte: it goes out and is used."""
    queue.offer([Buffer(TEXT, 1)])
    queue.notify(output=b"t", **more)
    queue.look_at_used(0, **({"wrote": False} if queue.is_packed else {}))


def faults(kind):
    """Three times: some chains, a fault at the next, a reset, and from place 0 on."""
    story = Story(named(kind, "three_faults_and_resets"), "After a fault and a reset the queue begins at place 0, each time.")
    queue = kind(story, "c", 1, 4)
    for turn in range(3):
        queue.clear()
        queue.bring_up()
        queue.put(TEXT, b"t")
        for _ in range(5 + turn):
            used_again(queue)
        queue.offer([Buffer(0, 1)])
        queue.notify(FAULT)
        story.read("c", STATUS, 0x4f)
        queue.write(0x050, 1)
        story.read("c", 0x060, 3)
        story.write("c", 0x064, 3)
        queue.write(0x050, 1)
        queue.write(STATUS, 0xf)
        story.read("c", STATUS, 0x4f)
        if not queue.is_packed:
            queue.look(queue.areas[2] + 2, 2, number(5 + turn, 2))
    return story


def fault_in_a_round(kind):
    """The chain with the fault is the first of the second, and of the third round; those before it in the service are used."""
    story = Story(named(kind, "a_fault_after_each_round"),
                  "A fault in the first chain of a later round: the chains before it, of the same service, are used.")
    for turn in (1, 2, 3, 4):
        queue = kind(story, "c", 1, 4)
        queue.clear()
        queue.bring_up()
        queue.put(TEXT, b"t")
        for _ in range(4 * turn - 2):
            used_again(queue)
        before = queue.offered
        for address in (TEXT, TEXT, 0):
            queue.offer([Buffer(address, 1)], **({} if queue.is_packed else {"head": queue.offered % 4}))
        queue.notify(FAULT, b"tt", told=3)
        if queue.is_packed:
            mark = number(0x8080 if (before + 1) % 8 < 4 else 0, 2)
            queue.look(queue.areas[0] + 16 * ((before + 1) % 4) + 14, 2, mark)
            queue.look(queue.areas[0] + 16 * ((before + 2) % 4) + 14, 2, number(queue.mark(before + 2), 2))
        else:
            queue.look(queue.areas[2] + 2, 2, number(before + 2, 2))
    return story


def stops(kind):
    """Stopped and started at each place of two rounds: it begins at place 0."""
    story = Story(named(kind, "a_stop_and_a_start_at_each_place"),
                  "A queue that is stopped after 1, 2, .. 9 chains and made ready again begins at place 0.")
    queue = kind(story, "c", 1, 4).bring_up()
    queue.put(TEXT, b"t")
    for count in range(1, 10):
        for _ in range(count):
            used_again(queue)
        stop(queue)
        queue.write(0x050, 1)
        queue.clear()
        queue.write(0x044, 1)
        story.read("c", 0x044, 1)
        queue.start_over()
    used_again(queue)
    return story


def stop(queue):
    queue.write(0x044, 0)
    queue.story.read(queue.window, 0x044, 0)


def events_after_stops(kind):
    """The driver names place 0: the first chain after each start is told, no other."""
    story = Story(named(kind, "events_after_a_stop_and_a_start"),
                  "Place 0 is named: the first chain after each start is told, the next ones aren't.")
    queue = kind(story, "c", 1, 4, low=EVENT_IDX).bring_up()
    if kind.is_packed:
        queue.put(queue.areas[1], number(0x8000, 2) + number(2, 2))
    for count in (1, 2, 3, 4, 5):
        for at in range(count):
            queue.offer([Buffer(TEXT, 0)])
            queue.notify(told=0 if at else 1)
            queue.acknowledge()
            if not kind.is_packed:
                queue.look(queue.areas[2] + 36, 2, number(at + 1, 2))
        stop(queue)
        queue.clear()
        queue.write(0x044, 1)
        queue.start_over()
    return story


def ready_again(kind):
    """Writes to a ready queue's registers change nothing, in each round."""
    story = Story(named(kind, "a_ready_queue_in_each_round"),
                  "A ready queue is made ready again, moved and resized after each of nine chains: it goes on as it was.")
    queue = kind(story, "c", 1, 4).bring_up()
    queue.put(TEXT, b"t")
    for turn in range(9):
        for offset, value in ((0x038, 2), (0x080, BASE + 0x8000), (0x090, BASE + 0x9000), (0x0a0, BASE + 0xa000), (0x084, 1),
                              (0x044, 1 if turn % 3 else 3)):
            queue.write(offset, value)
        story.read("c", 0x044, 1)
        used_again(queue)
    return story


def both_queues(kind):
    """A receive queue of four and a transmit queue of eight, in turn."""
    story = Story(named(kind, "both_queues_of_a_console_in_turn"),
                  "A receive queue of 4 and a transmit queue of 8 are served in turn: each has its own place.")
    receive, transmit = kind(story, "c", 0, 4), kind(story, "c", 1, 8, at=BASE + 0x8000)
    receive.begin()
    receive.make_ready()
    transmit.make_ready()
    receive.go()
    for turn in range(25):
        transmit.put(TEXT, bytes([turn]))
        transmit.offer([Buffer(TEXT, 1)])
        transmit.notify(output=bytes([turn]))
        transmit.look_at_used(0, **({"wrote": False} if kind.is_packed else {}))
        if turn % 2:
            receive.offer([Buffer(TEXT + 16, 8, WRITE)])
            story.type(bytes([turn] * 3), took=3, told=1)
            receive.after(SERVED)
            receive.look_at_used(3)
            receive.look(TEXT + 16, 4, bytes([turn] * 3 + [0]))
    return story


def failed_again(capacity):
    """A write and a zeroing of one sector fail in each of three rounds: half of the sector is new, and it isn't kept."""
    story = Story(f"rounds/half_a_sector_again_over_a_cache_of_{capacity}",
                  "A write and a zeroing fail in each of three rounds: the sector's first half is new, its second as it was.",
                  cache=capacity)
    disk = Disk(KINDS["split"], story)
    queue, calls, fails, second = disk.queue, 0, [], 0x13
    for turn in range(3):
        for data, first in ((bytes([0x60 + turn]) * SECTOR, 0x60 + turn), (b"", 0)):
            fails.append(calls)
            disk.request(1 if data else 13, IOERR, data or segment(3, 1), 3)
            disk.request(0, OK, sector=3, room=SECTOR)
            for at, byte in ((0, first), (255, first), (256, second), (511, second)):
                queue.look(ROOM + at, 1, bytes([byte]))
            calls += 2
        second = 0x70 + turn
        disk.fills(3, second)
        disk.sees(3, second)
        calls += 2
    story.fails = fails
    return story


def written_twice(kind):
    """Each register of a bring-up is written twice, and so is a notify, an acknowledgment, a stop and a reset."""
    story = Story(named(kind, "each_register_written_twice"),
                  "Each write of a bring-up, a notify, a stop and a reset is made twice: the second changes nothing.")
    queue = kind(story, "c", 1, 4)
    write = queue.write

    def twice(offset, value, **said):
        write(offset, value, **said)
        write(offset, value)
    queue.write = twice
    for turn in range(2):
        queue.clear()
        queue.bring_up()
        queue.put(TEXT, b"t")
        for _ in range(5):
            used_again(queue)
        queue.acknowledge()
        stop(queue)
        queue.clear()
        queue.write(0x044, 1)
        queue.start_over()
        used_again(queue)
    return story


def kept_through_resets():
    """A kept sector stays kept whatever becomes of the window: only two reads call the image."""
    story = Story("rounds/a_kept_sector_through_faults_and_stops",
                  "A sector that was read stays kept through a fault, a reset, a stop and a start: call 1 is another sector's.",
                  fails=[1])
    disk = Disk(KINDS["split"], story)
    disk.sees(2, 0x12)
    disk.queue.offer([Buffer(0, 1)])
    disk.queue.notify(FAULT)
    for _ in range(2):
        disk.queue.clear()
        disk.queue.bring_up()
        disk.sees(2, 0x12)
    stop(disk.queue)
    disk.queue.clear()
    disk.queue.write(0x044, 1)
    disk.queue.start_over()
    disk.sees(2, 0x12)
    disk.request(0, IOERR, sector=3, room=SECTOR)
    disk.sees(3, 0x13)
    return story


def starts_at_other_sizes(kind):
    """A stopped queue is given another size and other areas, three times."""
    story = Story(named(kind, "three_sizes_and_areas"),
                  "A stopped queue is made ready with another size and other areas, again and again.")
    first = kind(story, "c", 1, 4).bring_up()
    first.put(TEXT, b"t")
    used_again(first)
    for size, at in ((8, BASE + 0x8000), (1, BASE + 0xb000), (2, BASE + 0x1000), (256, BASE + 0x8000)):
        first.write(0x044, 0)
        queue = kind(story, "c", 1, size, at=at)
        queue.clear()
        queue.make_ready()
        story.read("c", 0x044, 1)
        for _ in range(3):
            used_again(queue)
    return story


def resets(kind):
    """Three resets in a row, between them the same driver; then one that wants less."""
    story = Story(named(kind, "a_driver_after_each_of_three_resets"),
                  "After each of three resets all is as after the first, and the window comes up again.")
    queue = kind(story, "b", 0, 4, low=INDIRECT_DESC)
    for turn in range(3):
        queue.clear()
        queue.bring_up()
        queue.put(HEADER, number(4, 16))
        for _ in range(2 + turn):
            queue.put(STATUS_BYTE, b"\xff")
            queue.offer([Buffer(HEADER, 16), Buffer(STATUS_BYTE, 1, WRITE)])
            queue.notify()
            queue.look(STATUS_BYTE, 1, b"\0")
        for offset, value in ((0x030, 7), (0x014, 1), (0x024, 1)):
            queue.write(offset, value)
        queue.write(STATUS, 0)
        for offset, found in ((STATUS, 0), (0x044, 0), (0x060, 0), (0x034, 256), (0x010, 0x30004244)):
            story.read("b", offset, found)
        queue.write(0x050, 0)
        queue.write(0x044, 1)
        story.read("b", 0x044, 0)
        forgets_each_part(queue)
    return story


def forgets_each_part(queue):
    """After a reset one register of the queue is left out: it isn't ready."""
    registers = {0x038: queue.size, **dict(zip((0x080, 0x090, 0x0a0), queue.areas))}
    for left_out in registers:
        queue.write(STATUS, 0)
        queue.begin()
        for offset, value in registers.items():
            if offset != left_out:
                queue.write(offset, value)
        queue.write(0x044, 1)
        queue.story.read(queue.window, 0x044, 0)


def statuses(kind):
    """FAILED, and DEVICE_NEEDS_RESET, in three lives of a window."""
    story = Story(named(kind, "failed_in_each_of_three_lives"), "FAILED stops a window until a reset, in each of three lives.")
    queue = kind(story, "c", 1, 4)
    for turn in range(3):
        queue.clear()
        queue.bring_up()
        queue.put(TEXT, b"t")
        used_again(queue)
        queue.write(STATUS, 0x80)
        story.read("c", STATUS, 0x8f)
        queue.offer([Buffer(TEXT, 1)])
        queue.write(0x050, 1)
        queue.write(STATUS, 0xf)
        story.read("c", STATUS, 0x8f)
        queue.write(0x050, 1)
    return story


def interrupts(kind):
    """Both bits are set, told and acknowledged again and again."""
    story = Story(named(kind, "interrupts_that_are_acknowledged_and_set_again"),
                  "Bits of InterruptStatus that were acknowledged are set again, each by itself.")
    queue = kind(story, "c", 1, 4).bring_up()
    queue.put(TEXT, b"t")
    for acknowledged in (1, 2, 3, 0, 1, 2, 3, 0xfffffffc, 3):
        used_again(queue)
        story.resize(1, 1, told=2)
        story.write("c", 0x064, acknowledged)
        story.read("c", 0x060, 3 & ~acknowledged)
        story.resize(1, 1, told=2)
        used_again(queue)
        story.read("c", 0x060, 3)
        story.write("c", 0x064, acknowledged)
    return story


def unserved_again(kind):
    """A chain that waits unserved is served once the window is live, the queue ready and input there: three times."""
    story = Story(named(kind, "receive_chains_that_wait_again"),
                  "A receive chain waits until something is typed, in each of three rounds; a notify alone takes none.")
    queue = kind(story, "c", 0, 4).bring_up()
    for turn in range(13):
        queue.offer([Buffer(TEXT, 4, WRITE)])
        queue.write(0x050, 0)
        if queue.is_packed:
            queue.look(queue.areas[0] + 16 * (turn % 4) + 14, 2, number(queue.mark(turn) | WRITE, 2))
        else:
            queue.look(queue.areas[2] + 2, 2, number(turn, 2))
        story.type(bytes([turn + 1] * 3), took=3, told=1)
        queue.after(SERVED)
        queue.look_at_used(3)
        queue.look(TEXT, 3, bytes([turn + 1] * 3))
        queue.acknowledge()
    return story


def indirect_again(kind):
    """A feature that the second driver takes, and the third doesn't."""
    story = Story(named(kind, "tables_for_every_second_driver"),
                  "A table is served for the driver that took INDIRECT_DESC, and a fault for the next one, again and again.")
    for turn in range(4):
        queue = kind(story, "c", 1, 4, low=INDIRECT_DESC if turn % 2 else 0)
        queue.clear()
        queue.bring_up()
        queue.put(TEXT, b"t")
        queue.offer([queue.table(BASE + 0x8000, [Buffer(TEXT, 1, 0, 0)])])
        queue.notify(*((SERVED, b"t") if turn % 2 else (FAULT,)))
        story.read("c", STATUS, 0xf if turn % 2 else 0x4f)
    return story


def kinds_in_turn():
    """Split, packed, split, packed: each begins at its place 0."""
    story = Story("rounds/split_and_packed_in_turn",
                  "One queue is split, then packed, then split, then packed: it begins anew each time.")
    for turn in range(4):
        queue = (Packed if turn % 2 else Split)(story, "c", 1, 4)
        queue.put(queue.areas[1], bytes(16))
        queue.clear()
        queue.bring_up()
        queue.put(TEXT, b"t")
        for _ in range(5):
            used_again(queue)
    return story


def event_idx_again():
    """EVENT_IDX is served for the driver that took it, in turn."""
    story = Story("rounds/event_idx_for_every_second_driver",
                  "used_event counts for the driver that took EVENT_IDX, the flag for the next one, again and again.")
    for turn in range(4):
        took = turn % 2 == 1
        queue = Split(story, "c", 1, 4, low=EVENT_IDX if took else 0)
        queue.clear()
        queue.put(queue.areas[1], number(1, 2))
        queue.put(queue.areas[1] + 12, number(1, 2))
        queue.put(queue.areas[2] + 36, b"\xee\xee")
        queue.bring_up()
        for place in range(3):
            queue.offer([Buffer(TEXT, 0)])
            queue.notify(told=1 if took and place == 1 else 0)
            queue.look(queue.areas[2] + 36, 2, number(place + 1, 2) if took else b"\xee\xee")
            queue.acknowledge()
    return story


def features_again():
    """FEATURES_OK refused, taken, refused and taken, by one driver after another."""
    story = Story("rounds/features_of_six_drivers",
                  "Each driver's features are its own: what an earlier one asked for is gone after a reset.")
    for low, high, good in ((8, 1, False), (0, 1, True), (0, 2, False), (1 << 28, 1, True), (0, 0, False), (1 << 9, 0x45, True)):
        story.write("b", STATUS, 0)
        story.write("b", STATUS, 3)
        if low:
            story.write("b", 0x020, low)
        if high:
            story.write("b", 0x024, 1)
            story.write("b", 0x020, high)
        story.write("b", STATUS, 0xb)
        story.read("b", STATUS, 0xb if good else 3)
    return story


def configuration_again():
    """Size and generation after the first, second and third resize, resets between."""
    story = Story("rounds/resizes_of_three_lives",
                  "The generation counts each resize, in each life of the window; a reset keeps it and the size.")
    for turn in range(6):
        story.read("c", 0x0fc, 2 * turn)
        for more in (1, 2):
            live = turn % 2
            if live:
                story.write("c", STATUS, 4)
            story.resize(turn * 16 + more, more, told=2 if live else 0)
            story.read("c", 0x0fc, 2 * turn + more)
            story.read("c", 0x100, more << 16 | turn * 16 + more)
        story.write("c", STATUS, 0)
        story.read("c", 0x100, 2 << 16 | turn * 16 + 2)
        story.read("b", 0x0fc, 0)
    return story


def read_only_again():
    story = Story("rounds/writes_to_a_read_only_disk_again",
                  "A read-only disk refuses the first, the second and the third write, with a reset between; reads go on.",
                  [Slot(mode="ro")])
    for turn in range(3):
        disk = Disk(Split, story)
        for kind, data in ((1, b"\xaa" * 512), (13, segment(0, 1)), (1, b"")):
            disk.request(kind, IOERR, data)
        disk.sees(0, 0x10)
        disk.queue.clear()
    return story


def emergency_again():
    story = Story("rounds/emergency_writes_again",
                  "An emergency byte goes out each time, before and after a reset, and in a failed window.")
    for turn, status in enumerate((0, 1, 3, 0xb, 0xf, 0x8f, 0, 7)):
        story.write("c", STATUS, status)
        for more in range(3):
            story.write("c", 0x108, 0x41 + 3 * turn + more, output=bytes([0x41 + 3 * turn + more]))
    return story


def notifications_again():
    """A notify with nothing new, twice and thrice, in each round."""
    story = Story("rounds/notifies_of_nothing_again",
                  "A notify behind one that served all serves nothing, however often, in each of three rounds.")
    for kind in KINDS.values():
        queue = kind(story, "c", 1, 2)
        queue.clear()
        queue.bring_up()
        queue.put(TEXT, b"t")
        for _ in range(7):
            used_again(queue)
            queue.acknowledge()
            for _ in range(3):
                queue.put(queue.areas[2], b"\xee\xee")
                queue.write(0x050, 1)
                queue.look(queue.areas[2], 2, bytes(2))
    return story


# --- pending input

# How much is typed and taken: what was taken in all is just below, at and just above each multiple of 4096.
PIECES = [(4095, 4094), (4096, 1), (1, 1), (2, 2), (4096, 4092), (3000, 1), (4096, 2), (1, 4095), (4096, 4096), (1, 1),
          (4096, 2000), (3000, 4096)]


def pending(kind):
    """Typed and taken in pieces until the 4096 bytes of room were filled more than three times."""
    story = Story(named(kind, "pending_input_of_four_rounds"),
                  "Bytes are typed and taken in pieces, four times as many as may wait: none is lost, and their order stays.")
    queue = kind(story, "c", 0, 4).bring_up()
    waits, count = b"", 0
    for turn, (typed, taken) in enumerate(PIECES):
        text = bytes((count + at) * 7 % 253 for at in range(typed))
        took = min(typed, 4096 - len(waits))
        count += took
        story.type(text, took=took)
        waits += text[:took]
        queue.offer([Buffer(BASE + 0x8000, taken, WRITE)])
        more = b"!" if len(waits) == 4096 else b""
        gets, waits = waits[:taken], waits[taken:]
        if turn % 2 == 0:
            story.type(more, took=0, told=1)
            queue.after(SERVED)
        else:
            queue.notify()
        queue.look_at_used(len(gets))
        queue.look(BASE + 0x8000, len(gets), gets)
    return story


# --- the cache

def cached(capacity):
    """Sectors read, written and zeroed again and again, with what they held before."""
    story = Story(f"rounds/sectors_over_a_cache_of_{capacity}",
                  "Sectors are read, written and zeroed in three rounds: each read gives what was written last.", cache=capacity)
    disk = Disk(KINDS["split"], story)
    holds = {sector: 0x10 + sector for sector in range(8)}
    for turn in range(3):
        for sector in (0, 1, 0, 2, 1):
            disk.sees(sector, holds[sector])
        for sector in (turn, 3):
            holds[sector] = 0x60 + 16 * turn + sector
            disk.fills(sector, holds[sector])
        disk.zeroes([((turn + 1) % 3, 1, 0)], OK)
        holds[(turn + 1) % 3] = 0
        for sector in (0, 3, 1, 2, 3):
            disk.sees(sector, holds[sector])
    return story


def cached_calls():
    """Which reads of sectors 0, 1, 0, 2, 1, again and again, call the image: the last kept ones don't."""
    pattern = [0, 1, 0, 2, 1] * 3
    for capacity in (1, 2, 3):
        calls, kept, fails = 0, [], []
        missing = []
        for at, sector in enumerate(pattern):
            if sector in kept:
                kept.remove(sector)
                kept.append(sector)
                continue
            missing.append(at)
            is_bad = len(missing) in (2, 5, 9)
            if is_bad:
                fails.append(calls)
            else:
                kept = (kept + [sector])[-capacity:]
            calls += 1
        story = Story(f"rounds/failing_reads_over_a_cache_of_{capacity}",
                      "Three rounds of the same reads: just those that aren't kept call the image, and some of these fail.",
                      cache=capacity, fails=fails)
        disk = Disk(KINDS["split"], story)
        failing, number_of_miss = set(), 0
        for at in missing:
            number_of_miss += 1
            if number_of_miss in (2, 5, 9):
                failing.add(at)
        for at, sector in enumerate(pattern):
            if at in failing:
                disk.request(0, IOERR, sector=sector, room=SECTOR)
            else:
                disk.sees(sector, 0x10 + sector)
        yield story


def called():
    """The same reads, and last one of a sector that was never read: the number of its call tells how many came before."""
    for capacity in (1, 2, 3):
        for rounds in (1, 2, 3):
            calls, kept = 0, []
            for sector in [0, 1, 0, 2, 1] * rounds:
                calls += sector not in kept
                kept = ([one for one in kept if one != sector] + [sector])[-capacity:]
            story = Story(f"rounds/calls_of_{5 * rounds}_reads_over_a_cache_of_{capacity}",
                          "The call behind those of 5, 10 or 15 reads fails: just those that weren't kept called the image.",
                          cache=capacity, fails=[calls])
            disk = Disk(KINDS["split"], story)
            for sector in [0, 1, 0, 2, 1] * rounds:
                disk.sees(sector, 0x10 + sector)
            disk.request(0, IOERR, sector=7, room=SECTOR)
            yield story
    for capacity in (1, 2, 3):
        yield called_by_writes(capacity)


def called_by_writes(capacity):
    """A read of what was written calls the image where it isn't kept any more; of what was zeroed always."""
    calls, kept = 0, []
    story = Story(f"rounds/calls_of_reads_and_writes_over_a_cache_of_{capacity}",
                  "The call behind those of reads, writes and zeroes fails: a written sector is kept, a zeroed one isn't.",
                  cache=capacity)
    disk = Disk(KINDS["split"], story)
    holds = {}
    for what, sector in [("w", 0), ("r", 0), ("r", 1), ("w", 2), ("r", 1), ("z", 1), ("r", 1), ("r", 2), ("w", 1), ("z", 2),
                         ("r", 0)] * 3:
        kept_before = sector in kept
        kept = [one for one in kept if one != sector] + ([] if what == "z" else [sector])
        kept = kept[-capacity:]
        calls += 2 if what in "wz" else not kept_before
        if what == "r":
            disk.sees(sector, holds.get(sector, 0x10 + sector))
        elif what == "w":
            holds[sector] = 0x80 + calls
            disk.fills(sector, holds[sector])
        else:
            holds[sector] = 0
            disk.zeroes([(sector, 1, 0)], OK)
    story.fails = [calls]
    disk.request(0, IOERR, sector=7, room=SECTOR)
    return story


def flushes_again():
    """Every second flush fails: each is told of its own."""
    story = Story("rounds/every_second_flush_fails",
                  "Of six flushes every second one fails, and is told so: what was written stays.", fails=[1, 3, 5, 7, 11])
    disk = Disk(KINDS["split"], story)
    for turn in range(3):
        disk.request(4, OK)
        disk.request(4, IOERR)
    disk.request(1, IOERR, b"\x77" * 512, 6)
    disk.sees(6, 0x77)
    image = bytearray(plain_image())
    image[6 * SECTOR:7 * SECTOR] = b"\x77" * SECTOR
    story.leaves = (bytes(image), 7)
    return story
