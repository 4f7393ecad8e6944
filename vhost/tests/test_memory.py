"""Memory that changes while a queue runs, memory that is cut, and the log of pages that are written to."""
import os
import struct
import time

import disks
from front_end import PAGE, Ended, Feature, Memory, Refused, Region, Request, WANTED
from program import options_of, over, pattern, same
from queues import KINDS

BASE, SIZE, FAR = 0x80000000, 4 << 20, 0x100000000


def read_into(front, address):
    """Has sector 9 read to an address, and returns what its chain's used length is."""
    room = front.disk.room(40)
    front.memory.write(room, struct.pack("=IIQ", disks.IN, 0, 9))
    front.queue.offer([(room, 16, 0), (address, 512, 2), (room + 32, 1, 2)])
    return [length for _, length in front.queue.wait()]


@over(*((kind,) for kind in KINDS))
def test_a_region_comes_and_goes(make, kind):
    with make(*options_of(kind)) as program:
        with program.machine(kind, memory=Memory(Region(BASE, SIZE))) as front:
            for turn in range(3):
                region = Region(FAR + turn * SIZE, SIZE)
                front.memory.regions.append(region)
                front.add_region(region)
                same(read_into(front, region.guest + SIZE - 512), [513], "the used length")
                same(front.memory.read(region.guest + SIZE - 512, 512), program.bytes(9), "sector 9 in the new region")
            front.remove_region(front.memory.regions.pop(2))
            same(read_into(front, FAR + 2 * SIZE), [513], "the used length in a region that stays")
            front.queue.offer([(front.disk.room(40), 16, 0), (FAR + SIZE, 512, 2), (front.disk.room(40) + 32, 1, 2)])
            same(front.queue.has_failed(), True, "whether a buffer in the region that went is an error")
        program.must_serve(kind)


@over(*((kind,) for kind in KINDS))
def test_a_table_anew(make, kind):
    """The same addresses in other files, as after a guest's memory was laid anew."""
    with make(*options_of(kind)) as program, program.machine(kind, memory=Memory(Region(BASE, SIZE))) as front:
        for turn in range(3):
            old, new = front.memory.regions[0], Region(BASE, SIZE, user=0x600000000000 + turn * SIZE, offset=turn * PAGE)
            same(front.disk.do(disks.IN, turn, wanted=512).data, program.bytes(turn), f"sector {turn}")
            front.stop()
            new.map[new.offset:] = old.map[old.offset:]
            front.memory.regions[0] = new
            front.set_memory(front.memory)
            front.start(front.queue)
            was = old.map[:]
            same(front.disk.do(disks.IN, turn + 8, wanted=512).data, program.bytes(turn + 8), f"sector {turn + 8}")
            same(old.map[:] == was, True, "whether the old memory is as it was")


CUTS = {"all": 0, "data": 0x10000, "half": SIZE // 2}


@over(*((kind, what, options) for kind in KINDS for what in CUTS for options in ((), ("--direct",))))
def test_memory_that_is_cut(make, kind, what, options):
    """A front end that cuts its memory's file while requests run ends at most itself."""
    with make(*options_of(kind), *options) as program:
        with program.machine(kind, memory=Memory(Region(BASE, SIZE)), most=4096) as front:
            for sector in range(24):
                front.disk.submit(disks.IN, sector, wanted=4096, notify=sector == 12)
            os.ftruncate(front.memory.regions[0].file, CUTS[what])
            front.queue.notify()
            time.sleep(0.05)
            program.must_live()
            try:
                front.stop()
            except (Ended, Refused, TimeoutError):
                pass
        program.must_serve(kind)


def test_memory_that_was_cut_before(make):
    """A table of a file that is shorter than it says."""
    with make() as program:
        try:
            region = Region(FAR, SIZE)
            os.ftruncate(region.file, PAGE)
            with program.machine(memory=Memory(Region(BASE, SIZE))) as front:
                front.add_region(region)
                front.queue.offer([(FAR + SIZE - 16, 16, 0), (front.disk.room(1), 513, 2)])
                front.queue.has_failed(0.2)
        except (Ended, Refused):
            pass
        program.must_serve()


# --- under load

# Where a queue of 256 entries stands behind 1280 chains. A packed one has three descriptors of each: 3840, 15 times round.
PLACES = {"split": 1280, "packed": 0}
SECTORS = range(0, 32 * 8, 8)


def has_said(program, *counts):
    """That the program said each of these words so many times."""
    for words, count in counts:
        same(program.said().count(words), count, f"how often it said '{words}'")


def load(front, program, turn, change):
    """Has 32 reads and 32 writes in flight while something changes, and judges each of them."""
    new = {sector: pattern(8, seed=100 * turn + sector + 2) for sector in SECTORS}
    reads = {sector: front.disk.submit(disks.IN, sector, wanted=4096, notify=False) for sector in SECTORS}
    writes = [front.disk.submit(disks.OUT, 1024 + sector, data, notify=sector == SECTORS[-1]) for sector, data in new.items()]
    change()
    for sector, name in reads.items():
        done = front.disk.result(name)
        same((done.status, done.length, done.data), (disks.OK, 4097, program.bytes(sector, 8)), f"the read of sector {sector} in turn {turn}")
    for name in writes:
        done = front.disk.result(name)
        same((done.status, done.length), (disks.OK, 1), f"a write in turn {turn}")
    same(all(program.bytes(1024 + sector, 8) == data for sector, data in new.items()), True, f"whether the writes of turn {turn} are done")


def by_region(front, region):
    front.add_region(region)
    front.remove_region(region)


def by_table(front, region):
    front.memory.regions.append(region)
    front.set_memory(front.memory)
    front.memory.regions.remove(region)
    front.set_memory(front.memory)


@over(*((kind, way.__name__) for kind in KINDS for way in (by_region, by_table)))
def test_memory_changes_under_load(make, kind, way):
    """Each request that is in flight meanwhile is done once, and the queue goes on: it isn't started again."""
    with make(*options_of(kind), "--verbose") as program, program.machine(kind, memory=Memory(Region(BASE, 16 << 20)), most=4096) as front:
        for turn in range(20):
            load(front, program, turn, lambda: {"by_region": by_region, "by_table": by_table}[way](front, Region(FAR, SIZE)))
        same(front.stop(), PLACES[kind], "the place")
        has_said(program, ("starts at", 1), ("goes on over other memory", 40))


@over(*((kind, count) for kind in KINDS for count in (2, 4)))
def test_memory_changes_under_several_queues(make, kind, count):
    with make(*options_of(kind), f"--queues={count}", "--verbose") as program:
        with program.machine(kind, memory=Memory(Region(BASE, 16 << 20)), most=4096) as front:
            drivers = [front.disk]
            for index in range(1, count):
                queue = KINDS[kind](front.memory, at=BASE + index * 0x200000)
                front.start(queue, index)
                drivers.append(disks.Disk(queue, most=4096))
            for turn in range(10):
                names = [(disk, sector, disk.submit(disks.IN, sector, wanted=4096)) for sector in SECTORS for disk in drivers]
                by_region(front, Region(FAR, SIZE))
                for disk, sector, name in names:
                    same(disk.result(name).data, program.bytes(sector, 8), f"sector {sector} in turn {turn}")
            has_said(program, ("starts at", count), ("goes on over other memory", 20 * count))


@over(*((kind,) for kind in KINDS))
def test_rings_may_move(make, kind):
    """A table in which the rings have other guest-physical addresses: the queue is started there, where it stood."""
    with make(*options_of(kind), "--verbose") as program, program.machine(kind, 12345, memory=Memory(Region(BASE, SIZE))) as front:
        queue, region = front.queue, front.memory.regions[0]
        same(front.disk.do(disks.IN, 1, wanted=512).data, program.bytes(1), "sector 1")
        region.guest += FAR
        for area in ("descriptors", "driver", "device"):
            setattr(queue, area, getattr(queue, area) + FAR)
        front.disk.at += FAR
        front.set_memory(front.memory)
        same(front.disk.do(disks.IN, 2, wanted=512).data, program.bytes(2), "sector 2")
        has_said(program, ("starts at", 2), ("goes on over other memory", 0))


@over(*((kind,) for kind in KINDS))
def test_rings_may_be_away_for_a_while(make, kind):
    with make(*options_of(kind)) as program, program.machine(kind, 300, memory=Memory(Region(BASE, SIZE))) as front:
        same(front.disk.do(disks.IN, 1, wanted=512).data, program.bytes(1), "sector 1")
        front.remove_region(front.memory.regions[0])
        name = front.disk.submit(disks.IN, 2, wanted=512)
        front.add_region(front.memory.regions[0])
        same(front.disk.result(name).data, program.bytes(2), "sector 2")


def test_a_reset_stays_wanted_over_other_memory(make):
    """A ring that broke the standard isn't served because memory came."""
    with make() as program, program.machine(memory=Memory(Region(BASE, SIZE))) as front:
        front.queue.publish(65535)
        same(front.queue.has_failed(), True, "whether the error is told")
        os.eventfd_read(front.queue.error)
        front.add_region(Region(FAR, SIZE))
        front.disk.submit(disks.IN, 1, wanted=512)
        same((front.queue.has_failed(0.2), front.queue.used_idx()), (False, 0), "whether it is told again, and what is used")


# --- the log

def changed(before, after):
    """Pages that differ, by their numbers."""
    return {(guest + at) // PAGE for guest in after for at in range(0, len(after[guest]), PAGE)
            if before[guest][at:at + PAGE] != after[guest][at:at + PAGE]}


class Log:
    """A log of pages, up to the end of all regions."""

    def __init__(self, memory):
        last = max(region.guest + region.size for region in memory.regions)
        self.size = (last // PAGE + 63) // 64 * 8
        self.file = os.memfd_create("log")
        os.ftruncate(self.file, self.size)

    def marked(self):
        content = os.pread(self.file, self.size, 0)
        return {8 * at + bit for at, byte in enumerate(content) if byte for bit in range(8) if byte >> bit & 1}

    def clear(self):
        os.pwrite(self.file, bytes(self.size), 0)

    def must_have(self, pages, what, seconds=10):
        """That all of these pages come to be marked in time."""
        until = time.monotonic() + seconds
        while self.lacks(pages) and time.monotonic() < until:
            time.sleep(0.001)
        same(self.lacks(pages), [], f"pages that aren't marked {what}")

    def lacks(self, pages):
        return [page for page in sorted(pages) if not os.pread(self.file, 1, page // 8)[0] >> page % 8 & 1]


def begin_log(front, log):
    """Switches the log on as a machine does that moves."""
    front.set_log(log.file, log.size)
    front.set_features([*wanted_of(front), Feature.LOG_ALL])
    front.queue.log = 1
    user, queue = front.memory.user, front.queue
    areas = [user(queue.descriptors), user(queue.device), user(queue.driver)]
    front.tell(Request.SET_VRING_ADDR, struct.pack("=IIQQQQ", 0, 1, *areas, queue.device))


def wanted_of(front):
    return [bit for bit in range(64) if front.features >> bit & 1]


@over(*((kind, indirect, options) for kind in KINDS for indirect in (False, True) for options in ((), ("--direct",))))
def test_pages_that_are_written_are_marked(make, kind, indirect, options):
    with make(*options_of(kind), *options) as program:
        # Bits begin at the first region, which is no multiple of 64 pages, and go on through a gap.
        memory = Memory(Region(BASE - 5 * PAGE, 5 * PAGE), Region(BASE, SIZE), Region(FAR, SIZE))
        with program.machine(kind, memory=memory, indirect=indirect) as front:
            same(front.offered >> Feature.LOG_ALL & 1, 1, "whether LOG_ALL is offered")
            front.disk.do(disks.IN, 1, wanted=512)
            log = Log(memory)
            begin_log(front, log)
            for sector, count, at in ((0, 1, 0), (16, 64, 3), (2, 128, 100)):
                name = front.disk.submit(disks.IN, sector, wanted=count * 512, shift=at, notify=False)
                before = memory.all()
                front.queue.notify()
                same(front.disk.result(name).data, program.bytes(sector, count), f"sector {sector}")
                written = {page for page in changed(before, memory.all()) if page not in own_pages(front)}
                log.must_have(written, f"of sector {sector}")
            same(read_into(front, FAR + SIZE - 512), [513], "the used length")
            log.must_have({(FAR + SIZE - 512) // PAGE}, "of the last page")
            room = front.disk.room(41)
            front.memory.write(room, struct.pack("=IIQ", disks.GET_ID, 0, 0))
            front.queue.offer([(room, 16, 0), (BASE - 5 * PAGE, 20, 2), (FAR + 7 * PAGE, 1, 2)])
            front.queue.wait()
            log.must_have({BASE // PAGE - 5, FAR // PAGE + 7}, "of GET_ID")
            same(sorted(page for page in log.marked() if page not in may_be_written(front)), [], "pages that are marked and weren't written")


def own_pages(front):
    """Pages that only the driver writes: the descriptors and the available ring of a split queue, and headers."""
    queue = front.queue
    own = {queue.driver // PAGE}
    return own | ({queue.descriptors // PAGE} if queue.FIRST == 0 else set())


def may_be_written(front):
    queue, disk = front.queue, front.disk
    first, last = queue.written()
    pages = set(range(first // PAGE, (last - 1) // PAGE + 1)) | {(FAR + SIZE - 512) // PAGE}
    for slot in range(4):
        pages |= set(range(disk.room(slot) // PAGE, (disk.room(slot) + disk.step) // PAGE + 1))
    return pages | {disk.room(40) // PAGE, BASE // PAGE - 5, FAR // PAGE + 7}


@over(*((kind,) for kind in KINDS))
def test_marks_go_on_after_they_were_taken(make, kind):
    """A machine clears the log again and again while requests run: each page that was written since is marked anew."""
    with make(*options_of(kind)) as program, program.machine(kind, memory=Memory(Region(BASE, SIZE))) as front:
        log = Log(front.memory)
        begin_log(front, log)
        for turn in range(20):
            log.clear()
            same(front.disk.do(disks.IN, turn, wanted=512).data, program.bytes(turn), f"sector {turn}")
            log.must_have(of_a_read(front), f"in turn {turn}")


def of_a_read(front, slot=0):
    """The pages that the device writes to where a slot's request is a read: of data, of its status, and of the ring."""
    room = front.disk.room(slot)
    return {(room + front.disk.DATA) // PAGE, (room + front.disk.STATUS) // PAGE, front.queue.written()[0] // PAGE}


def by_stop(front):
    front.stop()


def by_plug(front):
    by_region(front, Region(0xc0000000, SIZE))


@over(*((kind, way.__name__) for kind in KINDS for way in (by_stop, by_plug)))
def test_a_halt_loses_no_mark(make, kind, way):
    """What is done last before a halt: by a stop's answer its pages are in the log."""
    with make(*options_of(kind)) as program, program.machine(kind, memory=Memory(Region(BASE, SIZE), Region(FAR, 1 << 28)), most=4096) as front:
        log = Log(front.memory)
        begin_log(front, log)
        for turn in range(8):
            log.clear()
            names = [front.disk.submit(disks.IN, sector, wanted=512) for sector in range(turn, turn + 4)]
            slots = {name: front.disk.slots[name][0] for name in names}
            {"by_stop": by_stop, "by_plug": by_plug}[way](front)
            front.disk.gather(front.queue.taken())
            done = [slots[name] for name in names if name in front.disk.results]
            log.must_have(set().union(*(of_a_read(front, slot) for slot in done)), f"in turn {turn}", seconds=0 if way == "by_stop" else 10)
            if way == "by_stop":
                front.start(front.queue)
            for name in names:
                front.disk.result(name)


def test_without_the_feature_nothing_is_marked(make):
    with make() as program, program.machine(memory=Memory(Region(BASE, SIZE)), wanted=WANTED) as front:
        log = Log(front.memory)
        front.set_log(log.file, log.size)
        front.disk.do(disks.IN, 1, wanted=512)
        same(log.marked(), set(), "the marked pages")
