"""The program is killed under load and started anew: each request is done once for its driver, and no write is lost."""
import random
import time

import disks
from front_end import WANTED, FrontEnd, Memory, Region
from program import features_of, options_of, over, pattern, same
from queues import KINDS

BASE, SIZE, DEPTH = 0x80000000, 16 << 20, 32


class Load:
    """A driver with requests in flight all the time: writes of 4 KiB, each of other bytes, and reads of what was written before."""

    def __init__(self, program, kind, chance):
        self.chance, self.kind, self.program = chance, kind, program
        memory = Memory(Region(BASE, SIZE))
        self.queue = KINDS[kind](memory)
        self.disk, self.memory = disks.Disk(self.queue, most=4096), memory
        self.written, self.waiting, self.turn = {}, {}, 1
        self.first = pattern(program.sectors)

    def connect(self):
        """A new connection, which goes on behind the last used chain, as a machine's does."""
        self.take(0)
        self.front = FrontEnd(self.program.socket)
        self.front.negotiate([*WANTED, *features_of(self.kind)])
        self.front.set_memory(self.memory)
        self.front.start(self.queue)

    def fill(self):
        while len(self.waiting) < DEPTH:
            sector = 8 * self.chance.randrange(self.program.sectors // 8)
            if sector in {of for of, *_ in self.waiting.values()}:
                continue
            self.turn += 1
            is_write = self.chance.random() < 0.6
            data = pattern(8, seed=self.turn + 1000) if is_write else self.written.get(sector) or self.first[512 * sector:512 * sector + 4096]
            name = self.disk.submit(*((disks.OUT, sector, data) if is_write else (disks.IN, sector, b"", 4096)), notify=False)
            self.waiting[name] = (sector, is_write, data)
        self.queue.notify()

    def take(self, count=1, seconds=10):
        """Takes what is used, and judges it."""
        for name, length in self.queue.wait(count, seconds):
            self.disk.gather([(name, length)])
            done, (sector, is_write, data) = self.disk.result(name), self.waiting.pop(name)
            same((done.status, length), (disks.OK, 1 if is_write else 4097), f"the end of a request at {sector}")
            if is_write:
                self.written[sector] = data
            else:
                same(done.data, data, f"the bytes of sector {sector}")

    def run(self, seconds):
        until = time.monotonic() + seconds
        while time.monotonic() < until:
            self.fill()
            self.take()
        self.fill()


@over(*((kind, options) for kind in KINDS for options in ((), ("--direct",), ("--depth=64",))))
def test_killed_under_load(make, kind, options):
    with make(*options_of(kind), *options, sectors=4096) as program:
        load = Load(program, kind, random.Random(f"{make.seed} {kind} {options}"))
        load.connect()
        for _ in range(make.kills):
            load.run(load.chance.random() / 20)
            time.sleep(load.chance.random() / 1000)
            program.kill()
            load.front.close()
            program.start()
            load.connect()
        load.take(len(load.waiting))
        for sector, data in load.written.items():
            same(program.bytes(sector, 8), data, f"what was written at {sector}")
        same(len(load.written) > 50, True, f"whether {len(load.written)} writes are enough")
