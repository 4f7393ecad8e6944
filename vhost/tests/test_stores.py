"""Disks that hold, fail, or cut short what is asked of them, as files and behind servers of NBD."""
import errno
import os
import random
import resource
import shutil
import socket
import subprocess
import threading
import time

import disks
from front_end import Ended, Memory, Refused, Region
from program import Broken, LeftOut, options_of, over, pattern, same
from queues import KINDS
from stores import FLUSH, READ, WRITE, Fuse, Nbd

STORES = {"nbd": Nbd, "fuse": Fuse}
BASE, FAR, SIZE = 0x80000000, 0x100000000, 4 << 20


@over(*((kind, store) for kind in KINDS for store in STORES))
def test_data_comes_and_goes(make, kind, store):
    with make(*options_of(kind), store=STORES[store]) as program, program.machine(kind) as front:
        for sector, count in ((0, 1), (5, 8), (17, 3), (1920, 128)):
            new = pattern(count, seed=sector + 2)
            same(front.disk.do(disks.IN, sector, wanted=count * 512).data, pattern(2048)[512 * sector:512 * (sector + count)], f"sector {sector}")
            same(front.disk.do(disks.OUT, sector, new).status, disks.OK, f"a write at {sector}")
            same(program.bytes(sector, count), new, f"what was written at {sector}")
        same((front.disk.do(disks.FLUSH).status, program.store.kinds()[-1]), (disks.OK, FLUSH), "a flush, and what the disk is asked for")
        same(front.disk.do(disks.WRITE_ZEROES, data=disks.segments((3, 4, 0))).status, disks.OK, "zeroes")
        same(program.bytes(2, 6), program.bytes(2) + bytes(4 * 512) + program.bytes(7), "sectors 2 to 7")


@over(*((kind, store) for kind in KINDS for store in STORES))
def test_an_error_fails_its_request_alone(make, kind, store):
    with make(*options_of(kind), store=STORES[store]) as program, program.machine(kind) as front:
        requests = ((READ, dict(kind=disks.IN, wanted=512)), (WRITE, dict(kind=disks.OUT, data=bytes(512))), (FLUSH, dict(kind=disks.FLUSH)))
        for number in (errno.EIO, errno.ENOSPC):
            for failing, asked in requests:
                program.store.errors = {failing: number}
                same(front.disk.do(**asked).status, disks.IOERR, f"a {failing} that fails")
                program.store.errors = {}
                same(front.disk.do(**asked).status, disks.OK, f"a {failing} behind it")


@over(*((kind,) for kind in KINDS))
def test_a_write_that_is_cut_short_goes_on(make, kind):
    with make(*options_of(kind), store=Fuse) as program, program.machine(kind) as front:
        program.store.most, whole, new = 700, program.bytes(0, 2048), pattern(8, seed=7)
        same(front.disk.do(disks.OUT, 90, new).status, disks.OK, "a write in pieces of 700 bytes")
        same(program.bytes(0, 2048) == whole[:90 * 512] + new + whole[98 * 512:], True, "whether it is written, and nothing beside")
        same(program.store.kinds(), [WRITE] * 6, "what the disk is asked for")


@over(*((kind,) for kind in KINDS))
def test_a_file_that_is_cut(make, kind):
    """What lies behind the file's end can't be read; a write there makes it longer."""
    with make(*options_of(kind)) as program, program.machine(kind) as front:
        os.truncate(program.image, 100 * 512 + 100)
        same(front.disk.do(disks.IN, 99, wanted=4 * 512).status, disks.IOERR, "a read over the end")
        same(front.disk.do(disks.IN, 200, wanted=512).status, disks.IOERR, "a read behind the end")
        same(front.disk.do(disks.IN, 99, wanted=512).data, program.bytes(99), "sector 99")
        same(front.disk.do(disks.OUT, 200, pattern(1, seed=3)).status, disks.OK, "a write behind the end")
        same(front.disk.do(disks.IN, 200, wanted=512).data, pattern(1, seed=3), "sector 200")


@over(*((kind,) for kind in KINDS))
def test_a_file_that_may_not_be_so_long(make, kind):
    """The kernel takes the first part of a write up to the limit of files (ulimit -f), refuses the rest, and signals it."""
    with make(*options_of(kind)) as program, program.machine(kind) as front:
        limit, new, old = 100 * 512 + 100, pattern(4, seed=5), program.bytes(99, 4)
        resource.prlimit(program.process.pid, resource.RLIMIT_FSIZE, (limit, limit))
        same(front.disk.do(disks.OUT, 99, new).status, disks.IOERR, "a write over the limit")
        same(program.bytes(99, 4), new[:612] + old[612:], "what is written of it")
        same(front.disk.do(disks.OUT, 200, new).status, disks.IOERR, "a write behind the limit")
        same(front.disk.do(disks.OUT, 10, new).status, disks.OK, "a write before the limit")


# --- what is in flight for long

@over(*((kind,) for kind in KINDS))
def test_64_operations_are_in_flight(make, kind):
    """More chains wait on offer. What ends in another order is used in that in which it began."""
    with make(*options_of(kind), store=Nbd) as program, program.machine(kind, most=4096) as front:
        program.store.is_held = True
        names = {sector: front.disk.submit(disks.IN, sector, wanted=512) for sector in range(80)}
        program.store.must_wait(64)
        program.store.is_held = False
        program.store.answer_all(backwards=True)
        for sector, name in names.items():
            same(front.disk.result(name).data, program.bytes(sector), f"sector {sector}")


@over(*((kind,) for kind in KINDS))
def test_memory_comes_while_64_are_in_flight(make, kind):
    """It waits for them. Those that were on offer behind them begin over the other memory."""
    with make(*options_of(kind), "--verbose", store=Nbd) as program:
        with program.machine(kind, memory=Memory(Region(BASE, 16 << 20)), most=4096) as front:
            program.store.is_held = True
            names = {sector: front.disk.submit(disks.IN, sector, wanted=512) for sector in range(80)}
            program.store.must_wait(64)
            program.store.is_held = False
            threading.Timer(0.3, program.store.answer_all).start()
            front.add_region(Region(FAR, SIZE))
            for sector, name in names.items():
                same(front.disk.result(name).data, program.bytes(sector), f"sector {sector}")
            same([program.said().count(words) for words in ("starts at", "goes on over other memory")], [1, 1], "how often it started, and went on")


def stops_while_it_hangs(program, front):
    """Has a read hang, and a stop wait for it one second. What the stop tells."""
    program.store.is_held = True
    front.disk.submit(disks.IN, 3, wanted=512)
    program.store.must_wait(1)
    began = time.monotonic()
    place = front.stop()
    same(0.9 < time.monotonic() - began < 9, True, f"whether {time.monotonic() - began:.1f} seconds are one to five")
    return place


@over(*((kind, at) for kind, at in (("split", 1), ("packed", 0x80038003))))
def test_a_server_that_hangs(make, kind, at):
    """A stop cancels what hangs: its requests end by an error, and the queue can be started again."""
    with make(*options_of(kind), "--drain=1", store=Nbd) as program, program.machine(kind) as front:
        same(stops_while_it_hangs(program, front), at, "the place")
        same([front.disk.result(name).status for name in list(front.disk.slots)], [disks.IOERR], "the status of the read")
        program.store.is_held = False
        front.start(front.queue)
        same(front.disk.do(disks.IN, 4, wanted=512).data, program.bytes(4), "sector 4")


@over(*((kind,) for kind in KINDS))
def test_memory_comes_while_a_server_hangs(make, kind):
    with make(*options_of(kind), "--drain=1", store=Nbd) as program, program.machine(kind) as front:
        program.store.is_held = True
        name = front.disk.submit(disks.IN, 3, wanted=512)
        program.store.must_wait(1)
        program.store.is_held = False
        front.add_region(Region(FAR, SIZE))
        same(front.disk.result(name).status, disks.IOERR, "the status of the read")
        same(front.disk.do(disks.IN, 4, wanted=512).data, program.bytes(4), "sector 4")


@over(*((kind, way) for kind in KINDS for way in ("plain", "cached", "async")))
def test_a_file_that_hangs(make, kind, way):
    """The kernel can't cancel it, so it is given up, and no queue starts before it ended. What it has from a cache then comes into no guest."""
    with make(*options_of(kind), "--drain=1", store=lambda folder: Fuse(folder, way)) as program:
        with program.machine(kind) as front:
            same(stops_while_it_hangs(program, front), {"split": 0, "packed": 0x80008000}[kind], "the place")
            same("given up" in program.said(), True, "whether it says that something is given up")
            before = front.memory.all()
            try:
                front.start(front.queue)
                raise Broken("a queue was started while a transfer was given up")
            except (Ended, Refused):
                pass
            program.store.is_held = False
            program.store.answer_all()
            time.sleep(0.5)
            same(way != "cached" or front.memory.all() == before, True, "whether the guest's memory is as it was")
        program.must_serve(kind)


@over(*((kind, way) for kind in KINDS for way in ("plain", "cached", "async")))
def test_late_writes_have_their_own_bytes(make, kind, way):
    """Writes behind one that hangs are given up too. Where the kernel does them late it finds what the guest had written, and no zeros."""
    with make(*options_of(kind), "--drain=1", store=lambda folder: Fuse(folder, way)) as program:
        with program.machine(kind) as front:
            new, old = {sector: pattern(8, seed=sector) for sector in range(8, 512, 8)}, program.bytes(0, 2048)
            program.store.is_held = True
            for sector, data in new.items():
                front.disk.submit(disks.OUT, sector, data, notify=sector == 504)
            program.store.must_wait(1, 63)
            front.stop()
        program.store.is_held = False
        program.store.answer_all()
        time.sleep(0.5)
        for sector, data in new.items():
            same(program.bytes(sector, 8) in (data, old[512 * sector:512 * sector + 4096]), True, f"whether sector {sector} has old bytes or new ones")
        program.must_serve(kind)


# --- connections that are lost

@over(*((kind,) for kind in KINDS))
def test_a_lost_connection_fails_what_is_in_flight(make, kind):
    with make(*options_of(kind), store=Nbd) as program, program.machine(kind) as front:
        program.store.is_held = True
        names = [front.disk.submit(disks.IN, sector, wanted=512) for sector in range(8)]
        program.store.must_wait(8)
        program.store.is_held = False
        program.store.cut()
        same([front.disk.result(name).status for name in names], [disks.IOERR] * 8, "the statuses of what was in flight")
        same(front.disk.do(disks.IN, 9, wanted=512).data, program.bytes(9), "sector 9, over the next connection")


@over(*((kind,) for kind in KINDS))
def test_requests_wait_for_the_next_connection(make, kind):
    with make(*options_of(kind), store=Nbd) as program, program.machine(kind) as front:
        same(front.disk.do(disks.IN, 9, wanted=512).status, disks.OK, "a read over the first connection")
        program.store.close()
        names = {sector: front.disk.submit(disks.IN, sector, wanted=512) for sector in range(8)}
        time.sleep(1.5)
        same(front.queue.taken(), [], "what is used without a connection")
        program.store.listen()
        for sector, name in names.items():
            same(front.disk.result(name).data, program.bytes(sector), f"sector {sector}")


def test_requests_wait_for_ten_seconds(make):
    with make(store=Nbd) as program, program.machine() as front:
        same(front.disk.do(disks.IN, 9, wanted=512).status, disks.OK, "a read over the first connection")
        program.store.close()
        began, name = time.monotonic(), front.disk.submit(disks.IN, 1, wanted=512)
        front.disk.gather(front.queue.wait(1, 20))
        same((front.disk.result(name).status, 9 < time.monotonic() - began < 14), (disks.IOERR, True), f"{time.monotonic() - began:.1f} seconds later")
        program.store.listen()


@over(("a disk that can't be written", Nbd.SEND_FLUSH | Nbd.READ_ONLY, (), False),
      ("a disk that is only read", Nbd.SEND_FLUSH | Nbd.READ_ONLY, ("--read-only",), True),
      ("several connections", Nbd.SEND_FLUSH, ("--queues=2",), False),
      ("one connection", Nbd.SEND_FLUSH, (), True))
def test_what_a_server_can_is_judged(make, _, flags, options, is_served):
    with make(*options, store=lambda folder: Nbd(folder, flags)) as program:
        if is_served:
            return program.must_serve()
        same((program.process.wait(5), bool(program.said().strip())), (1, True), "its status, and whether it says why")
        program.start = lambda: None
        program.must_live = lambda: None


# --- servers that others wrote

class Server:
    """A server of NBD over a file of a folder."""

    COMMANDS = {"nbdkit": "nbdkit -f -U {socket} file {file}", "qemu-nbd": "qemu-nbd -t -f raw -k {socket} {file}"}

    def __init__(self, name, folder):
        self.file, self.socket = f"{folder}/file", f"{folder}/nbd"
        self.words = [f"--nbd=nbd+unix:///?socket={self.socket}"]
        self.command = self.COMMANDS[name].format(socket=self.socket, file=self.file).split()
        if not shutil.which(name):
            raise LeftOut(f"{name} isn't installed")
        with open(self.file, "wb") as file:
            file.write(pattern(4096))
        self.start()

    def start(self):
        self.process = subprocess.Popen(self.command, stdin=subprocess.DEVNULL, stderr=subprocess.DEVNULL)
        until = time.monotonic() + 5
        while time.monotonic() < until:
            with socket.socket(socket.AF_UNIX) as probe:
                if not probe.connect_ex(self.socket):
                    return
            time.sleep(0.02)

    def kill(self):
        self.process.kill()
        self.process.wait()
        os.unlink(self.socket)

    def close(self):
        self.process.terminate()
        self.process.wait()

    def read(self, at, length):
        with open(self.file, "rb") as file:
            file.seek(at)
            return file.read(length)


@over(*((kind, name) for kind in KINDS for name in Server.COMMANDS))
def test_servers(make, kind, name):
    """Writes of other bytes with 32 in flight, over a server that is killed three times: each that is answered OK is on the disk."""
    chance = random.Random(f"{make.seed} {kind} {name}")
    with make(*options_of(kind), sectors=4096, store=lambda folder: Server(name, folder)) as program, program.machine(kind, most=4096) as front:
        turn = 1
        for kill in range(4):
            for sectors in (chance.sample(range(0, 4096, 8), 32) for _ in range(10)):
                new = {sector: pattern(8, seed=(turn := turn + 1)) for sector in sectors}
                names = {sector: front.disk.submit(disks.OUT, sector, data) for sector, data in new.items()}
                same([front.disk.result(one).status for one in names.values()], [disks.OK] * 32, f"the writes behind {kill} kills")
                names = {sector: front.disk.submit(disks.IN, sector, wanted=4096) for sector in sectors}
                for sector, one in names.items():
                    same(front.disk.result(one).data == new[sector], True, f"whether sector {sector} is as it was written")
            if kill < 3:
                names = [front.disk.submit(disks.IN, sector, wanted=4096) for sector in range(0, 128, 8)]
                program.store.kill()
                program.store.start()
                same({front.disk.result(one).status for one in names} <= {disks.OK, disks.IOERR}, True, "whether each ended")
