"""Front ends that send anything, from a seed: none ends the program, and it serves the next one."""
import mmap
import os
import random
import socket
import struct
import time

from front_end import HEAD, NEED_REPLY, PAGE, VERSION, WANTED, Ended, FrontEnd, Memory, Region, Request, is_readable
from program import Broken, features_of, options_of, over, same
from queues import KINDS

BASE, SIZE = 0x80000000, 1 << 20
USER = 0x7f0000000000 + BASE
NUMBERS = [0, 1, 2, 3, 7, 8, 15, 16, 255, 256, 257, 4095, 4096, 32767, 65535, 65536, BASE, BASE + SIZE, USER, USER + SIZE, USER + SIZE - 16, 1 << 31,
           (1 << 32) - 1, 1 << 32, 1 << 40, 1 << 47, 1 << 55, 1 << 62, 1 << 63, (1 << 64) - PAGE, (1 << 64) - 1]
PAIRS = (Request.SET_VRING_NUM, Request.SET_VRING_BASE, Request.GET_VRING_BASE, Request.SET_VRING_ENABLE)
NUMBERED = (Request.SET_FEATURES, Request.SET_PROTOCOL_FEATURES, Request.SET_VRING_KICK, Request.SET_VRING_CALL, Request.SET_VRING_ERR, Request.SET_STATUS)


class Hostile:
    """What sends messages from a seed. It has files of each sort to send along."""

    def __init__(self, seed):
        self.chance = random.Random(seed)
        self.memory = Memory(Region(BASE, SIZE))
        small = os.memfd_create("small")
        os.ftruncate(small, 100)
        self.events = [os.eventfd(0, os.EFD_NONBLOCK) for _ in range(2)]
        self.pipe = os.pipe()
        self.files = [os.dup(self.memory.regions[0].file), small, *self.events, *self.pipe, os.open("/dev/null", os.O_RDWR), os.open("/tmp", os.O_RDONLY)]
        self.map = mmap.mmap(self.files[0], SIZE)

    def __del__(self):
        for file in self.files:
            os.close(file)

    def number(self):
        return self.chance.choice(NUMBERS) if self.chance.random() < 0.8 else self.chance.getrandbits(64)

    def likely(self, *good):
        """One of the numbers that a queue may have, or any."""
        return self.chance.choice(good) if self.chance.random() < 0.8 else self.number()

    def regions(self, count):
        rows = [(self.likely(BASE, BASE + SIZE, 0), self.likely(SIZE, PAGE), self.likely(USER, USER + SIZE), self.likely(0, PAGE)) for _ in range(count)]
        return b"".join(struct.pack("=QQQQ", *row) for row in rows)

    def payload(self, request):
        """A payload that is like what the request wants."""
        low = (1 << 32) - 1
        if request in PAIRS:
            return struct.pack("=II", self.likely(0, 0, 1) & low, self.likely(0, 1, 256, 12345) & low)
        if request in NUMBERED:
            return struct.pack("=Q", self.likely(0, 0x100, 0x170004200, 0x570004200, 0x16c000000))
        if request == Request.SET_VRING_ADDR:
            areas = [self.likely(USER + at) for at in (0, 0x4000, 0x2000)]
            return struct.pack("=IIQQQQ", self.likely(0, 1) & low, self.likely(0, 1) & low, *areas, self.number())
        if request == Request.SET_MEM_TABLE:
            count = self.chance.randrange(9)
            return struct.pack("=II", self.likely(count) & low, 0) + self.regions(count)
        if request in (Request.ADD_MEM_REG, Request.REM_MEM_REG):
            return bytes(8) + self.regions(1)
        if request in (Request.GET_CONFIG, Request.SET_CONFIG):
            size = self.chance.choice((0, 1, 8, 60, 256, 300))
            return struct.pack("=III", self.likely(0, 4, 60) & low, self.likely(size) & low, 0) + bytes(size)
        if request in (Request.SET_LOG_BASE, Request.SET_INFLIGHT_FD, Request.GET_INFLIGHT_FD):
            return struct.pack("=QQ", self.likely(PAGE, SIZE), self.likely(0, PAGE)) + (b"\1\0\0\1" if request != Request.SET_LOG_BASE else b"")
        return b""

    def message(self):
        """A message and its files: most are like good ones, but for a cut, a bit, a size or a request."""
        chance, request = self.chance, self.chance.choice(list(Request))
        payload, flags = self.payload(request), chance.choice((VERSION, VERSION | NEED_REPLY))
        if chance.random() < 0.1:
            payload = chance.randbytes(chance.choice((0, 1, 8, 40, 300, 4000)))
        if payload and chance.random() < 0.1:
            at = chance.randrange(len(payload))
            payload = payload[:at] + bytes([payload[at] ^ 1 << chance.randrange(8)]) + payload[at + 1:]
        size = len(payload) if chance.random() < 0.97 else self.number() & (1 << 32) - 1
        request = request if chance.random() < 0.97 else self.number() & (1 << 32) - 1
        flags = flags if chance.random() < 0.97 else self.number() & (1 << 32) - 1
        files = [self.likely_file() for _ in range(chance.choice((0, 1, 1, 1, 2, 8)))]
        return HEAD.pack(request, flags, size) + payload, files

    def likely_file(self):
        return self.files[0] if self.chance.random() < 0.6 else self.chance.choice(self.files)

    def offer(self, queue):
        """Offers a request as a driver does, in room that others may have."""
        chance, room = self.chance, BASE + 0x10000 + 0x2000 * self.chance.randrange(32)
        kind = chance.choice((0, 0, 1, 1, 4, 8, 13, 99))
        queue.memory.write(room, struct.pack("=IIQ", kind, 0, chance.choice((0, 7, chance.randrange(2100)))))
        data = (room + 0x1000, chance.choice((512, 512, 4096, 16, 20)), 2 * (kind in (0, 8)))
        rows = [(room, 16, 0), data, (room + 32, 1, 2)]
        if queue.FIRST:
            for at in (2, 1, 0):
                address, length, flags = rows[at]
                queue.put(queue.next_offer + at, address, length, 5, flags | (at < 2))
            queue.next_offer += 3
        elif queue.next_offer - queue.used_idx() & 0xffff < 80:
            first = chance.randrange(254)
            for at, (address, length, flags) in enumerate(rows):
                queue.put(first + at, address, length, flags | (at < 2), first + at + 1)
            queue.publish(first, notify=False)

    def spoil(self, queue):
        """Writes something else into a ring that runs: a descriptor, an entry on offer, an idx, or a request's header."""
        chance, what = self.chance, self.chance.randrange(4)
        if what == 0:
            near = queue.next_offer - chance.randrange(6) if queue.FIRST else chance.randrange(256)
            at = queue.descriptors + 16 * (near % 256) + chance.choice((0, 4, 8, 10, 12, 14))
            queue.memory.write(at, struct.pack("=H", self.likely(0, 1, 2, 3, 4, 512, 0x80, 0x8000) & 0xffff))
        elif what == 1:
            queue.memory.write(BASE + 0x10000 + 0x2000 * chance.randrange(32), struct.pack("=IIQ", self.number() & 0xff, 0, self.number()))
        elif what == 2:
            queue.memory.put_word(queue.driver + 4 + 2 * chance.randrange(257), chance.choice((chance.randrange(256), 256, 0xffff)))
        else:
            queue.memory.put_word(queue.driver + 2, queue.memory.word(queue.driver + 2) + chance.choice((0, 0, 0, 1, 64, 257)))

    def scribble(self):
        """Writes anything into the rings, and kicks."""
        for _ in range(8):
            at = self.chance.choice((0, 16, 0x2000, 0x2002, 0x2004, 0x4000, 0x10000)) + self.chance.randrange(64)
            self.map[at:at + 8] = struct.pack("=Q", self.likely(BASE + 0x10000, 1, 0x10000))
        for event in self.events:
            os.eventfd_write(event, 1)


def send(front, content, files):
    """Sends a message, and throws away what is answered. False where the back end is gone."""
    rights = [(socket.SOL_SOCKET, socket.SCM_RIGHTS, struct.pack(f"={len(files)}i", *files))] if files else []
    try:
        front.socket.sendmsg([content], rights)
        while is_readable(front.socket):
            if not front.socket.recv(65536):
                return False
        return True
    except (ConnectionError, TimeoutError):
        return False


def begin(front, hostile, kind):
    """Half of the front ends come as far as a queue that runs."""
    if hostile.chance.random() < 0.5:
        return 0
    queue = KINDS[kind](hostile.memory)
    try:
        front.negotiate([*WANTED, *features_of(kind)])
        front.set_memory(hostile.memory)
        front.start(queue)
    except (Ended, ConnectionError):
        pass
    except Exception as error:
        raise Broken(f"a good start isn't done: {error!r}") from None
    return 15


@over(("split",), ("packed",))
def test_any_messages(make, kind):
    """Half of the messages of the count, with and without --packed."""
    with make(*options_of(kind), "--queues=2") as program:
        hostile, sent = Hostile(f"{make.seed} {kind}"), 0
        try:
            while sent < make.count // 2:
                with FrontEnd(program.socket) as front:
                    sent += begin(front, hostile, kind)
                    for _ in range(hostile.chance.choice((1, 5, 30, 200))):
                        if hostile.chance.random() < 0.1:
                            hostile.scribble()
                        sent += 1
                        if not send(front, *hostile.message()):
                            break
                program.must_live()
        except Exception as error:
            raise Broken(f"after {sent} messages of seed {make.seed}: {error!r}; it said {program.said()[-300:]!r}") from None
        program.must_serve(kind)


@over(("split",), ("packed",))
def test_any_rings(make, kind):
    """As many changes of rings that run, by a driver that hardly waits. A queue that asks for a reset is started anew, from anywhere."""
    with make(*options_of(kind)) as program:
        hostile, faults = Hostile(f"{make.seed} {kind} rings"), 0
        with program.machine(kind, memory=hostile.memory, most=4096) as front:
            for number in range(make.count // 2):
                (hostile.spoil if hostile.chance.random() < 0.1 else hostile.offer)(front.queue)
                if number % 8 == 0:
                    front.queue.notify()
                if number % 24 == 0:
                    time.sleep(0.001)
                if number % 96 == 0 and is_readable(front.queue.error):
                    faults += 1
                    front.stop()
                    front.queue = KINDS[kind](hostile.memory, hostile.chance.randrange(1 << 16 if kind == "split" else 512))
                    front.start(front.queue)
            front.stop()
        same(faults > make.count // 10000, True, f"whether {faults} faults are enough")
        program.must_serve(kind)
