"""Messages: what is told of the device, which are refused, and front ends that go away at each."""
import json
import os
import pathlib
import socket
import struct
import subprocess
import tempfile
import time

import disks
from front_end import HEAD, PAGE, VERSION, Ended, Feature, FrontEnd, Memory, Protocol, Refused, Region, Request
from program import over, pattern, same
from queues import Split

BASE, SIZE = 0x80000000, 4 << 20


# --- what is told

@over(((), 1), (("--queues=4",), 4), (("--queues=16",), 16))
def test_how_many_queues_there_are(make, options, count):
    with make(*options) as program, FrontEnd(program.socket) as front:
        front.negotiate()
        same(front.number(Request.GET_QUEUE_NUM), count, "the queues")
        same(front.offered >> Feature.MULTI_QUEUE & 1, count > 1, "whether MQ is offered")
        if count > 1:
            same(struct.unpack("<H", front.configuration(34, 2))[0], count, "num_queues")


@over((1,), (2048,), (0x12345,))
def test_the_configuration(make, sectors):
    with make(sectors=sectors) as program, FrontEnd(program.socket) as front:
        front.negotiate()
        whole = front.configuration()
        same(struct.unpack("<Q", whole[:8])[0], sectors, "the capacity")
        for offset, size in ((0, 8), (4, 4), (7, 1), (8, 52), (59, 1), (0, 1)):
            same(front.configuration(offset, size), whole[offset:offset + size], f"{size} bytes of the configuration at {offset}")


def test_features(make):
    for options, offered in (((), {Feature.PACKED: 0, Feature.READ_ONLY: 0}), (("--packed",), {Feature.PACKED: 1}), (("--read-only",), {Feature.READ_ONLY: 1})):
        with make(*options) as program, FrontEnd(program.socket) as front:
            front.negotiate()
            must = {Feature.VERSION_1: 1, Feature.PROTOCOL: 1, Feature.FLUSH: 1, Feature.LOG_ALL: 1, **offered}
            same({bit: front.offered >> bit & 1 for bit in must}, must, f"features with {options}")
            spoken = (Protocol.CONFIG, Protocol.REPLY_ACK, Protocol.MQ, Protocol.CONFIGURE_MEM_SLOTS, Protocol.LOG_SHMFD)
            same([front.spoken >> bit & 1 for bit in spoken], [1] * len(spoken), "protocol features")
            same(front.number(Request.GET_MAX_MEM_SLOTS) >= 8, True, "whether eight regions may be added")


# QEMU's docs/interop/vhost-user.json, for a back end of disks: what a VhostUserBackend has, and VHostUserBackendCapabilities.
DESCRIBED = {"description": str, "type": str, "binary": str}
CAN = {"type": "block", "features": ["read-only", "blk-file"]}


def test_capabilities(make):
    """What --print-capabilities says, whatever else is said, and that the program has these options."""
    for more in ((), ("--blk-file=/nonexistent", "--fd=3")):
        ran = subprocess.run([make.args[0], *more, "--print-capabilities"], capture_output=True, check=True, text=True)
        same((json.loads(ran.stdout), ran.stderr), (CAN, ""), "what it can do")
    shown = subprocess.run([make.args[0], "--help"], capture_output=True, text=True).stdout
    same([word for word in ("--socket-path", "--fd", *(f"--{it}" for it in CAN["features"])) if word not in shown], [], "options that aren't there")


def test_the_description_that_machines_look_for(make):
    """The package's file in /usr/share/qemu/vhost-user: two digits first, by which they are sorted, and the program where the package has it."""
    package = pathlib.Path(__file__).parents[1] / "package"
    found = {path.name: json.loads(path.read_text(encoding="utf-8")) for path in package.glob("*.json")}
    same(list(found), ["50-kalyubos-vhost.json"], "the descriptions")
    for said in found.values():
        same({name: type(value) for name, value in said.items()}, DESCRIBED, "what it has, beside tags")
        same((said["type"], said["binary"]), (CAN["type"], "/usr/bin/kalyubos-vhost"), "the type and the program")


def test_help(make):
    ran = subprocess.run([make.args[0], "--help"], capture_output=True, text=True)
    missing = [word for word in ("--socket-path", "--fd", "--blk-file", "--read-only", "--serial", "--queues") if word not in ran.stdout]
    same((ran.returncode, missing), (0, []), "the status, and options that --help doesn't have")


def test_a_connection_by_its_number(make):
    """--fd gets a socket, as a manager hands it over."""
    with make() as program:
        listener = socket.socket(socket.AF_UNIX)
        with tempfile.TemporaryDirectory() as folder, listener:
            listener.bind(f"{folder}/socket")
            listener.listen()
            program.kill()
            words = [program.command, f"--fd={listener.fileno()}", f"--blk-file={program.image}", *program.options]
            program.process = subprocess.Popen(words, stdout=program.log, stderr=program.log, pass_fds=[listener.fileno()])
            program.socket = f"{folder}/socket"
            program.must_serve()


@over((("--blk-file=/nonexistent",),), (("--queues=0",),), (("--queues=x",),), (("--queues=100000",),), (("--depth=0",),), (("--depth=65",),), (("--unknown",),),
      (("--serial=123456789012345678901",),), (("--queues=-1",),), (("--fd=77",),))
def test_wrong_words_end_it_with_a_sentence(make, options):
    with tempfile.NamedTemporaryFile() as image:
        image.truncate(1 << 20)
        words = [make.args[0], f"--socket-path={image.name}.socket", f"--blk-file={image.name}", *options]
        ran = subprocess.run(words, capture_output=True, text=True, timeout=10)
        same((ran.returncode > 0, bool(ran.stderr.strip())), (True, True), f"status {ran.returncode} and a sentence")


# --- what is refused

def ring(index=0, flags=0, descriptors=BASE, used=BASE + 0x4000, available=BASE + 0x2000):
    return struct.pack("=IIQQQQ", index, flags, *(0x7f0000000000 + at for at in (descriptors, used, available)), used)


def table(*regions, count=None):
    return struct.pack("=II", len(regions) if count is None else count, 0) + b"".join(struct.pack("=QQQQ", *it) for it in regions)


def number(value):
    return struct.pack("=Q", value)


def pair(one, other):
    return struct.pack("=II", one, other)


USER = 0x7f0000000000 + BASE
# Messages that no back end may do: the request, the payload, how many files come with it.
BAD = {
    "no such request": (200, b"", 0),
    "request 0": (0, b"", 0),
    "features that aren't offered": (Request.SET_FEATURES, number(1 << 40 | 1 << 32 | 1 << 30), 0),
    "features in seven bytes": (Request.SET_FEATURES, bytes(7), 0),
    "features in nine bytes": (Request.SET_FEATURES, bytes(9), 0),
    "protocol features that aren't offered": (Request.SET_PROTOCOL_FEATURES, number(1 << 60), 0),
    "a size of a queue that isn't there": (Request.SET_VRING_NUM, pair(1, 256), 0),
    "a size of queue 2^32 - 1": (Request.SET_VRING_NUM, pair(0xffffffff, 256), 0),
    "a place of a queue that isn't there": (Request.SET_VRING_BASE, pair(255, 0), 0),
    "a ring of a queue that isn't there": (Request.SET_VRING_ADDR, ring(index=200), 0),
    "a kick of a queue that isn't there": (Request.SET_VRING_KICK, number(9), 1),
    "a call of a queue that isn't there": (Request.SET_VRING_CALL, number(254), 1),
    "a queue that isn't there is enabled": (Request.SET_VRING_ENABLE, pair(1, 1), 0),
    "a kick without its file": (Request.SET_VRING_KICK, number(0), 0),
    "a table of no file": (Request.SET_MEM_TABLE, table((BASE, SIZE, USER, 0)), 0),
    "a table of two regions and one file": (Request.SET_MEM_TABLE, table((BASE, SIZE, USER, 0), (BASE + SIZE, SIZE, USER + SIZE, 0)), 1),
    "a table of nine regions": (Request.SET_MEM_TABLE, table(*((BASE + at * SIZE, SIZE, USER + at * SIZE, 0) for at in range(9))), 8),
    "a table that counts 2^32 - 1 regions": (Request.SET_MEM_TABLE, table((BASE, SIZE, USER, 0), count=0xffffffff), 1),
    "a table that is cut": (Request.SET_MEM_TABLE, table((BASE, SIZE, USER, 0), count=2), 2),
    "regions over one another": (Request.SET_MEM_TABLE, table((BASE, SIZE, USER, 0), (BASE + PAGE, SIZE, USER + SIZE, 0)), 2),
    "a region of no byte": (Request.SET_MEM_TABLE, table((BASE, 0, USER, 0)), 1),
    "a region past 2^64": (Request.SET_MEM_TABLE, table(((1 << 64) - PAGE, 2 * PAGE, USER, 0)), 1),
    "a region whose own addresses wrap": (Request.SET_MEM_TABLE, table((BASE, SIZE, (1 << 64) - PAGE, 0)), 1),
    "a region whose offset wraps": (Request.SET_MEM_TABLE, table((BASE, SIZE, USER, (1 << 64) - PAGE)), 1),
    "a region of 2^63 bytes": (Request.SET_MEM_TABLE, table((0, 1 << 63, USER, 0)), 1),
    "a region more over one that is there": (Request.ADD_MEM_REG, bytes(8) + struct.pack("=QQQQ", BASE, SIZE, USER, 0), 1),
    "a region more without its file": (Request.ADD_MEM_REG, bytes(8) + struct.pack("=QQQQ", BASE + 2 * SIZE, SIZE, USER + 2 * SIZE, 0), 0),
    "a region more that is cut": (Request.ADD_MEM_REG, bytes(8) + struct.pack("=QQQ", BASE + 2 * SIZE, SIZE, USER), 1),
    "a region less that isn't there": (Request.REM_MEM_REG, bytes(8) + struct.pack("=QQQQ", BASE + PAGE, SIZE, USER, 0), 0),
}
# A queue of which something is wrong, so that it can't run: what is said in the place of what is right.
QUEUES = {
    "a size of 0": (Request.SET_VRING_NUM, pair(0, 0)),
    "a size of 3": (Request.SET_VRING_NUM, pair(0, 3)),
    "a size of 512": (Request.SET_VRING_NUM, pair(0, 512)),
    "a size of 2^32 - 1": (Request.SET_VRING_NUM, pair(0, 0xffffffff)),
    "descriptors outside": (Request.SET_VRING_ADDR, ring(descriptors=BASE + SIZE)),
    "descriptors over the end": (Request.SET_VRING_ADDR, ring(descriptors=BASE + SIZE - 16)),
    "descriptors that aren't aligned": (Request.SET_VRING_ADDR, ring(descriptors=BASE + 8)),
    "an available ring outside": (Request.SET_VRING_ADDR, ring(available=BASE - 2)),
    "an available ring over the end": (Request.SET_VRING_ADDR, ring(available=BASE + SIZE - 4)),
    "a used ring outside": (Request.SET_VRING_ADDR, ring(used=BASE + (1 << 40))),
    "a used ring over the end": (Request.SET_VRING_ADDR, ring(used=BASE + SIZE - 4)),
    "a used ring that isn't aligned": (Request.SET_VRING_ADDR, ring(used=BASE + 0x4002)),
}


def is_refused(front, request, payload, count):
    """Whether a message is refused or ends its front end."""
    files = [os.memfd_create("bad") for _ in range(count)]
    for file in files:
        os.ftruncate(file, SIZE)
    try:
        front.tell(request, payload, files)
        return False
    except (Refused, Ended, ConnectionError):
        return True
    finally:
        for file in files:
            os.close(file)


@over(*((name,) for name in BAD))
def test_bad_messages_are_refused(make, name):
    with make() as program:
        with FrontEnd(program.socket) as front:
            front.negotiate()
            front.set_memory(Memory(Region(BASE, SIZE)))
            same(is_refused(front, *BAD[name]), True, "whether it is refused")
        program.must_serve()


@over(*((name,) for name in QUEUES))
def test_bad_queues_do_not_run(make, name):
    with make() as program:
        with program.machine(memory=Memory(Region(BASE, SIZE))) as front:
            front.stop()
            other, payload = QUEUES[name]
            tell = front.tell
            front.tell = lambda request, said=b"", files=(): tell(request, payload if request == other else said, files)
            try:
                front.start(front.queue)
                refused = False
            except (Refused, Ended):
                refused = True
            same(refused, True, "whether it is refused")
        program.must_serve()


def test_front_ends_at_once(make):
    """Each on a socket of its own: what one does wrong ends that one alone."""
    with make("--shared") as program:
        program.kill()
        first, program.options = program.socket, (*program.options, f"--socket-path={program.socket}-2")
        program.start()
        with program.machine() as front:
            program.socket = f"{first}-2"
            for at, bad in enumerate(BAD.values()):
                with program.machine(memory=Memory(Region(BASE, SIZE))) as other:
                    same(other.disk.do(disks.IN, 5, wanted=512).data, program.bytes(5), "sector 5")
                    same(is_refused(other, *bad), True, f"whether bad message {at} is refused")
                new = pattern(1, seed=at + 2)
                same((front.disk.do(disks.OUT, 9, new).status, program.bytes(9)), (disks.OK, new), f"a write of the other behind message {at}")
            same(front.stop(), len(BAD), "the place of the other's queue")


def test_a_driver_without_version_1_is_refused(make):
    with make() as program:
        with FrontEnd(program.socket) as front:
            front.negotiate([Feature.FLUSH, Feature.PROTOCOL])
            memory = Memory(Region(BASE, SIZE))
            front.set_memory(memory)
            queue = Split(memory)
            try:
                front.start(queue)
                refused = False
            except (Refused, Ended):
                refused = True
            same(refused, True, "whether it is refused")
        program.must_serve()


@over(("a head of another version", 2, 0), ("a head of no version", 0, 0), ("a size of 2^32 - 1", VERSION, 0xffffffff), ("a size of 5000", VERSION, 5000))
def test_bad_heads_end_the_front_end(make, _, flags, size):
    with make() as program:
        with FrontEnd(program.socket) as front:
            front.socket.sendall(HEAD.pack(Request.GET_FEATURES, flags, size) + bytes(min(size, 5000)))
            try:
                found = front.socket.recv(1)
            except ConnectionError:
                found = b""
            same(found, b"", "what is answered")
        program.must_serve()


@over((0, 0), (0, 257), (60, 200), (0xffffffff, 8), (8, 0xfffffff8), (300, 4))
def test_bad_places_of_the_configuration(make, offset, size):
    """An error is an answer without a payload, or the end of the front end; bytes behind the configuration may be zeros."""
    with make() as program:
        with FrontEnd(program.socket) as front:
            front.negotiate()
            try:
                said = front.ask(Request.GET_CONFIG, struct.pack("=III", offset, size, 0) + bytes(min(size, 300)))
                same(len(said) in (0, 12 + size) and not any(said[12:]), True, f"an answer of {len(said)} bytes")
            except (Ended, ConnectionError):
                pass
        program.must_serve()


# --- front ends that go away

class Leaving(FrontEnd):
    """A front end that goes away in its nth message, before or behind a part of it, or behind all of it."""

    def __init__(self, path, nth, part):
        super().__init__(path)
        self.left, self.part = nth, part

    def send(self, request, payload=b"", files=(), flags=0, size=None):
        self.left -= 1
        if self.left < 0:
            head = HEAD.pack(request, VERSION | flags, len(payload))
            self.socket.sendall((head + payload)[:self.part])
            self.socket.close()
            raise Ended
        super().send(request, payload, files, flags, size)


@over(*((part,) for part in (0, 5, 12, 15)))
def test_a_front_end_goes_away_at_each_message(make, part):
    with make() as program:
        for nth in range(40):
            memory = Memory(Region(BASE, SIZE))
            front = Leaving(program.socket, nth, part)
            try:
                front.negotiate()
                front.set_memory(memory)
                front.add_region(Region(2 * BASE, SIZE))
                queue = Split(memory)
                front.start(queue)
                disks.Disk(queue).submit(disks.IN, 1, wanted=512)
                front.configuration()
                front.stop()
                front.start(queue)
            except Ended:
                continue
            finally:
                front.close()
            break
        same(nth > 15, True, "whether there are enough messages")
        program.must_serve()


def open_files(program):
    return len(os.listdir(f"/proc/{program.process.pid}/fd"))


def test_many_front_ends_one_after_another(make):
    """What a front end brought is closed soon after it went away."""
    with make() as program:
        program.must_serve()
        before = open_files(program)
        for _ in range(50):
            program.must_serve()
        until = time.monotonic() + 5
        while open_files(program) > before and time.monotonic() < until:
            time.sleep(0.01)
        same(open_files(program) <= before, True, f"whether {open_files(program)} open files are as many as {before}")


def ends_over(program):
    """The status and the words of a second program over the disk of the first, or None while it serves it."""
    words = [program.command, f"--socket-path={program.socket}-2", f"--blk-file={program.image}", *program.options]
    with subprocess.Popen(words, stdin=subprocess.DEVNULL, stderr=subprocess.PIPE, text=True) as second:
        try:
            _, said = second.communicate(timeout=6)
            return second.returncode, said.strip()
        except subprocess.TimeoutExpired:
            second.terminate()
            return None


@over(("--shared",), ("--read-only",), ())
def test_two_programs_have_one_disk(make, *options):
    """As a machine that moves has them: where both say that they expect it, or where neither writes."""
    with make(*options) as program:
        program.must_serve()
        ended = ends_over(program)
        same(ended is None, options != (), f"whether it serves, and it said {ended}")
        if ended:
            same((ended[0], ended[1].endswith("another program has it")), (1, True), f"how it ended: {ended}")
        program.must_serve()
