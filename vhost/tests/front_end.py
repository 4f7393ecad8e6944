"""A front end of vhost-user without a machine: its connection with messages by name, and a guest's memory in files of its own.

The messages are those of QEMU's docs/interop/vhost-user.rst. Addresses of the front end's own are made up: a back end only compares
them with those of the regions.
"""
import array
import enum
import mmap
import os
import select
import socket
import struct
import time

PAGE = 4096
SECONDS = 10
VERSION, REPLY, NEED_REPLY, NO_FILE = 1, 4, 8, 0x100
HEAD = struct.Struct("=III")


class Request(enum.IntEnum):
    """What a front end asks for."""

    GET_FEATURES = 1
    SET_FEATURES = 2
    SET_OWNER = 3
    RESET_OWNER = 4
    SET_MEM_TABLE = 5
    SET_LOG_BASE = 6
    SET_LOG_FD = 7
    SET_VRING_NUM = 8
    SET_VRING_ADDR = 9
    SET_VRING_BASE = 10
    GET_VRING_BASE = 11
    SET_VRING_KICK = 12
    SET_VRING_CALL = 13
    SET_VRING_ERR = 14
    GET_PROTOCOL_FEATURES = 15
    SET_PROTOCOL_FEATURES = 16
    GET_QUEUE_NUM = 17
    SET_VRING_ENABLE = 18
    GET_CONFIG = 24
    SET_CONFIG = 25
    GET_INFLIGHT_FD = 31
    SET_INFLIGHT_FD = 32
    RESET_DEVICE = 34
    GET_MAX_MEM_SLOTS = 36
    ADD_MEM_REG = 37
    REM_MEM_REG = 38
    SET_STATUS = 39
    GET_STATUS = 40


class Protocol(enum.IntEnum):
    """Bits of the protocol features."""

    MQ = 0
    LOG_SHMFD = 1
    REPLY_ACK = 3
    CONFIG = 9
    INFLIGHT_SHMFD = 12
    RESET_DEVICE = 13
    CONFIGURE_MEM_SLOTS = 15
    STATUS = 16


class Feature(enum.IntEnum):
    """Bits of the device's features, and of vhost's own."""

    SEG_MAX = 2
    READ_ONLY = 5
    FLUSH = 9
    MULTI_QUEUE = 12
    WRITE_ZEROES = 14
    LOG_ALL = 26
    INDIRECT = 28
    EVENT_IDX = 29
    PROTOCOL = 30
    VERSION_1 = 32
    PACKED = 34


WANTED = [Feature.FLUSH, Feature.WRITE_ZEROES, Feature.INDIRECT, Feature.EVENT_IDX, Feature.PROTOCOL, Feature.VERSION_1]
SPOKEN = [Protocol.MQ, Protocol.LOG_SHMFD, Protocol.REPLY_ACK, Protocol.CONFIG, Protocol.CONFIGURE_MEM_SLOTS]


class Ended(Exception):
    """The back end closed the connection."""


class Refused(Exception):
    """The back end answered that it didn't do what a message asks."""


def is_readable(file, seconds=0):
    """Whether a file can be read within a time."""
    poll = select.poll()
    poll.register(file, select.POLLIN)
    return bool(poll.poll(1000 * seconds))


def bits(numbers):
    return sum(1 << number for number in set(numbers))


class Region:
    """A part of a guest's memory, in a file of its own."""

    def __init__(self, guest, size, user=None, offset=0):
        self.guest, self.size, self.offset = guest, size, offset
        self.user = 0x7f0000000000 + guest if user is None else user
        self.file = os.memfd_create("region")
        os.ftruncate(self.file, offset + size)
        self.map = mmap.mmap(self.file, offset + size)

    def said(self):
        """The region as messages have it."""
        return struct.pack("=QQQQ", self.guest, self.size, self.user, self.offset)

    def __del__(self):
        os.close(self.file)


class Memory:
    """A guest's memory: regions by their guest-physical addresses."""

    def __init__(self, *regions):
        self.regions = list(regions) or [Region(0x80000000, 16 << 20)]

    def place(self, address, length):
        """The region of these bytes, and where in its map they lie."""
        for region in self.regions:
            if region.guest <= address and address + length <= region.guest + region.size:
                return region, region.offset + address - region.guest
        raise ValueError(f"no region has {length} bytes at {address:#x}")

    def read(self, address, length):
        region, at = self.place(address, length)
        return region.map[at:at + length]

    def write(self, address, content):
        region, at = self.place(address, len(content))
        region.map[at:at + len(content)] = content

    def word(self, address):
        """Two bytes, loaded by one access."""
        region, at = self.place(address, 2)
        with memoryview(region.map) as all_of, all_of[at:at + 2].cast("H") as word:
            return word[0]

    def put_word(self, address, value):
        """Stores two bytes by one access."""
        region, at = self.place(address, 2)
        with memoryview(region.map) as all_of, all_of[at:at + 2].cast("H") as word:
            word[0] = value & 0xffff

    def user(self, address):
        """The front end's own address of a guest-physical one."""
        region, at = self.place(address, 0)
        return region.user + at - region.offset

    def all(self):
        """The bytes of all regions, by their first address."""
        return {region.guest: region.map[region.offset:region.offset + region.size] for region in self.regions}


class FrontEnd:
    """A connection to a back end."""

    def __init__(self, path, seconds=SECONDS):
        until = time.monotonic() + seconds
        while True:
            self.socket = socket.socket(socket.AF_UNIX)
            self.socket.settimeout(seconds)
            try:
                self.socket.connect(path)
                break
            except OSError:
                self.socket.close()
                if time.monotonic() > until:
                    raise
                time.sleep(0.01)
        self.features = self.protocol = 0

    def close(self):
        self.socket.close()

    def __enter__(self):
        return self

    def __exit__(self, *_):
        self.close()

    # --- messages

    def send(self, request, payload=b"", files=(), flags=0, size=None):
        """Sends a message; `size` is what its head says, if it isn't the payload's length."""
        head = HEAD.pack(request, VERSION | flags, len(payload) if size is None else size)
        rights = [(socket.SOL_SOCKET, socket.SCM_RIGHTS, array.array("i", files))] if files else []
        try:
            self.socket.sendmsg([head + payload], rights)
        except (BrokenPipeError, ConnectionResetError):
            raise Ended from None

    def exactly(self, length, files=None):
        """So many bytes from the back end; `files` gets the files that come with them."""
        content = b""
        while len(content) < length:
            try:
                got, rights, _, _ = self.socket.recvmsg(length - len(content), socket.CMSG_SPACE(8 * 4))
            except ConnectionResetError:
                raise Ended from None
            if not got:
                raise Ended
            for _, _, data in rights:
                (files if files is not None else []).extend(array.array("i", data[:len(data) // 4 * 4]))
            content += got
        return content

    def receive(self, request, files=None):
        """The payload of the back end's answer to a request."""
        answered, flags, size = HEAD.unpack(self.exactly(HEAD.size, files))
        payload = self.exactly(size, files)
        if answered != request or flags & 7 != VERSION | REPLY:
            raise ValueError(f"{request!r} is answered by {answered} with flags {flags:#x}")
        return payload

    def ask(self, request, payload=b"", files=()):
        """Sends a message that has an answer, and returns this."""
        self.send(request, payload, files)
        return self.receive(request)

    def number(self, request):
        return struct.unpack("=Q", self.ask(request))[0]

    def tell(self, request, payload=b"", files=()):
        """Sends a message, and waits until it is done where the back end can say so."""
        if not self.protocol >> Protocol.REPLY_ACK & 1:
            self.send(request, payload, files)
        else:
            self.send(request, payload, files, NEED_REPLY)
            if struct.unpack("=Q", self.receive(request))[0]:
                raise Refused(str(request))

    # --- what a machine's start consists of

    def negotiate(self, wanted=WANTED, spoken=SPOKEN):
        """Takes of the wanted features those that are offered."""
        self.offered = self.number(Request.GET_FEATURES)
        self.spoken = self.number(Request.GET_PROTOCOL_FEATURES)
        protocol = self.spoken & bits(spoken)
        self.send(Request.SET_PROTOCOL_FEATURES, struct.pack("=Q", protocol))
        self.protocol = protocol
        self.tell(Request.SET_OWNER)
        self.set_features(wanted)

    def set_features(self, wanted):
        self.features = self.offered & bits(wanted)
        self.tell(Request.SET_FEATURES, struct.pack("=Q", self.features))

    def set_memory(self, memory):
        regions = memory.regions
        payload = struct.pack("=II", len(regions), 0) + b"".join(region.said() for region in regions)
        self.tell(Request.SET_MEM_TABLE, payload, [region.file for region in regions])

    def add_region(self, region):
        self.tell(Request.ADD_MEM_REG, bytes(8) + region.said(), [region.file])

    def remove_region(self, region):
        self.tell(Request.REM_MEM_REG, bytes(8) + region.said())

    def set_log(self, file, size, offset=0):
        """Memory for the log of pages that are written to; its answer is a number."""
        self.ask(Request.SET_LOG_BASE, struct.pack("=QQ", size, offset), [file])

    def configuration(self, offset=0, size=60):
        """Bytes of the device's configuration, none where the back end answers by an error."""
        return self.ask(Request.GET_CONFIG, struct.pack("=III", offset, size, 0) + bytes(size))[12:]

    def start(self, queue, index=0):
        """Says all of a queue, and enables it."""
        user = queue.memory.user
        areas = [user(queue.descriptors), user(queue.device), user(queue.driver)]
        self.tell(Request.SET_VRING_NUM, struct.pack("=II", index, queue.size))
        self.tell(Request.SET_VRING_BASE, struct.pack("=II", index, queue.place()))
        self.tell(Request.SET_VRING_ADDR, struct.pack("=IIQQQQ", index, queue.log, *areas, queue.device))
        self.tell(Request.SET_VRING_CALL, struct.pack("=Q", index), [queue.call])
        self.tell(Request.SET_VRING_ERR, struct.pack("=Q", index), [queue.error])
        self.tell(Request.SET_VRING_KICK, struct.pack("=Q", index), [queue.kick])
        self.tell(Request.SET_VRING_ENABLE, struct.pack("=II", index, 1))

    def stop(self, index=0):
        """Stops a queue, and returns where it stands."""
        told, place = struct.unpack("=II", self.ask(Request.GET_VRING_BASE, struct.pack("=II", index, 0)))
        if told != index:
            raise ValueError(f"the place of queue {index} is told of queue {told}")
        return place
