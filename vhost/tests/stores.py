"""What the program's disk may lie on, in the tests' own hands: a server of NBD, and a file system (FUSE) with one file. Each answers, holds,
fails or cuts short what it is asked, as a test says.
"""
import ctypes
import os
import socket
import struct
import threading
import time

from program import LeftOut, pattern

READ, WRITE, FLUSH, ZEROES = "read", "write", "flush", "zeroes"


class Store:
    """The bytes of a disk, and how requests of it are answered: `errors` by their kind, held while `is_held`, cut to `most` bytes."""

    def __init__(self, sectors=2048):
        self.content = bytearray(pattern(sectors))
        self.errors, self.is_held, self.most = {}, False, 1 << 30
        self.waiting, self.seen, self.change = [], [], threading.Condition()

    def read(self, at, length):
        """What the disk has, for whoever judges it."""
        return bytes(self.content[at:at + length])

    def asked(self, answer, kind, at=0, length=0, data=b""):
        """Takes a request; `answer` is called with an error and the bytes that are read, or how many are written."""
        with self.change:
            self.seen.append((kind, at, length))
            self.waiting.append((answer, kind, at, length, data))
            self.change.notify_all()
            if not self.is_held:
                self.answer_all()

    def answer_all(self, backwards=False):
        """Answers what waits."""
        with self.change:
            for answer, kind, at, length, data in self.waiting[::-1 if backwards else 1]:
                error, done = self.errors.get(kind, 0), min(length, self.most)
                if not error and kind in (WRITE, ZEROES):
                    self.content[at:at + done] = data[:done] or bytes(done)
                try:
                    answer(error, self.read(at, done) if kind == READ else done)
                except OSError:
                    pass # who asked is gone
            self.waiting.clear()

    def must_wait(self, least, most=None, seconds=10):
        """Waits until so many requests wait; no more may come."""
        with self.change:
            self.change.wait_for(lambda: len(self.waiting) >= least, seconds)
        time.sleep(0.1)
        if not least <= len(self.waiting) <= (most or least):
            raise AssertionError(f"{len(self.waiting)} requests came, not {least}")

    def kinds(self):
        return [kind for kind, _, _ in self.seen]


class Nbd(Store):
    """A server of NBD with one export (NBD's doc/proto.md), at a socket of a folder. It has `flags` of transmission beside its commands."""

    READ_ONLY, SEND_FLUSH, SEND_FUA, SEND_ZEROES, MULTI = 2, 4, 8, 64, 256
    KINDS = {0: READ, 1: WRITE, 3: FLUSH, 6: ZEROES}

    def __init__(self, folder, flags=SEND_FLUSH | SEND_FUA | SEND_ZEROES | MULTI, **how):
        super().__init__(**how)
        self.path, self.flags, self.connections = f"{folder}/nbd", 1 | flags, []
        self.words = [f"--nbd=nbd+unix:///?socket={self.path}"]
        self.listener = None
        self.listen()

    def listen(self):
        self.listener = socket.socket(socket.AF_UNIX)
        self.listener.bind(self.path)
        self.listener.listen()
        threading.Thread(target=self.accept, args=[self.listener], daemon=True).start()

    def accept(self, listener):
        try:
            while True:
                connection, _ = listener.accept()
                self.connections.append(connection)
                threading.Thread(target=self.serve, args=[connection], daemon=True).start()
        except OSError:
            pass

    def cut(self):
        """Ends all connections."""
        for connection in self.connections:
            connection.shutdown(socket.SHUT_RDWR) if connection.fileno() >= 0 else None
        self.connections.clear()
        self.waiting.clear()

    def close(self):
        self.listener.shutdown(socket.SHUT_RDWR)
        self.listener.close()
        os.unlink(self.path)
        self.cut()

    def serve(self, connection):
        files = connection.makefile("rb")
        try:
            if self.greet(connection, files):
                while head := files.read(28):
                    self.take(connection, files, head)
        except (OSError, ValueError, struct.error):
            pass
        connection.close()

    def greet(self, connection, files):
        """The handshake. False where it ends without an export."""
        connection.sendall(b"NBDMAGIC" b"IHAVEOPT" + struct.pack(">H", 3))
        files.read(4)
        while head := files.read(16):
            option, length = struct.unpack(">8xII", head)
            files.read(length)
            is_go = option in (6, 7)
            if is_go:
                said = struct.pack(">HQH", 0, len(self.content), self.flags)
                connection.sendall(struct.pack(">QIII", 0x3e889045565a9, option, 3, len(said)) + said)
            connection.sendall(struct.pack(">QIII", 0x3e889045565a9, option, 1 if is_go or option == 2 else 0x80000001, 0))
            if option in (2, 7):
                return option == 7
        return False

    def take(self, connection, files, head):
        magic, _, kind, handle, at, length = struct.unpack(">IHHQQI", head)
        if magic != 0x25609513 or kind == 2:
            raise ValueError("no request")
        data = files.read(length) if kind == 1 else b""

        def answer(error, done):
            connection.sendall(struct.pack(">IIQ", 0x67446698, error, handle) + (done if kind == 0 and not error else b""))
        self.asked(answer, self.KINDS[kind], at, length, data)


class Fuse(Store):
    """A file system of one file, `disk`, mounted at a folder; it wants root's rights. The kernel's include/uapi/linux/fuse.h has its protocol.

    The kernel lets nobody cancel a transfer. Who makes one waits in the system call; not so by the way `async`. By `cached` the kernel has
    a cache of the file, and else each transfer is asked for.
    """

    LOOKUP, GETATTR, SETATTR, OPEN, READS, WRITES, STATFS, RELEASE, FSYNC, FLUSHES, INIT = 1, 3, 4, 14, 15, 16, 17, 18, 20, 25, 26
    SILENT = (2, 36, 42) # FORGET, INTERRUPT, BATCH_FORGET: never answered
    NO_CALL, ASYNC_DIO = 38, 1 << 15

    def __init__(self, folder, way="plain", **how):
        super().__init__(**how)
        self.flags, self.open_flags = self.ASYNC_DIO * (way == "async"), way != "cached"
        self.at, self.words = f"{folder}/mount", [f"--blk-file={folder}/mount/disk"]
        os.mkdir(self.at)
        libc = ctypes.CDLL(None, use_errno=True)
        try:
            self.file = os.open("/dev/fuse", os.O_RDWR)
        except OSError as error:
            raise LeftOut(f"/dev/fuse: {error.strerror}") from None
        options = f"fd={self.file},rootmode=40000,user_id={os.getuid()},group_id={os.getgid()}"
        if libc.mount(b"tests", self.at.encode(), b"fuse", 0, options.encode()):
            raise LeftOut(f"a file system can't be mounted: {os.strerror(ctypes.get_errno())}")
        self.unmount = lambda: libc.umount2(self.at.encode(), 2)
        threading.Thread(target=self.serve, daemon=True).start()

    def close(self):
        self.unmount()
        os.close(self.file)

    def serve(self):
        try:
            while True:
                asked = os.read(self.file, 1 << 21)
                _, kind, unique, node = struct.unpack_from("=IIQQ", asked)
                if kind not in self.SILENT:
                    self.take(kind, unique, node, asked[40:])
        except OSError:
            pass

    def reply(self, unique, error=0, said=b""):
        os.write(self.file, struct.pack("=IiQ", 16 + len(said), -error, unique) + said)

    def attributes(self, node):
        """The folder is node 1, its file node 2."""
        size, mode = (0, 0o40755) if node == 1 else (len(self.content), 0o100600)
        return struct.pack("=6Q10I", node, size, size // 512, 0, 0, 0, 0, 0, 0, mode, 1, os.getuid(), os.getgid(), 0, 4096, 0)

    def take(self, kind, unique, node, said):
        if kind == self.INIT:
            self.reply(unique, 0, struct.pack("=IIIIHHIIHHI28x", 7, 31, 0, self.flags, 64, 48, 1 << 17, 1, 32, 0, 0))
        elif kind == self.LOOKUP:
            self.reply(unique, 0, struct.pack("=QQQQII", 2, 0, 0, 0, 0, 0) + self.attributes(2))
        elif kind in (self.GETATTR, self.SETATTR):
            self.reply(unique, 0, struct.pack("=QII", 0, 0, 0) + self.attributes(node))
        elif kind == self.OPEN:
            self.reply(unique, 0, struct.pack("=QII", 0, self.open_flags, 0))
        elif kind == self.READS:
            _, at, length = struct.unpack_from("=QQI", said)
            self.asked(lambda error, data: self.reply(unique, error, b"" if error else data), READ, at, length)
        elif kind == self.WRITES:
            _, at, length = struct.unpack_from("=QQI", said)
            self.asked(lambda error, done: self.reply(unique, error, b"" if error else struct.pack("=II", done, 0)), WRITE, at, length, said[40:])
        elif kind == self.FSYNC:
            self.asked(lambda error, _: self.reply(unique, error), FLUSH)
        elif kind in (self.RELEASE, self.FLUSHES):
            self.reply(unique)
        else:
            self.reply(unique, self.NO_CALL)
