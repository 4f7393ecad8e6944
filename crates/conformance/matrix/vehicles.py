"""What carries a buffer to a device so that a record shows where it lies and how long it is.

Each vehicle is a queue of a window and a chain around one buffer. A transmit queue puts the bytes of the buffer out; a receive
queue writes what is typed into its front; a disk writes the status of a FLUSH into its last byte.
"""
from .drivers import FAULT, INDIRECT_DESC, SERVED, WRITE, Buffer
from .story import CHANGED, USED

# From a memory's base on: where a request's header lies, and a table.
HEADER, TABLE = 0x4000, 0x7000
FLUSH = (4).to_bytes(4, "little") + bytes(12)
OK = b"\0"


class Vehicle:
    """A queue that is up, and how one buffer is carried. `in_table` has each chain in an indirect table, which lies at `table`."""

    def __init__(self, queue, base, in_table=False):
        self.queue, self.base, self.in_table, self.table = queue, base, in_table, base + TABLE

    def bring_up(self):
        self.queue.bring_up()
        self.prepare()
        return self

    def bring_up_again(self):
        self.queue.bring_up_again()

    def prepare(self):
        """What lies in memory for each chain."""

    def offer(self, address, length, flags=0, link=-1):
        """The chain with this buffer on offer."""
        chain = self.chain(Buffer(address, length, self.FLAGS | flags, link))
        self.queue.offer([self.queue.table(self.table, chain)] if self.in_table else chain)

    def refused(self):
        """The notify of a chain that is a fault; the window is brought up again behind it."""
        self.serve(FAULT)
        self.bring_up_again()


class Transmit(Vehicle):
    """Output shows the bytes of a buffer."""

    NAME, WINDOW, INDEX, FLAGS = "transmit", "c", 1, 0

    def chain(self, buffer):
        return [buffer]

    def serve(self, comes=SERVED, output=b""):
        self.queue.notify(comes, output)

    def shows(self, address, length, mark):
        """A buffer of some bytes, of which the last is `mark`: all before it are zero."""
        self.queue.put(address + length - 1, bytes([mark]))
        self.offer(address, length)
        self.serve(output=bytes(length - 1) + bytes([mark]))
        self.queue.put(address + length - 1, bytes(1))

    def shows_empty(self, address):
        """A buffer of no bytes."""
        self.offer(address, 0)
        self.serve()


class Receive(Vehicle):
    """What is typed shows where a buffer begins."""

    NAME, WINDOW, INDEX, FLAGS = "receive", "c", 0, WRITE

    def chain(self, buffer):
        return [buffer]

    def serve(self, comes=SERVED, typed=b"\x5a"):
        self.queue.story.type(typed, len(typed), told=USED if comes is SERVED else CHANGED, slot=self.queue.slot)
        self.queue.after(comes)

    def refused(self):
        super().refused()
        # What was typed waits for a buffer: it is taken away by one that is good.
        self.offer(self.base + HEADER, 4096)
        self.queue.notify()

    def shows(self, address, length, mark):
        self.offer(address, length)
        self.serve(typed=bytes([mark]) * length)
        self.queue.look(address, length, bytes([mark]) * length)

    def shows_empty(self, address):
        """A buffer of no bytes takes nothing; the next one does."""
        self.offer(address, 0)
        self.serve()
        self.offer(self.base + HEADER, 1)
        self.queue.notify()


class Disk(Vehicle):
    """The status of a FLUSH shows where a buffer ends."""

    NAME, WINDOW, INDEX, FLAGS = "disk", "b", 0, WRITE

    def prepare(self):
        self.queue.put(self.base + HEADER, FLUSH)

    def chain(self, buffer):
        return [Buffer(self.base + HEADER, 16), buffer]

    def serve(self, comes=SERVED):
        self.queue.notify(comes)

    def shows(self, address, length, mark):
        last = address + length - 1
        self.queue.put(last, b"\xff")
        self.offer(address, length)
        self.serve()
        self.queue.look(last, 1, OK)
        self.queue.put(last, bytes([mark]))

    def shows_empty(self, address):
        """A buffer of no bytes has no room for a status."""
        self.offer(address, 0)
        self.serve()


VEHICLES = {vehicle.NAME: vehicle for vehicle in (Disk, Transmit, Receive)}


def up(story, vehicle, kind, base, in_table=False, size=4, low=0):
    """A vehicle of a kind of ring, brought up in a story."""
    queue = kind(story, vehicle.WINDOW, vehicle.INDEX, size, low | (INDIRECT_DESC if in_table else 0), base + 0x1000)
    return vehicle(queue, base, in_table).bring_up()
