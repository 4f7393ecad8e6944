"""Drivers of further consoles, and what the host of a guest does with these.

A sane driver counts what is typed and no chain took, and knows the output that waits for its host.
"""
from further_devices import GENERATION, OF_DISKS, SUPPLIES, FurtherDriver
from guests import PENDING_LIMIT
from queues import BUFFERS

SIZE, EMERGENCY = 0x100, 0x108
# How many bytes of output wait at most, and how much room a driver has for more.
ROOM, OUTPUT_BUFFERS = 65536, 0x6000


class FurtherConsole(FurtherDriver):
    """Gets what its host types, and puts out what its host takes or drops."""

    RECEIVE, TRANSMIT = 0, 1

    def __init__(self, guest, *args):
        self.size = guest.dice.randrange(1 << 16), guest.dice.randrange(1 << 16)
        self.pending, self.output, self.changes = 0, b"", 0
        super().__init__(guest, *args)

    @staticmethod
    def spaces(mtu):
        return [BUFFERS, OUTPUT_BUFFERS]

    def kind(self):
        return "console:{:x}:{:x}".format(*self.size)

    def own_features(self):
        return self.offered.further_console

    def ways(self):
        return [self.type] * 3 + [self.receive] * 4 + [self.transmit] * 5 + [self.take, self.emergency, self.emergency, self.resize, self.odd]

    def refused(self):
        return ["frame {} 00", "link {} up", *OF_DISKS]

    def type(self):
        guest = self.guest
        typed = guest.dice.randbytes(guest.dice.choice(SUPPLIES))
        taken = min(len(typed), PENDING_LIMIT - self.pending)
        self.say("supply", typed.hex() or "-", f"took:{taken:x}")
        guest.mean("supply", self.window, typed)
        self.pending += taken
        self.serve(self.RECEIVE)
        self.look(self.RECEIVE)

    def receive(self):
        if not self.may_offer(self.RECEIVE):
            return
        for _ in range(self.guest.dice.choice([1, 1, 2, 3])):
            self.offer(self.RECEIVE, self.guest.dice.choice([1, 3, 40, 200, 512, 1200]))
        self.publish(self.RECEIVE)

    def transmit(self):
        """Offers output; now and then much of it."""
        if not self.may_offer(self.TRANSMIT):
            return
        dice = self.guest.dice
        for _ in range(dice.choice([1, 1, 2, 3, 8])):
            output = dice.randbytes(dice.choice([1, 2, 60, 300, 3000, 9000]))
            self.offer(self.TRANSMIT, len(output), output)
        self.publish(self.TRANSMIT)

    def take(self):
        """The host takes or drops all output that waits."""
        taken, self.output = self.output, b""
        self.take_out(taken)
        if taken:
            self.serve(self.TRANSMIT)
        self.look(self.TRANSMIT)

    def emergency(self):
        """A byte without a queue."""
        value, width = self.guest.dice.randrange(1 << 32), self.guest.dice.choice([1, 2, 4])
        self.guest.write(self.window, EMERGENCY, value, width, reply="done")
        if len(self.output) < ROOM:
            self.output += bytes([value & 0xFF])

    def resize(self):
        dice = self.guest.dice
        self.size = dice.randrange(1 << 16), dice.randrange(1 << 16)
        self.say("dsz", "{:x} {:x}".format(*self.size), "done")
        if self.is_up:
            self.guest.mean("resized", self.window)
        self.changes += 1
        self.guest.read(self.window, SIZE, found=self.size[0] | self.size[1] << 16)
        self.guest.read(self.window, GENERATION, found=self.changes)

    def serve(self, which):
        """What a service does with the chains that wait."""
        if self.is_up:
            (self.serve_transmit if which else self.serve_receive)()

    def serve_receive(self):
        """Each chain in turn takes what is pending, as long as anything is."""
        while self.pending and self.waiting[self.RECEIVE]:
            self.pending -= min(self.pending, self.waiting[self.RECEIVE].pop(0).length)

    def serve_transmit(self):
        """Each chain's bytes wait for the host, as long as there is room for all of them."""
        waiting = self.waiting[self.TRANSMIT]
        while waiting and len(self.output) + waiting[0].length <= ROOM:
            self.output += waiting.pop(0).sent

    def finish(self):
        """The host takes all that waits, and finds that no more does."""
        if not self.is_plugged:
            return
        self.look(self.RECEIVE)
        while self.output and not self.guest.wildness:
            self.take()
        self.take()
