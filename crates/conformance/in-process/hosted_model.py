#!/usr/bin/env python3
"""The model's board whose disks the host serves, with a host that serves each operation at once: called as mutants/model.py.

The host has the image behind the cache, and works sector by sector; an operation fails at the first call that does.
"""
import os
import sys

sys.dont_write_bytecode = True
sys.path.insert(0, os.path.join(os.path.dirname(os.path.abspath(__file__)), "..", "mutants"))
import model
from model import SECTOR


class Served(model.HostedSlot):
    """A disk with its host."""

    def serve(self, window, index):
        output = super().serve(window, index)
        while any(self.tags):
            tag = next(tag for tag, asked in enumerate(self.tags) if asked)
            self.complete(tag, self.is_done(self.tags[tag]))
        return output

    # A trace of disks on the image has nobody who says anything of them.

    def drop(self):
        return False

    hold = release = drop

    def is_done(self, asked):
        """Does an operation; whether no call failed."""
        kind, _, stable = asked.kind.partition("-")
        try:
            getattr(self, "do_" + kind)(asked)
            if stable:
                self.cache.flush()
        except model.ImageFails:
            return False
        return True

    def run(self, start, length):
        """The image's sectors of so many bytes of the disk."""
        return range(self.start + start // SECTOR, self.start + (start + length) // SECTOR)

    def do_in(self, asked):
        for number, sector in enumerate(self.run(asked.start, asked.length)):
            asked.chain.write(number * SECTOR, self.cache.read(sector))

    def do_out(self, asked):
        content = b"".join(self.memory.part(at, count) for at, count in asked.runs)
        for number, sector in enumerate(self.run(asked.start, asked.length)):
            self.cache.write(sector, content[number * SECTOR:(number + 1) * SECTOR])

    def do_zeroes(self, asked):
        for sector in [sector for at, count in asked.runs for sector in self.run(at, count)]:
            self.cache.zero(sector)

    def do_flush(self, asked):
        self.cache.flush()


class ServedImageDisk(Served, model.ImageDisk):
    """A further disk over spare sectors, which the host serves too."""

    def __init__(self, *words):
        super().__init__(*words)
        self.windows["b"], self.tags = self.window, [None]

    def use(self, index, chain):
        return self.request(chain)


def image_disk_of(slot, place, count, mode, identity):
    return ServedImageDisk(slot, int(place, 16), int(count, 16), mode, bytes.fromhex(identity))


model.SLOTS["image"], model.image_disk_of = Served, image_disk_of

if __name__ == "__main__":
    sys.exit(print(__doc__) if "--help" in sys.argv else model.main(sys.argv[1:]))
