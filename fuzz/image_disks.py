"""Drivers of further disks over a guest's spare sectors of the image.

The board serves what was offered with each notify, as of a slot's own disk, and the host says nothing. A sane driver relies on each used
entry, status and byte that was read, and knows what its sectors hold at the end.
"""
from further_devices import NOTIFY, OF_CONSOLES, OF_DISKS
from further_disks import BLOCK_RO, DiskDriver
from guests import OK, SECTOR

# How many spare sectors a guest has.
SPARES = [1, 6, 6, 8, 12, 40, 140]


class ImageDisk(DiskDriver):
    """Asks for sectors of the image."""

    IS_OVER_IMAGE = True

    def __init__(self, guest, *args):
        super().__init__(guest, *args)
        self.place, self.sectors = guest.runs.pop()
        self.disk = bytearray(guest.spare_bytes[SECTOR * self.place:SECTOR * (self.place + self.sectors)])

    def kind(self):
        mode = "ro" if self.is_read_only else "rw"
        return f"image {self.place:x} {self.sectors:x} {mode} {self.identity.hex()}"

    def own_features(self):
        return self.offered.image_disk | (BLOCK_RO if self.is_read_only else 0)

    def ways(self):
        return [self.request] * 8 + [self.complete_some, self.odd] if self.is_up else [self.bring_up, self.odd]

    def refused(self):
        return ["supply {} 00", "frame {} 00", "take {}", "dsent {}", "link {} up", *OF_DISKS, *OF_CONSOLES]

    def serve(self, which):
        """All that is on offer is done."""
        if not self.is_up:
            return
        self.guest.mean("served", self.window, len(self.published))
        for request in self.published:
            if request.operation is not None:
                self.perform(request)
                request.answer = OK
            self.give(request)
        self.published = []
        self.close()

    def hand_in(self, request):
        """The board itself writes into memory what was read."""

    def complete_some(self):
        """A notify alone."""
        self.guest.write(self.window, NOTIFY, self.queues[0].notification(), reply="done")
        self.serve(0)
        self.look(0)
