"""Snapshots of a slot, spelled as crates/snapshot/README.md says, with any field in another's place."""
import copy
import dataclasses
import typing

from mutants import model

from .drivers import number


@dataclasses.dataclass
class SavedQueue:
    """`place` counts of a ready queue alone, and so do what its service left and passed, and what is in flight."""

    number: int = 0
    areas: typing.List[int] = dataclasses.field(default_factory=lambda: [0, 0, 0])
    ready: bool = False
    place: int = 0
    left: int = 0
    passed: int = 0
    ahead: int = 0

    def spelled(self):
        text = number(self.number, 4) + b"".join(number(area, 8) for area in self.areas) + bytes([self.ready])
        served = (self.place, self.left, self.passed, self.ahead) if self.ready else ()
        return text + b"".join(number(one, 2) for one in served)


@dataclasses.dataclass
class SavedWindow:
    offered: int
    status: int
    accepted: int
    selectors: typing.List[int]
    queues: typing.List[SavedQueue]
    interrupts: int
    generation: int

    def spelled(self):
        front = number(self.offered, 8) + bytes([self.status]) + number(self.accepted, 8)
        selectors, queues = (number(one, 4) for one in self.selectors), (queue.spelled() for queue in self.queues)
        return b"".join([front, *selectors, *queues, bytes([self.interrupts]), number(self.generation, 4)])


@dataclasses.dataclass
class Saved:
    base: int
    span: int
    sectors: int
    read_only: bool
    identity: bytes
    size: typing.List[int]
    held: int
    windows: dict
    pending: bytes

    def spelled(self):
        front = b"KALYUBOS" + number(1, 4) + number(self.base, 8) + number(self.span, 8) + number(self.sectors, 8)
        size = b"".join(number(one, 2) for one in self.size)
        windows = b"".join(self.windows[name].spelled() for name in "bc")
        slot = [front, bytes([self.read_only]), self.identity, size, bytes([self.held])]
        return b"".join([*slot, windows, number(len(self.pending), 4), self.pending])

    def but(self, change):
        """The same with a change."""
        other = copy.deepcopy(self)
        change(other)
        return other


def saved(guest):
    """What the guest's slot would be saved as; nothing has been written to SHMSel."""
    slot = guest.life.board[guest.slot]
    base, span = slot.memory.span()
    windows = {name: saved_window(window) for name, window in slot.windows.items()}
    return Saved(base, span, slot.count, slot.read_only, slot.identity, [slot.cols, slot.rows], slot.held, windows, slot.pending)


def saved_window(window):
    queues = [SavedQueue(queue.number, list(queue.areas), queue.ready, queue.place, ahead=queue.ahead) for queue in window.queues]
    selectors = [window.device_sel, window.driver_sel, window.queue_sel, 0]
    return SavedWindow(window.offered_bits(), window.status, window.driver_features, selectors,
                       (queues + [SavedQueue()])[:2], window.interrupts,
                       window.generation)


def counted(content):
    return number(len(content), 4) + content


def frames(waiting):
    return number(len(waiting), 4) + b"".join([*[number(len(one), 4) for one in waiting], *waiting])


def waiting(device):
    """What waits in a further device; its card has dropped nothing."""
    if isinstance(device, model.Entropy):
        return counted(device.pool)
    if isinstance(device, model.Card):
        return bytes([device.link]) + bytes(16) + frames(device.incoming.waiting) + frames(device.sent.waiting)
    if isinstance(device, model.Console):
        return number(device.cols, 2) + number(device.rows, 2) + counted(device.pending) + counted(device.output)
    return bytes([device.held])


def restore(guest, snapshot):
    return guest.do("st", snapshot.spelled().hex())
