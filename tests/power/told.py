"""What the guests of a trace are told of their disks, by the small model of crates/conformance/mutants alone."""
from collections import namedtuple

from guests import SECTOR
import model
import trace_text


class Event(namedtuple("Event", "number guest before after calls")):
    """An event that writes or flushes: the image before and after it, and its calls, (sector, bytes) or None of a flush."""

    def written(self, calls):
        """The image once it has made these calls, without the writes behind the last flush."""
        image, waiting = bytearray(self.before), []
        for call in calls:
            if call:
                waiting.append(call)
                continue
            for sector, new in waiting:
                image[SECTOR * sector:SECTOR * (sector + 1)] = new
            waiting = []
        return bytes(image)


class NotedImage(model.Image):
    """An image that notes its writes and flushes."""

    def __init__(self, content):
        super().__init__(content, ())
        self.noted = []

    def write(self, sector, new):
        super().write(sector, new)
        self.noted.append((sector, bytes(new)))

    def flush(self):
        super().flush()
        self.noted.append(None)


class Told:
    """The records of a scene, and its events that write or flush."""

    def __init__(self, scene):
        image = NotedImage(scene.image)
        board = model.board_of([guest.slot.fields() for guest in scene.guests], scene.cache, image, ())
        self.records, self.events = [], []
        *_, events = trace_text.parts_of(scene.trace())
        for number, ((guest, _), (word, *fields)) in enumerate(zip(scene.lines, events)):
            before = bytes(image.bytes)
            self.records.append(model.record_of(board, word, fields))
            if image.noted:
                self.events.append(Event(number, guest, before, bytes(image.bytes), image.noted))
                image.noted = []
        self.calls = [(event, number) for event in self.events for number in range(len(event.calls))]

    def last_flushes(self):
        """The numbers of the flushes that end an event, and without which a write would be lost."""
        flushes, found = 0, []
        for event in self.events:
            flushes += event.calls.count(None)
            if event.calls[-1] is None and event.written(event.calls[:-1]) != event.after:
                found.append(flushes - 1)
        return found


def sector_of(image, sector):
    return image[SECTOR * sector:SECTOR * (sector + 1)]
