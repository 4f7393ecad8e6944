"""Whose a byte of guest memory is, by the model: for a reader of a record that shows another byte."""
from . import models

NAMES = {0: "IN", 1: "OUT", 4: "FLUSH", 8: "GET_ID", 13: "WRITE_ZEROES"}
STATUSES = {0: "OK", 1: "IOERR", 2: "UNSUPP"}


class Reached(Exception):
    """The model came to the event that is asked about."""


class Watch:
    """What was written up to an event, by a model that replays the scenario: slot, addresses, and words for it."""

    def __init__(self, scenario, last):
        self.last, self.line, self.slots, self.written = last, None, [], []
        self.events = iter(scenario.events)
        model = models.model()
        self.flag, self.record_of, model["record_of"] = model["WRITE"], model["record_of"], self.counted
        model["SLOTS"] = {disk: self.watched(kind) for disk, kind in model["SLOTS"].items()}
        try:
            model["replay"](scenario.read(".trace"), scenario.image, set(scenario.fails or ()))
        except Reached:
            pass

    def counted(self, slots, word, fields):
        """The record of an event, whose line is noted."""
        event = next(self.events)
        self.line, self.slots = event.number, slots
        if self.line == self.last:
            raise Reached
        if word == "mw" and event["slot"] < len(slots):
            self.note(slots[event["slot"]], event["address"], len(event["content"]), f"what line {self.line} put there")
        return self.record_of(slots, word, fields)

    def note(self, slot, first, count, words):
        self.written.append((slot, first, first + count, words))

    def watched(self, kind):
        """A kind of slot that notes what its requests write."""
        watch = self

        class Watched(kind):
            def perform(self, chain, header, count, room):
                chain.request = f"the {request_in_words(header)} that line {watch.line} served"
                return super().perform(chain, header, count, room)

            def answer(self, chain, room, status, written):
                for at, count in chain.runs(watch.flag, 0, room - 1):
                    watch.note(self, at, count, f"in the room of {chain.request}")
                for at, count in chain.runs(watch.flag, room - 1, 1):
                    watch.note(self, at, count, f"the status of {chain.request}")
                return super().answer(chain, room, status, written)

        return Watched

    def whose(self, slot, address):
        """What was written last at an address, in words, or None."""
        return next((words for of, first, end, words in reversed(self.written)
                     if of is slot and first <= address < end), None)


def request_in_words(header):
    """A request by its header."""
    if len(header) < 16:
        return "request without a whole header"
    kind, sector = int.from_bytes(header[0:4], "little"), int.from_bytes(header[8:16], "little")
    return f"{NAMES[kind]} of sector {sector}" if kind in (0, 1) else NAMES.get(kind, f"request of type {kind}")


def byte_in_words(scenario, event, wanted, has):
    """The first byte that differs in a look at memory: where it is, and whose."""
    at = next(at for at, (one, other) in enumerate(zip(wanted, has)) if one != other)
    address, watch = event["address"] + at, Watch(scenario, event.number)
    whose = watch.whose(watch.slots[event["slot"]], address)
    is_status = whose and whose.startswith("the status")
    one, other = (STATUSES.get(byte, f"{byte:02x}") if is_status else f"{byte:02x}" for byte in (wanted[at], has[at]))
    return f"byte {at}, at {address:x}{', is ' + whose if whose else ''}: {one} expected, {other} found"
