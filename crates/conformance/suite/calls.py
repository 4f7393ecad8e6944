"""Whether it decides a scenario which calls of the image a device makes.

docs/model.md says that what is cached isn't seen. Where a call fails it is: a device that keeps other sectors has
another call with that number. So a scenario whose image fails is replayed on models with other caches; where one of
these answers otherwise, the calls decide.
"""
import trace_text

from . import models

MODEL = models.model()


class KeepsNothing(MODEL["Cache"]):
    def keep(self, sector, content):
        pass


class KeepsAll(MODEL["Cache"]):
    def __init__(self, image, capacity):
        super().__init__(image, len(image.bytes))


class KeepsZeroed(MODEL["Cache"]):
    def zero(self, sector):
        super().zero(sector)
        self.keep(sector, bytes(MODEL["SECTOR"]))


class KeepsWhatWasRead(MODEL["Cache"]):
    def write(self, sector, new):
        self.kept.pop(sector, None)
        self.image.write(sector, new)


class ForgetsTheOldest(MODEL["Cache"]):
    """A sector that is used again is as old as before."""

    def keep(self, sector, content):
        self.kept[sector] = content
        if len(self.kept) > self.capacity:
            del self.kept[next(iter(self.kept))]


CACHES = (KeepsNothing, KeepsAll, KeepsZeroed, KeepsWhatWasRead, ForgetsTheOldest)


def decide(scenario):
    """Whether a model with another cache answers otherwise than the scenario's files say."""
    text, own = scenario.read(".trace"), MODEL["Cache"]
    fault = trace_text.fault_of(text)
    try:
        return any(not passes(scenario, text, fault, cache) for cache in CACHES)
    finally:
        MODEL["Cache"] = own


def passes(scenario, text, fault, cache):
    MODEL["Cache"] = cache
    output, status, image = MODEL["replay"](text, scenario.image, set(scenario.fails), (), lambda _: fault)
    return f"{output}status {status}\n" == scenario.records and image.bytes == scenario.image_after
