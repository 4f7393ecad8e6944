"""What plugs give a guest, judged by the records alone: each is answered by what it says and what the guest has, and so is known which
sectors of the image are whose.
"""
from trace_text import parts_of_kind

MOST_DEVICES, LEAST_MTU, MOST_DEPTH, MOST_SECTORS = 6, 68, 64, (1 << 55) - 1


class Wrong(Exception):
    """An answer that can't be."""


class Plugs:
    """The further devices of a guest: how many, and the runs of spare sectors that disks have, with whether these are written."""

    def __init__(self, spare):
        self.spare, self.count, self.runs = spare, 0, []

    def are_free(self, place, count):
        """Whether a disk may have these spare sectors."""
        are_apart = all(place + count <= first or first + size <= place for first, size, _ in self.runs)
        return count > 0 and place + count <= self.spare and are_apart

    def is_kind(self, plug):
        """Whether there is such a device."""
        name, *numbers = parts_of_kind(plug["kind"])
        if name == "image":
            return self.are_free(plug["place"], plug["count"])
        if name == "disk":
            return plug["sectors"] <= MOST_SECTORS and 1 <= plug["depth"] <= MOST_DEPTH
        return name != "network" or numbers[-1] >= LEAST_MTU

    def plug(self, event, reply):
        plug = event.line()
        is_good = plug["device"] == self.count < MOST_DEVICES and self.is_kind(plug)
        if (reply == "baddevice") == is_good:
            raise Wrong(f"plug {event.fields} is answered {reply}; the guest has {self.count} devices, and of {self.spare} spare sectors "
                        f"disks have {self.runs}")
        if reply == "done":
            self.count += 1
            self.runs += [(plug["place"], plug["count"], plug["mode"] == "rw")] if plug["kind"] == "image" else []


def plugs_of(guest, records):
    """The further devices that a guest has after its events."""
    plugs = Plugs(guest.spare)
    for event, record in zip(guest.events, records):
        if event.word == "plug":
            plugs.plug(event, record.partition(" ")[0])
    return plugs


def written_by(guest, plugs):
    """The sectors of the image that a guest may write: its extent, and those of its disks over spare ones, where these aren't read-only."""
    if guest.is_hosted:
        return set()
    first = guest.slot.start + guest.slot.count
    own = [] if guest.slot.read_only else range(guest.slot.start, first)
    return {*own, *(first + place + at for place, count, is_written in plugs.runs if is_written for at in range(count))}
