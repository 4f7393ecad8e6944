"""What two devices may answer otherwise and both be right, by name; and fields in which a peer is known to depart.

A liberty is judged on one event: the trace before it says where the queues lie, so that fields of rings are found by
their addresses.
"""
from . import trace

NAMES = {
    "vendor": "VendorID (4.2.2)",
    "offer": "which features are offered (2.2)",
    "configuration": "the configuration but for the capacity (5.2.4, 5.3.4)",
    "queue_num_max": "how large a queue may be (4.2.2)",
    "used_flags": "whether the device asks for notifications, in the used ring's flags (2.7.10)",
    "avail_event": "and in avail_event (2.7.10)",
    "device_event_area": "and in a packed ring's device event suppression (2.8.10)",
    "spurious_interrupt": "a notification that isn't wanted: the standard says SHOULD NOT (2.7.7.2, 2.8.10)",
    "packed_write_flag": "no liberty: the WRITE flag of a used descriptor (2.8.3)",
    "packed_id": "no liberty: the id of a used descriptor (2.8.6)",
}


class Queue:
    def __init__(self):
        self.number, self.areas = 0, [0, 0, 0]


class Layout:
    """Where queues were made ready so far, as the registers were written: what a device wrote there stays."""

    def __init__(self):
        self.queues, self.selected, self.selector, self.packed, self.places = {}, {}, {}, {}, set()

    def take(self, event):
        """What an event changes of it."""
        if event.word != "w" or event.fields["width"] != "4":
            return
        window, offset, value = event["window"], event["offset"], event["value"]
        queue = self.queues.setdefault((window, self.selected.get(window, 0)), Queue())
        if offset == 0x070 and value == 0:
            self.selected[window], self.selector[window], self.packed[window] = 0, 0, False
        elif offset == 0x030:
            self.selected[window] = value
        elif offset == 0x024:
            self.selector[window] = value
        elif offset == 0x020 and self.selector.get(window) == 1:
            self.packed[window] = bool(value & 4)
        elif offset == 0x038:
            queue.number = value
        elif offset == 0x044 and value == 1:
            self.places.add((self.packed.get(window), queue.number, *queue.areas))
        elif 0x080 <= offset <= 0x0a4 and offset % 16 in (0, 4):
            area, high = (offset - 0x080) // 16, offset % 16 == 4
            kept = queue.areas[area] & (0xffffffff if high else ~0xffffffff)
            queue.areas[area] = kept | value << (32 if high else 0)

    def fields(self, named):
        """The addresses that the named liberties leave open: (first, behind the last, bits of each byte)."""
        for is_packed, number, descriptors, _, device in self.places:
            if is_packed:
                if "device_event_area" in named:
                    yield device, device + 4, 0xff
                for position in range(number if number <= 256 else 0):
                    at = descriptors + 16 * position
                    if "packed_write_flag" in named:
                        yield at + 14, at + 15, 2
                    if "packed_id" in named:
                        yield at + 12, at + 14, 0xff
            else:
                if "used_flags" in named:
                    yield device, device + 2, 0xff
                if "avail_event" in named:
                    yield device + 4 + 8 * number, device + 6 + 8 * number, 0xff


def agree(event, one, other, layout, named):
    """Whether two records of an event say the same but for the named liberties. `one` is the judge's."""
    if one == other:
        return True
    ones, others = one.split(" "), other.split(" ")
    if len(ones) != 5 or len(others) != 5 or ones[0] != others[0] or ones[2] != others[2]:
        return False
    return all(interrupts_agree(a, b, named) for a, b in zip(ones[3:], others[3:])) \
        and (ones[1] == others[1] or answers_agree(event, ones[1], others[1], layout, named))


def interrupts_agree(one, other, named):
    return one == other or "spurious_interrupt" in named and int(one, 16) | 1 == int(other, 16)


def answers_agree(event, one, other, layout, named):
    if event.word == "r":
        return is_left_open(event, named)
    if event.word != "mr" or one[:2] != "b:" or other[:2] != "b:" or len(one) != len(other):
        return False
    at, left, right = event["address"], bytearray.fromhex(one[2:]), bytearray.fromhex(other[2:])
    for first, end, bits in layout.fields(named):
        for byte in range(max(first, at), min(end, at + len(left))):
            left[byte - at] &= ~bits & 0xff
            right[byte - at] &= ~bits & 0xff
    return left == right


def is_left_open(event, named):
    """Whether a named liberty leaves a register's value open."""
    offset = event["offset"]
    if offset >= trace.CONFIGURATION:
        return "configuration" in named and not (event["window"] == "b" and offset < 0x108)
    register = trace.REGISTERS.get(offset)
    return {"VendorID": "vendor", "DeviceFeatures": "offer", "QueueNumMax": "queue_num_max",
            "ConfigGeneration": "configuration", "InterruptStatus": "spurious_interrupt"}.get(register) in named
