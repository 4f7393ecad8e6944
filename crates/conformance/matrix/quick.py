"""The model's memory, its split ring, a console's services, its records and the reader of traces, made quicker for the making: the
same answers by fewer calls.

`make mutants` runs the model itself over all that is made.
"""
import functools
import mmap
import re
import struct

import trace_text
from mutants import model
from suite import calls

DESCRIPTOR = struct.Struct("<QIHH")
HALF, USED_ENTRY = struct.Struct("<H"), struct.Struct("<II")
NUMBERS = {1: struct.Struct("<B"), 2: struct.Struct("<H"), 4: struct.Struct("<I"), 8: struct.Struct("<Q")}


class Region:
    """A region's bytes; those of a large one take memory only where they are touched."""

    def __init__(self, base, length):
        self.base, self.bytes = base, mmap.mmap(-1, length) if length > 1 << 20 else bytearray(length)
        self.end = base + length


class Memory:
    """Regions in ascending order, with a gap between each two."""

    def __init__(self, base, length, *others):
        self.regions = [Region(base, length)] + [Region(at, size) for at, size in others]

    def span(self):
        return self.regions[0].base, self.regions[-1].end - self.regions[0].base

    def holds(self, at, count):
        for region in self.regions:
            if region.base <= at and at + count <= region.end:
                return True
        return False

    def part(self, at, count):
        for region in self.regions:
            if region.base <= at and at + count <= region.end:
                at -= region.base
                return bytes(region.bytes[at:at + count])
        if not count:
            return b""
        raise IndexError(f"no region has {count:x} bytes at {at:x}")

    def put(self, at, new):
        for region in self.regions:
            if region.base <= at and at + len(new) <= region.end:
                at -= region.base
                region.bytes[at:at + len(new)] = new
                return
        if new:
            raise IndexError(f"no region has {len(new):x} bytes at {at:x}")

    def number(self, at, count):
        for region in self.regions:
            if region.base <= at and at + count <= region.end:
                return NUMBERS[count].unpack_from(region.bytes, at - region.base)[0]
        raise IndexError(f"no region has {count:x} bytes at {at:x}")

    def put_number(self, at, count, value):
        for region in self.regions:
            if region.base <= at and at + count <= region.end:
                NUMBERS[count].pack_into(region.bytes, at - region.base, value)
                return
        raise IndexError(f"no region has {count:x} bytes at {at:x}")


def descriptor(memory, at):
    """A descriptor's four numbers, by one look at the memory."""
    for region in memory.regions:
        if region.base <= at and at + 16 <= region.end:
            return DESCRIPTOR.unpack_from(region.bytes, at - region.base)
    raise IndexError(f"no region has a descriptor at {at:x}")


def take(queue, memory):
    """The next chain: here one of a split ring with one buffer, in a memory of one region; else the model takes it."""
    if queue.packed or not queue.left or len(memory.regions) > 1:
        return TAKE(queue, memory)
    region = memory.regions[0]
    head = HALF.unpack_from(region.bytes, queue.areas[1] + 4 + 2 * (queue.next % queue.number) - region.base)[0]
    if head >= queue.number:
        return TAKE(queue, memory)
    address, length, flags, _ = DESCRIPTOR.unpack_from(region.bytes, queue.areas[0] + 16 * head - region.base)
    if flags & (model.NEXT | model.INDIRECT) or address < region.base or address + length > region.end:
        return TAKE(queue, memory)
    chain = model.Chain(memory)
    chain.head, chain.total = head, length
    chain.buffers.append((address, length, flags & model.WRITE))
    return chain


def written(chain, place, new):
    """Writes over a chain's writable places from `place` on: buffers before it and behind the bytes aren't looked at."""
    for address, length, is_writable in chain.buffers:
        if not is_writable:
            continue
        if place >= length:
            place -= length
            continue
        part = new[:length - place]
        chain.memory.put(address + place, part)
        new, place = new[len(part):], 0
        if not new:
            return


def give(queue, memory, chain, length, wrote):
    """Gives a chain back: here in a split ring, in a memory of one region."""
    if queue.packed or len(memory.regions) > 1:
        GIVE(queue, memory, chain, length, wrote)
        return
    region = memory.regions[0]
    used = queue.areas[2] - region.base
    USED_ENTRY.pack_into(region.bytes, used + 4 + 8 * (queue.place % queue.number), chain.head, length)
    queue.place = (queue.place + 1) % 65536
    HALF.pack_into(region.bytes, used + 2, queue.place)
    queue.left -= 1
    queue.passed += 1


def serve(slot, window, index):
    """A service: here of a console's split queue, in a memory of one region; else the model serves."""
    queue = slot.windows[window].queues[index]
    if window == "b" or queue.packed or queue.ahead or len(slot.memory.regions) > 1:
        return SERVE(slot, window, index)
    texts, fault = [], False
    try:
        queue.open(slot.memory)
        while index or slot.pending:
            serve_plain(slot, queue, index, texts)
            chain = queue.take(slot.memory) if index or slot.pending else None
            if chain is None:
                break
            texts.append(chain.readable() if index else b"")
            queue.give(slot.memory, chain, *((0, False) if index else slot.receive(chain)))
    except model.Fault:
        fault = True
    slot.close(window, queue, fault)
    return b"".join(texts) if index else b""


def serve_plain(slot, queue, index, texts):
    """Serves chains of one buffer, up to the first that is another."""
    region, number, areas = slot.memory.regions[0], queue.number, queue.areas
    content, base = region.bytes, region.base
    table, heads, used = (area - base for area in areas)
    while queue.left and (index or slot.pending):
        at = queue.place % number
        head, = HALF.unpack_from(content, heads + 4 + 2 * at)
        if head >= number:
            return
        address, length, flags, _ = DESCRIPTOR.unpack_from(content, table + 16 * head)
        if flags & (model.NEXT | model.INDIRECT) or address < base or address + length > region.end:
            return
        count = 0
        if index and not flags & model.WRITE:
            texts.append(content[address - base:address - base + length])
        elif not index and flags & model.WRITE:
            part = slot.pending[:length]
            slot.pending, count = slot.pending[len(part):], len(part)
            content[address - base:address - base + count] = part
        USED_ENTRY.pack_into(content, used + 4 + 8 * at, head, count)
        queue.place = (queue.place + 1) % 65536
        HALF.pack_into(content, used + 2, queue.place)
        queue.left -= 1
        queue.passed += 1


@functools.lru_cache(maxsize=1 << 15)
def fault_in_one(text, place, had_event, first):
    return FAULT_IN(text, place, had_event, first)


def fault_in(text, line, had_event, first):
    """The reader's answer for a line, which is the same for equal lines from the third on."""
    return fault_in_one(text, min(line, 3), had_event, first)


# The most frequent lines of events, as docs/formats.md has them.
FREQUENT = re.compile(r"r N [bc] D{3} [124]|w N [bc] D{3} (1 D{2}|2 D{4}|4 D{8})|mr N A L|mw N A (-|(DD)+)|in N (-|(DD)+)".replace("D", "[0-9a-f]")
                      .replace("N", "(0|[1-9a-f][0-9a-f]?)").replace("A", "(0|[1-9a-f][0-9a-f]{0,15})").replace("L", "(0|[1-9a-f][0-9a-f]{0,7})"))


def fault_of(text):
    """The reader's answer: the lines of a trace are looked at once each, and where one is wrong the reader says which."""
    lines = text.decode("latin-1").split("\n")
    first = next((at for at, line in enumerate(lines) if at > 1 and not line.startswith("slot ")), 0)
    events = set(lines[first:-1])
    is_good = (first and not lines[-1] and not any(fault_in(line, at, False, lines[0]) for at, line in enumerate(lines[:first], 1))
               and not any(line.startswith("slot ") or not FREQUENT.fullmatch(line) and fault_in(line, 3, False, lines[0]) for line in events))
    return None if is_good else FAULT_OF(text)


@functools.lru_cache(maxsize=1 << 12)
def names_among(offered, features):
    return frozenset(name for name in offered if features >> model.FEATURE[name] & 1)


def offered_by(window):
    """The features that a window offers, as a tuple that is made once."""
    try:
        return window.offered_names
    except AttributeError:
        window.offered_names = tuple(window.offered)
        return window.offered_names


def negotiated(window):
    """The names of a window's features, found once for each choice."""
    return names_among(offered_by(window), window.driver_features) if window.status & model.FEATURES_OK else frozenset()


@functools.lru_cache(maxsize=1 << 8)
def bits_of(offered):
    return sum(1 << model.FEATURE[name] for name in offered)


def offered_bits(window):
    return bits_of(offered_by(window))


# The operations that were asked for since this was emptied.
BEGAN = []


def ask(asked, *words, **more):
    """Notes an operation as it is asked for: it begins with the event that is handled."""
    ASK(asked, *words, **more)
    BEGAN.append(asked)


def hosted_record_of(slots, word, fields):
    """A record, and behind it the operations that began with its event, by their tags, or by their further disks' numbers and tags."""
    BEGAN.clear()
    record = model.record_of(slots, word, fields)
    if not BEGAN:
        return f"{record} -"
    slot = slots[int(fields[0], 16)]
    began = [f"{tag:x}={asked}" for tag, asked in enumerate(slot.tags) if asked in BEGAN]
    began += [f"{at:x}/{tag:x}={asked}" for at, device in enumerate(slot.devices) for tag, asked in enumerate(device.tags) if asked in BEGAN]
    return f"{record} {';'.join(began) or '-'}"


def record_of(slots, word, fields):
    number = int(fields[0], 16)
    if number >= len(slots):
        return f"{number:x} badslot - 0 0"
    slot = slots[number]
    reply, output = model.REPLIES[word](slot, *fields[1:])
    windows = slot.windows
    return f"{number:x} {reply} {output.hex() or '-'} {windows['b'].interrupts} {windows['c'].interrupts}"


def memory_read(slot, address, length):
    at, count = int(address, 16), int(length, 16)
    for region in slot.memory.regions:
        if region.base <= at and at + count <= region.end:
            at -= region.base
            return f"b:{region.bytes[at:at + count].hex() or '-'}", b""
    return "badrange", b""


def memory_write(slot, address, content):
    at, new = int(address, 16), b"" if content == "-" else bytes.fromhex(content)
    for region in slot.memory.regions:
        if region.base <= at and at + len(new) <= region.end:
            at -= region.base
            region.bytes[at:at + len(new)] = new
            return "done", b""
    return "badrange", b""


def use():
    """Puts these in the places of the model's and the reader's own."""
    model.Memory, model.descriptor, model.record_of, trace_text.fault_in, trace_text.fault_of = Memory, descriptor, record_of, fault_in, fault_of
    model.REPLIES.update(mr=memory_read, mw=memory_write)
    model.Queue.take, model.Queue.give, model.Slot.serve, model.Chain.write = take, give, serve, written
    model.Window.negotiated, model.Window.offered_bits, model.hosted_record_of = negotiated, offered_bits, hosted_record_of
    model.Asks.__init__ = ask
    calls.MODEL = vars(model)


FAULT_IN, FAULT_OF, TAKE, GIVE, SERVE = trace_text.fault_in, trace_text.fault_of, model.Queue.take, model.Queue.give, model.Slot.serve
ASK = model.Asks.__init__
