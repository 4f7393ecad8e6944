"""What is done after a history: requests, texts, typed bytes, notifications and registers, by the same steps after each.

An action works on a window of a guest of follows.py, whatever state it is in; `setup` is how the window is brought up where an
action does that.
"""
import functools

from .drivers import (ACKNOWLEDGE, DEVICE_SEL, DRIVER, DRIVER_FEATURES, DRIVER_SEL, FEATURES_OK, NOTIFY, QUEUE_NUM,
                      QUEUE_READY, QUEUE_SEL, STATUS,
                      WRITE, Buffer, number)
from .follows import HIGH, INDICES, LOW, NAMES, ROOM, TEXT
from .requests import FLUSH, GET_ID, IN, OUT, WRITE_ZEROES, header, segment
from .story import SECTOR

READABLE = [0x000, 0x004, 0x008, 0x00c, 0x010, 0x034, 0x044, 0x060, 0x070, 0x0b0, 0x0b4, 0x0b8, 0x0bc, 0x0fc, 0x100,
            0x104]
# What a driver leaves out of a window's bring-up, in the order in which it would come.
LEFT_OUT = [LOW, "driver_features_sel", HIGH, "features_ok", "queue_sel", *NAMES.values(), "driver_ok"]


# --- one chain of a queue

def serves(guest, window, index, in_table=False):
    """A good chain of a queue, and what becomes of it."""
    if (window, index) == ("b", 0):
        guest.request(header(GET_ID), 20, in_table)
    elif index == 0:
        offer_room(guest, 4, in_table)
        guest.type(bytes([0x61 + guest.turn % 16]) * 3)
        see_room(guest)
    else:
        text(guest, 3, in_table)


def text(guest, length, in_table=False):
    """A text of another letter each time."""
    guest.put(guest.room + TEXT, bytes([0x41 + guest.turn % 26]) * length)
    guest.offer("c", 1, [Buffer(guest.room + TEXT, 1), Buffer(guest.room + TEXT + 1, length - 1)] if in_table else
                [Buffer(guest.room + TEXT, length)], in_table)
    guest.notify("c", 1)
    guest.ends("c", 1)


def offer_room(guest, length, in_table=False):
    """Room for what is typed."""
    guest.put(guest.room + ROOM, b"\xee" * 8)
    guest.offer("c", 0, [Buffer(guest.room + ROOM, length, WRITE)], in_table)


def see_room(guest):
    guest.look(guest.room + ROOM, 8)
    guest.ends("c", 0)


def serves_each(guest, window):
    for index in INDICES[window]:
        serves(guest, window, index)


# --- actions of a disk

def reads_a_sector(guest, window, setup):
    """A read of the first sector."""
    guest.request(header(IN), SECTOR)


def writes_a_sector(guest, window, setup):
    """A write of the first sector, which is read again."""
    guest.request(header(OUT) + bytes([0xa0 + guest.turn % 16]) * SECTOR)
    guest.request(header(IN), SECTOR)


def flushes(guest, window, setup):
    """A FLUSH."""
    guest.request(header(FLUSH))


def reads_the_identity(guest, window, setup):
    """The identity."""
    guest.request(header(GET_ID), 20)


def zeroes_a_sector(guest, window, setup):
    """The second sector is zeroed, and read."""
    guest.request(header(WRITE_ZEROES) + segment(1, 1))
    guest.request(header(IN, 1), SECTOR)


def asks_what_is_unknown(guest, window, setup):
    """A request of an unknown type."""
    guest.request(header(9), 20)


def reads_past_the_end(guest, window, setup):
    """A read of a sector past the end."""
    guest.request(header(IN, 1 << 40), SECTOR)


def asks_twice_at_once(guest, window, setup):
    """Two requests by one notify."""
    guest.request(header(FLUSH), notifies=False)
    guest.request(header(IN), SECTOR)


def asks_in_a_table(guest, window, setup):
    """A request in an indirect table."""
    guest.request(header(IN, 1), SECTOR, in_table=True)


# --- of a console

def puts_a_text_out(guest, window, setup):
    """A text goes out."""
    text(guest, 5)


def puts_a_table_out(guest, window, setup):
    """A text in an indirect table goes out."""
    text(guest, 5, in_table=True)


def types_for_a_chain(guest, window, setup):
    """Room is offered, then three bytes are typed."""
    serves(guest, "c", 0)


def types_for_a_table(guest, window, setup):
    """Room in an indirect table is offered, then three bytes are typed."""
    serves(guest, "c", 0, in_table=True)


def types_before_a_chain(guest, window, setup):
    """Five bytes are typed, then room for four is offered, and for more."""
    guest.type(b"12345")
    for _ in range(2):
        offer_room(guest, 4)
        guest.notify("c", 0)
        see_room(guest)


def types_nothing(guest, window, setup):
    """An input of no bytes, and a notify of the receive queue."""
    guest.type(b"")
    guest.notify("c", 0)
    guest.ends("c", 0)


def writes_an_emergency_byte(guest, window, setup):
    """Emergency bytes of each width."""
    for width in (1, 2, 4):
        guest.write("c", 0x108, 0x21 + guest.turn, width)


def is_resized(guest, window, setup):
    """A resize, and what the window then tells of it."""
    guest.resize(0x30 + guest.turn, 0x20)
    for offset in (0x060, 0x0fc, 0x100):
        guest.read("c", offset)


# --- of either

def reads_registers(guest, window, setup):
    """Each register that can be read, as the selectors stand."""
    for offset in READABLE:
        guest.read(window, offset)


def reads_by_selectors(guest, window, setup):
    """What stands behind each value of a selector."""
    for selector in (1, 0, 2):
        guest.write(window, DEVICE_SEL, selector)
        guest.read(window, 0x010)
    for selector in (1, 0, 2):
        guest.write(window, QUEUE_SEL, selector)
        guest.read(window, 0x034)
        guest.read(window, QUEUE_READY)


def acknowledges(guest, window, setup):
    """Each bit of InterruptStatus is acknowledged."""
    for bit in (2, 1, 3):
        guest.write(window, 0x064, bit)
        guest.read(window, 0x060)


def wants_no_notification(guest, window, setup):
    """The driver's flags say that no notification is wanted, then that one is."""
    for index in INDICES[window]:
        for flag in (1, 0):
            ring = guest.ring(window, index)
            guest.acknowledge(window)
            guest.put(ring.areas[1] + (2 if ring.is_packed else 0), number(flag, 2))
            serves(guest, window, index)


def wants_one_at_a_place(guest, window, setup):
    """The driver's event is at the place behind the next one, then at the next one."""
    for index in INDICES[window]:
        for away in (8, 0):
            event_at(guest, window, index, away)
            guest.acknowledge(window)
            serves(guest, window, index)


def event_at(guest, window, index, away):
    """The driver's event, so many places behind the next one."""
    ring = guest.ring(window, index)
    if not ring.is_packed:
        guest.put(ring.areas[1] + 4 + 2 * ring.number, number((ring.place + ring.ahead() + away) % 65536, 2))
        return
    place = (ring.place + ring.ahead() + min(away, ring.number)) % (2 * ring.number)
    guest.put(ring.areas[1], number(place % ring.number | (0x8000 if place < ring.number else 0), 2) + number(2, 2))


def notifies_by_other_values(guest, window, setup):
    """A chain is on offer; other values name its queue only with NOTIFICATION_DATA, or never."""
    index = INDICES[window][-1]
    guest.offer(window, index, [Buffer(guest.room + TEXT, 1, WRITE if window == "b" else 0)])
    for value in (index | 0x10000, index | 0x80000000, index + 1, index | 0x8000, index):
        guest.write(window, NOTIFY, value)
        guest.ends(window, index)


def stops_and_starts(guest, window, setup):
    """Each queue is stopped and made ready again, without its size or its areas."""
    for index in INDICES[window]:
        guest.write(window, QUEUE_SEL, index)
        guest.write(window, QUEUE_READY, 0)
        guest.read(window, QUEUE_READY)
        ring = guest.ring(window, index)
        guest.put(ring.areas[1], bytes(4))
        if ring.is_packed:
            guest.put(ring.areas[0], bytes(16 * ring.number))
        guest.write(window, QUEUE_READY, 1)
        guest.read(window, QUEUE_READY)
        serves(guest, window, index)


def accepts_again(guest, window, setup):
    """Features are written once more, and FEATURES_OK."""
    for selector, value in ((0, 0), (1, 1), (2, 0xffffffff)):
        guest.write(window, DRIVER_SEL, selector)
        guest.write(window, DRIVER_FEATURES, value)
    guest.write(window, STATUS, ACKNOWLEDGE | DRIVER | FEATURES_OK)
    guest.read(window, STATUS)
    for index in INDICES[window]:
        serves(guest, window, index, in_table=True)


def moves_a_ready_queue(guest, window, setup):
    """Size and areas are written while the queue stands as it does; then it is used."""
    for index in INDICES[window]:
        guest.write(window, QUEUE_SEL, index)
        for offset, value in ((QUEUE_NUM, 2), (0x080, 0), (0x094, 1), (0x0a0, 4), (QUEUE_READY, 1), (QUEUE_READY, 2)):
            guest.write(window, offset, value)
        guest.read(window, QUEUE_READY)
        serves(guest, window, index)


def comes_up(guest, window, setup):
    """From a reset up to DRIVER_OK, and three chains of each queue."""
    guest.bring_up(window, setup)
    goes_on(guest, window, setup)


def goes_on(guest, window, setup):
    """Three chains of each queue."""
    for _ in range(3):
        serves_each(guest, window)


def comes_up_without(left_out, guest, window, setup):
    """From Status on up to DRIVER_OK, without one register; then its queue is used, by a plain chain and by a table."""
    last = 0 if left_out == "queue_sel" else None
    if left_out == "queue_sel" and window == "c":
        guest.setup = setup
        guest.clear(window, setup)
        guest.accept(window, setup)
        guest.make_ready(window, 0, setup, left_out)
        guest.go(window)
    else:
        guest.begin(window, setup, left_out, last)
    guest.read(window, STATUS)
    for index in INDICES[window]:
        guest.write(window, QUEUE_SEL, index)
        guest.read(window, QUEUE_READY)
    for in_table in (False, True):
        serves(guest, window, 0 if left_out == "queue_sel" else INDICES[window][-1], in_table)
    guest.read(window, STATUS)


def without(left_out):
    action = functools.partial(comes_up_without, left_out)
    action.__doc__ = f"The window comes up without {left_out}, and its queue is used."
    return action


# --- all of them, by their windows

OF_DISK = [reads_a_sector, writes_a_sector, flushes, reads_the_identity, zeroes_a_sector, asks_what_is_unknown,
           reads_past_the_end,
           asks_twice_at_once, asks_in_a_table]
OF_CONSOLE = [puts_a_text_out, puts_a_table_out, types_for_a_chain, types_for_a_table, types_before_a_chain,
              types_nothing,
              writes_an_emergency_byte, is_resized]
OF_BOTH = [reads_registers, reads_by_selectors, acknowledges, wants_no_notification, wants_one_at_a_place,
           notifies_by_other_values,
           stops_and_starts, accepts_again, moves_a_ready_queue, goes_on, comes_up]
WITHOUT = {f"comes_up_without_{left_out}": without(left_out) for left_out in LEFT_OUT}
ACTIONS = {window: {action.__name__: action for action in own + OF_BOTH} | WITHOUT for window,
           own in (("b", OF_DISK), ("c", OF_CONSOLE))}
