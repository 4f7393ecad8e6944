"""The first scenario of each table of histories: lines and records worked out by hand, which the model must give too."""
from .follows import Life, Wide
from .story import Slot, plain_image

BEGINS = """
w 0 W 070 4 00000003 > 0 done - 0 0
w 0 W 024 4 00000001 > 0 done - 0 0
w 0 W 020 4 00000001 > 0 done - 0 0
w 0 W 070 4 0000000b > 0 done - 0 0
"""
FIRST_QUEUE = """
w 0 W 038 4 00000004 > 0 done - 0 0
w 0 W 080 4 80001000 > 0 done - 0 0
w 0 W 090 4 80002000 > 0 done - 0 0
w 0 W 0a0 4 80003000 > 0 done - 0 0
w 0 W 044 4 00000001 > 0 done - 0 0
"""
GOES = """
w 0 W 070 4 0000000f > 0 done - 0 0
"""

RESET = """
w 0 b 014 4 00000001 > 0 done - 0 0
mw 0 80002002 0500 > 0 done - 0 0
w 0 b 050 4 00000000 > 0 done - 2 0
r 0 b 070 4 > 0 v:0000004f - 2 0
w 0 b 030 4 00000007 > 0 done - 2 0
w 0 b 070 4 00000000 > 0 done - 0 0
r 0 b 070 4 > 0 v:00000000 - 0 0
r 0 b 010 4 > 0 v:30004244 - 0 0
r 0 b 034 4 > 0 v:00000100 - 0 0
r 0 b 044 4 > 0 v:00000000 - 0 0
w 0 b 070 4 0000000b > 0 done - 0 0
r 0 b 070 4 > 0 v:00000003 - 0 0
w 0 b 020 4 00000001 > 0 done - 0 0
w 0 b 070 4 0000000b > 0 done - 0 0
r 0 b 070 4 > 0 v:00000003 - 0 0
w 0 b 020 4 00000000 > 0 done - 0 0
w 0 b 024 4 00000001 > 0 done - 0 0
w 0 b 020 4 00000001 > 0 done - 0 0
w 0 b 070 4 0000000b > 0 done - 0 0
r 0 b 070 4 > 0 v:0000000b - 0 0
w 0 b 044 4 00000001 > 0 done - 0 0
r 0 b 044 4 > 0 v:00000000 - 0 0
w 0 b 038 4 00000004 > 0 done - 0 0
w 0 b 044 4 00000001 > 0 done - 0 0
r 0 b 044 4 > 0 v:00000000 - 0 0
"""

BETWEEN = """
w 0 b 014 4 00000001 > 0 done - 0 0
w 0 c 014 4 00000000 > 0 done - 0 0
r 0 b 010 4 > 0 v:00000045 - 0 0
w 0 b 024 4 00000001 > 0 done - 0 0
w 0 c 024 4 00000000 > 0 done - 0 0
w 1 b 024 4 00000000 > 1 done - 0 0
w 0 b 020 4 00000001 > 0 done - 0 0
w 0 b 070 4 0000000b > 0 done - 0 0
r 0 b 070 4 > 0 v:0000000b - 0 0
r 0 c 070 4 > 0 v:00000000 - 0 0
w 0 b 030 4 00000001 > 0 done - 0 0
w 0 c 030 4 00000000 > 0 done - 0 0
r 0 b 034 4 > 0 v:00000000 - 0 0
w 1 b 030 4 00000000 > 1 done - 0 0
r 0 b 034 4 > 0 v:00000000 - 0 0
w 0 b 030 1 00 > 0 done - 0 0
r 0 b 034 4 > 0 v:00000000 - 0 0
w 0 b 030 4 00000000 > 0 done - 0 0
r 0 b 034 4 > 0 v:00000100 - 0 0
"""

TWO_QUEUES = """
w 0 c 030 4 00000001 > 0 done - 0 0
w 0 c 038 4 00000008 > 0 done - 0 0
w 0 c 080 4 80004000 > 0 done - 0 0
w 0 c 090 4 80005000 > 0 done - 0 0
w 0 c 0a0 4 80006000 > 0 done - 0 0
w 0 c 044 4 00000001 > 0 done - 0 0
w 0 c 070 4 0000000f > 0 done - 0 0
mw 0 80007000 414243 > 0 done - 0 0
mw 0 80004070 00700080000000000300000000000000 > 0 done - 0 0
mw 0 80005000 000001000700 > 0 done - 0 0
mw 0 80001010 00710080000000000200000002000000 > 0 done - 0 0
mw 0 80002000 010001000100 > 0 done - 0 0
w 0 c 050 4 00000000 > 0 done - 0 0
w 0 c 050 4 00000001 > 0 done 414243 0 1
mr 0 80006000 c > 0 b:000001000700000000000000 - 0 1
mr 0 80003000 4 > 0 b:00000000 - 0 1
w 0 c 064 4 00000001 > 0 done - 0 0
in 0 7a79 > 0 took:2 - 0 0
mr 0 80007100 2 > 0 b:7a79 - 0 0
mr 0 80003000 c > 0 b:000001000100000002000000 - 0 0
"""

WRITTEN_AGAIN = """
w 0 b 038 4 00000002 > 0 done - 0 0
w 0 b 080 4 80004000 > 0 done - 0 0
w 0 b 044 4 00000001 > 0 done - 0 0
mw 0 80001000 00400080000000000100000002000000 > 0 done - 0 0
mw 0 80002000 000001000000 > 0 done - 0 0
w 0 b 050 4 00000000 > 0 done - 1 0
mr 0 80004000 1 > 0 b:01 - 1 0
mr 0 80003000 c > 0 b:000001000000000001000000 - 1 0
w 0 b 064 4 00000001 > 0 done - 0 0
w 0 b 044 4 00000000 > 0 done - 0 0
r 0 b 044 4 > 0 v:00000000 - 0 0
mw 0 80002002 0200 > 0 done - 0 0
w 0 b 050 4 00000000 > 0 done - 0 0
w 0 b 044 4 00000001 > 0 done - 0 0
r 0 b 044 4 > 0 v:00000001 - 0 0
w 0 b 050 4 00000000 > 0 done - 1 0
mr 0 80003000 14 > 0 b:0000020000000000010000000000000001000000 - 1 0
"""

# A block window with FEATURES_OK, a queue 0 of 4 that isn't ready, DeviceFeaturesSel 1 and bit 1 of InterruptStatus; a new console.
SNAPSHOT = ("4b414c5955424f53 01000000 0000008000000000 0000010000000000 0800000000000000 00"
            " 767265706c61792d626c6f636b00000000000000 5000 1900 00"
            " 4442003045000000 0b 0000000001000000 01000000 00000000 00000000 00000000"
            " 04000000 0010008000000000 0020008000000000 0030008000000000 00" + "00" * 29 + "02 00000000"
            " 0500003045000000" + "00" * 88 + "00000000").replace(" ", "")

RESTORED = f"""
st 0 {SNAPSHOT} > 0 done - 2 0
r 0 b 070 4 > 0 v:0000000b - 2 0
r 0 b 010 4 > 0 v:00000045 - 2 0
w 0 b 044 4 00000001 > 0 done - 2 0
r 0 b 044 4 > 0 v:00000001 - 2 0
w 0 b 070 4 00000004 > 0 done - 2 0
r 0 b 070 4 > 0 v:0000000f - 2 0
mw 0 80001000 00400080000000000100000002000000 > 0 done - 2 0
mw 0 80002000 000001000000 > 0 done - 2 0
w 0 b 050 4 00000000 > 0 done - 3 0
mr 0 80003000 c > 0 b:000001000000000001000000 - 3 0
"""

IN_FLIGHT = """
mw 0 80004000 0d0000000000000000000000000000000100000000000000 > 0 done - 0 0
mw 0 80004018 0200000000000000 > 0 done - 0 0
mw 0 80005000 eeeeeeee > 0 done - 0 0
mw 0 80001000 0040008000000000200000000100010000500080000000000400000002000000 > 0 done - 0 0
mw 0 80002000 000001000000 > 0 done - 0 0
w 0 b 050 4 00000000 > 0 done - 0 0 0=zeroes-stable:0:0:200+400
in 0 61 > 0 took:1 - 0 0
mw 0 80002000 0100 > 0 done - 0 0
mr 0 80005000 4 > 0 b:eeeeeeee - 0 0
io 0 0 done > 0 done - 0 0
mr 0 80005000 4 > 0 b:eeeeee00 - 0 0
mr 0 80003000 c > 0 b:000001000000000000000000 - 0 0
"""

# Slot 0 has sector 4 of the image as its sector 1.
BOTH_KINDS = """
mw 1 80004000 04000000000000000000000000000000 > 1 done - 0 0
mw 1 80001000 0040008000000000100000000100010000600080000000000100000002000000 > 1 done - 0 0
mw 1 80002000 000001000000 > 1 done - 0 0
w 1 b 050 4 00000000 > 1 done - 0 0 0=flush:0:0:-
mw 0 80004000 00000000000000000100000000000000 > 0 done - 0 0
mw 0 80001000 0040008000000000100000000100010000500080000000000102000002000000 > 0 done - 0 0
mw 0 80002000 000001000000 > 0 done - 0 0
w 0 b 050 4 00000000 > 0 done - 1 0
mr 0 800051fe 3 > 0 b:141400 - 1 0
mr 0 80003000 c > 0 b:000001000000000001020000 - 1 0
mr 1 80003000 c > 1 b:000000000000000000000000 - 0 0
io 0 0 done > 0 idle - 1 0
io 1 0 failed > 1 done - 1 0
mr 1 80006000 1 > 1 b:01 - 1 0
mr 1 80003000 c > 1 b:000001000000000001000000 - 1 0
r 0 b 060 4 > 0 v:00000001 - 1 0
"""


def first(name, about, text, window="b", slots=(Slot(),), hosted=False, **more):
    """A scenario of these lines; in a hosted trace a record that asks nothing ends in -."""
    rows = [row.replace("W", window).split(" > ") for row in text.split("\n") if row]
    is_hosted = hosted or any(getattr(slot, "disk", "image") != "image" for slot in slots)
    records = [record + " -" if is_hosted and record.count(" ") == 4 else record for _, record in rows]

    def script(life):
        for line, _ in rows:
            life.do(line)

    return Life(name, about, script, slots, worked="\n".join(records), hosted=hosted, **more)


def of_resets():
    return first("resets_work/a_disk_after_a_jump_by_hand",
                 "A disk whose queue jumped is reset: nothing of it is left.",
                 BEGINS + FIRST_QUEUE + GOES + RESET)


def of_between():
    return first("between_writes/selectors_by_hand",
                 "Selectors of the other window and of another slot between a selector and its register.", BETWEEN,
                 slots=[Slot(count=4), Slot(start=4, count=4)], image=plain_image())


def of_two_queues():
    return first("two_queues/sizes_and_flags_by_hand",
                 "A receive queue of 4 that wants no notification, and a transmit queue of 8 that wants them.",
                 BEGINS + FIRST_QUEUE + TWO_QUEUES, "c")


def of_written_again():
    return first("written_again/a_ready_disk_queue_by_hand",
                 "Size, place and QueueReady of a ready queue are written; it is stopped and made ready.",
                 BEGINS + FIRST_QUEUE + GOES + WRITTEN_AGAIN)


def of_restored():
    return first("restored/a_disk_by_hand", "A restored disk whose queue is made ready by QueueReady alone.", RESTORED,
                 slots=[Wide(length=0x10000)])


def of_in_flight():
    return first("in_flight/zeroes_by_hand",
                 "Zeroes with room before their status; the driver's flags change while they are in flight.",
                 BEGINS + FIRST_QUEUE + GOES + IN_FLIGHT, slots=[Wide(length=0x10000)], hosted=True)


def of_slot_1(text):
    return text.replace("w 0 ", "w 1 ").replace("> 0 ", "> 1 ")


def of_both_kinds():
    up = BEGINS + FIRST_QUEUE + GOES
    return first("beside_a_flight/a_flush_by_hand", "A flush of a hosted disk in flight, and a read of a guest on the image.",
                 up + of_slot_1(up) + BOTH_KINDS, slots=[Wide(length=0x10000, start=3), Wide(length=0x10000, disk="host:1")], image=plain_image(12))
