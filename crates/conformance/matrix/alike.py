"""Sectors with the same bytes: a write of one is seen in no other, however they came to be alike."""
from .by_hand import written_out
from .follows import Guest, Life, Setup
from .requests import FLUSH, IN, OUT, WRITE_ZEROES, header, segment
from .story import SECTOR, Slot, plain_image

TITLE = "Sectors that are alike"
HOW = ("Sectors of one guest and of two have the same bytes: of the image, zeroed, written, each alone or all at once, read again or not. Then "
       "one is written, zeroed, or written as it is, and all are read.")
COLUMNS = ("How one of them changes", "Over a cache of")
FOLDERS = {"alike": "Sectors with the same bytes, of which one is written."}

# The first sectors of the image are zeros, and two more are alike.
IMAGE = bytes(3 * SECTOR) + plain_image(5) + b"\x77" * 2 * SECTOR + bytes(2 * SECTOR)
SLOTS = [Slot(count=6), Slot(start=6, count=6)]
ALIKE = (1, 2, 4)


def stories():
    yield by_hand()
    for turn, capacity in enumerate((1, 2, 3, 5, 12)):
        yield of(turn, capacity)


def by_hand():
    """Sectors 0 and 1 are zeros and read; sector 0 is written, and sector 1 read again."""
    up = "\n".join(f"w 0 b {step} > 0 done - 0 0" for step in
                   ("070 4 00000003", "024 4 00000001", "020 4 00000001", "070 4 0000000b", "038 4 00000004", "080 4 80001000",
                    "090 4 80002000", "0a0 4 80003000", "044 4 00000001", "070 4 0000000f"))
    return written_out("alike/two_sectors_of_zeros_by_hand", "Two sectors of zeros were read; one is written, and the other is zeros.", f"""
        {up}
        mw 0 80001000 00400080000000001000000001000100 > 0 done - 0 0
        mw 0 80001010 00500080000000000102000002000000 > 0 done - 0 0
        mw 0 80001020 00400080000000001002000001000300 > 0 done - 0 0
        mw 0 80001030 00520080000000000100000002000000 > 0 done - 0 0
        mw 0 80002000 000001000000 > 0 done - 0 0
        w 0 b 050 4 00000000 > 0 done - 1 0
        mr 0 80005200 1 > 0 b:00 - 1 0
        mw 0 80004008 01 > 0 done - 1 0
        mw 0 80002002 020000000000 > 0 done - 1 0
        w 0 b 050 4 00000000 > 0 done - 1 0
        mw 0 80004000 010000000000000000000000000000{{00*2}}{{ab*512}} > 0 done - 1 0
        mw 0 80002002 0300000000000200 > 0 done - 1 0
        w 0 b 050 4 00000000 > 0 done - 1 0
        mr 0 80005200 1 > 0 b:00 - 1 0
        mw 0 80004000 000000000000000001 > 0 done - 1 0
        mw 0 80005000 ee > 0 done - 1 0
        mw 0 80002002 04000000000002000000 > 0 done - 1 0
        w 0 b 050 4 00000000 > 0 done - 1 0
        mr 0 80005000 2 > 0 b:0000 - 1 0
        mr 0 800051ff 2 > 0 b:0000 - 1 0
        """, image=bytes(8 * SECTOR))


# --- how sectors come to be alike

def as_they_are(guest, fill):
    """As the image has them."""


def zeroed_at_once(guest, fill):
    guest.request(header(WRITE_ZEROES) + b"".join(segment(sector, 1, guest.turn % 2) for sector in ALIKE))


def zeroed_alone(guest, fill):
    for sector in ALIKE:
        guest.request(header(WRITE_ZEROES) + segment(sector, 1))


def written_alone(guest, fill):
    for sector in ALIKE:
        guest.request(header(OUT, sector) + bytes([fill]) * SECTOR)


def written_at_once(guest, fill):
    guest.request(header(OUT, 1) + bytes([fill]) * 2 * SECTOR)
    guest.request(header(OUT, 4) + bytes([fill]) * SECTOR)


# --- how one changes

def written(guest, fill):
    guest.request(header(OUT, 1) + bytes([fill ^ 0xff]) * SECTOR)


def written_in_its_last_byte(guest, fill):
    guest.request(header(OUT, 2) + bytes([fill]) * (SECTOR - 1) + b"\x99")


def written_as_it_is(guest, fill):
    guest.request(header(OUT, 4) + bytes([fill]) * SECTOR)


def zeroed(guest, fill):
    guest.request(header(WRITE_ZEROES) + segment(2, 1))


def two_written(guest, fill):
    guest.request(header(OUT, 1) + bytes([fill ^ 0x0f]) * SECTOR + bytes([fill ^ 0xf0]) * SECTOR)


HOWS = [as_they_are, zeroed_at_once, zeroed_alone, written_alone, written_at_once]
CHANGES = [written, written_in_its_last_byte, written_as_it_is, zeroed, two_written]


def reads(guest, sectors=(0, 1, 2, 3, 4, 5)):
    for sector in sectors:
        guest.request(header(IN, sector), SECTOR)


def of(turn, capacity):
    def script(life):
        guests = [Guest(life, slot) for slot in range(2)]
        for guest, is_packed in zip(guests, (turn % 2 == 0, turn % 2 == 1)):
            guest.bring_up("b", Setup(True, is_packed, 8, 0))
            guest.acknowledges = False
        for number, how in enumerate(HOWS):
            for other, change in enumerate(CHANGES):
                fill = (0, 0x5a)[other % 2]
                one, beside = guests[::1 if (number + other) % 2 else -1]
                for guest in guests:
                    how(guest, fill)
                reads(beside, ALIKE[::-1])
                reads(one, ALIKE[:2] if other % 2 else ALIKE)
                change(one, fill)
                reads(beside)
                reads(one, (4, 2, 1, 0))
                one.request(header(FLUSH))

    return Life(f"alike/over_a_cache_of_{capacity}", f"Sectors with the same bytes over a cache of {capacity}: one of them changes.", script, SLOTS,
                cache=capacity, image=IMAGE, shows=[("written, zeroed, written as it is", str(capacity))])
