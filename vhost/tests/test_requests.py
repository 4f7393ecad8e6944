"""Requests of a disk, with what they leave in its file and in the guest's memory."""
import disks
from front_end import Feature
from program import SERIAL, options_of, over, pattern, same
from queues import KINDS

WAYS = [(kind, indirect, options) for kind in KINDS for indirect in (False, True) for options in ((), ("--direct",))]


@over(*WAYS)
def test_data_comes_and_goes(make, kind, indirect, options):
    with make(*options_of(kind), *options) as program, program.machine(kind, indirect=indirect) as front:
        for sector, count, shift in ((0, 1, 0), (5, 8, 0), (17, 3, 1), (100, 128, 511), (2047, 1, 8), (1920, 128, 0)):
            done = front.disk.do(disks.IN, sector, wanted=count * disks.SECTOR, shift=shift)
            same((done.status, done.length), (disks.OK, count * disks.SECTOR + 1), f"the end of IN of {count} sectors at {sector}")
            same(done.data, program.bytes(sector, count), f"IN of {count} sectors at {sector}")
            new = pattern(count, seed=sector + 2)
            before, after = program.bytes(0, sector), program.bytes(sector + count, program.sectors)
            done = front.disk.do(disks.OUT, sector, new, shift=shift)
            same((done.status, done.length), (disks.OK, 1), f"the end of OUT of {count} sectors at {sector}")
            same(program.bytes(sector, count), new, f"OUT of {count} sectors at {sector}")
            same((program.bytes(0, sector), program.bytes(sector + count, program.sectors)), (before, after), "the other sectors")


@over(*WAYS)
def test_other_requests(make, kind, indirect, options):
    with make(*options_of(kind), *options, f"--serial={SERIAL}") as program, program.machine(kind, indirect=indirect) as front:
        done = front.disk.do(disks.GET_ID, wanted=20)
        same((done.status, done.length, done.data), (disks.OK, 21, SERIAL.encode().ljust(20, b"\0")), "the identity")
        done = front.disk.do(disks.FLUSH)
        same((done.status, done.length), (disks.OK, 1), "a flush")
        whole = program.bytes(0, program.sectors)
        done = front.disk.do(disks.WRITE_ZEROES, data=disks.segments((3, 4, 0), (40, 1, 0)))
        same((done.status, done.length), (disks.OK, 1), "zeroes")
        left = bytearray(whole)
        for first, count in ((3, 4), (40, 1)):
            left[first * disks.SECTOR:(first + count) * disks.SECTOR] = bytes(count * disks.SECTOR)
        same(program.bytes(0, program.sectors) == left, True, "whether these sectors alone are zeros")


@over(*((kind,) for kind in KINDS))
def test_what_is_refused_changes_nothing(make, kind):
    with make(*options_of(kind)) as program, program.machine(kind) as front:
        whole, last = program.bytes(0, program.sectors), program.sectors
        for what, status, asked in (
                ("a read behind the end", disks.IOERR, dict(kind=disks.IN, sector=last, wanted=disks.SECTOR)),
                ("a read over the end", disks.IOERR, dict(kind=disks.IN, sector=last - 1, wanted=2 * disks.SECTOR)),
                ("a read at 2^64 - 1", disks.IOERR, dict(kind=disks.IN, sector=(1 << 64) - 1, wanted=2 * disks.SECTOR)),
                ("a read whose bytes wrap", disks.IOERR, dict(kind=disks.IN, sector=1 << 55, wanted=disks.SECTOR)),
                ("a write behind the end", disks.IOERR, dict(kind=disks.OUT, sector=last, data=bytes(disks.SECTOR))),
                ("a write over the end", disks.IOERR, dict(kind=disks.OUT, sector=last - 1, data=bytes(2 * disks.SECTOR))),
                ("a write of 100 bytes", disks.IOERR, dict(kind=disks.OUT, sector=0, data=bytes(100))),
                ("zeroes behind the end", disks.IOERR, dict(kind=disks.WRITE_ZEROES, data=disks.segments((last, 1, 0)))),
                ("zeroes with unknown flags", disks.UNSUPP, dict(kind=disks.WRITE_ZEROES, data=disks.segments((0, 1, 2)))),
                ("an unknown type", disks.UNSUPP, dict(kind=99, data=bytes(disks.SECTOR)))):
            done = front.disk.result(front.disk.submit(**asked))
            # the first writable bytes that were written all (2.7.8.2): the status alone, where no room is before it
            same((done.status, done.length), (status, 0 if "wanted" in asked else 1), what)
            same(done.data, bytes([disks.UNTOUCHED]) * len(done.data), f"the room of {what}")
        same(program.bytes(0, program.sectors) == whole, True, "whether the file is as it was")


@over(*((kind,) for kind in KINDS))
def test_a_read_only_disk(make, kind):
    with make(*options_of(kind), "--read-only") as program, program.machine(kind, wanted=[Feature.PROTOCOL, Feature.VERSION_1, Feature.READ_ONLY]) as front:
        same(front.offered >> Feature.READ_ONLY & 1, 1, "whether RO is offered")
        whole = program.bytes(0, program.sectors)
        same(front.disk.do(disks.OUT, 0, bytes(disks.SECTOR)).status, disks.IOERR, "a write")
        same(front.disk.do(disks.IN, 9, wanted=disks.SECTOR).data, program.bytes(9), "a read")
        same(program.bytes(0, program.sectors) == whole, True, "whether the file is as it was")


@over(*((kind, options) for kind in KINDS for options in ((), ("--direct",), ("--depth=1",))))
def test_many_at_once(make, kind, options):
    with make(*options_of(kind), *options) as program, program.machine(kind, most=8192) as front:
        new = {sector: pattern(2, seed=sector + 9) for sector in range(0, 120, 2)}
        names = [front.disk.submit(disks.OUT, sector, data) for sector, data in new.items()]
        same([front.disk.result(name).status for name in names], [disks.OK] * len(names), "the statuses of writes")
        names = {sector: front.disk.submit(disks.IN, sector, wanted=2 * disks.SECTOR) for sector in new}
        for sector, name in names.items():
            same(front.disk.result(name).data, new[sector], f"sector {sector}")
