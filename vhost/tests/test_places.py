"""Places of a queue: where SET_VRING_BASE says that it goes on, and what GET_VRING_BASE tells behind that."""
import disks
from front_end import SPOKEN, Feature, Protocol, Request
from program import options_of, over, same
from queues import KINDS

PASSED = (0, 12345, 65535)


def expected_place(kind, queue, passed):
    """What GET_VRING_BASE tells of a queue that passed so many chains, of a packed one so many descriptors."""
    if kind == "split":
        return passed & 0xffff
    at = passed % queue.size | (passed // queue.size % 2 == 0) << 15
    return at | at << 16


@over(*((kind, passed, indirect) for kind in KINDS for passed in PASSED for indirect in (False, True)))
def test_a_queue_goes_on_where_it_stood(make, kind, passed, indirect):
    with make(*options_of(kind)) as program, program.machine(kind, passed, indirect=indirect) as front:
        step = 1 if kind == "split" or indirect else 3
        for turn in range(3):
            for sector in range(5):
                done = front.disk.do(disks.IN, sector + turn, wanted=disks.SECTOR)
                same((done.status, done.length, done.data), (disks.OK, disks.SECTOR + 1, program.bytes(sector + turn)), f"sector {sector + turn}")
            same(front.stop(), expected_place(kind, front.queue, passed + (turn + 1) * 5 * step), f"the place behind turn {turn}")
            front.start(front.queue)


@over(*((kind,) for kind in KINDS))
def test_a_ring_goes_round(make, kind):
    """600 chains pass each position of a ring of 256 twice and more."""
    with make(*options_of(kind)) as program, program.machine(kind, 200) as front:
        for turn in range(600):
            done = front.disk.do(disks.IN, turn % 64, wanted=disks.SECTOR)
            same((done.status, done.data), (disks.OK, program.bytes(turn % 64)), f"request {turn}")
        same(front.stop(), expected_place(kind, front.queue, 200 + 600 * (1 if kind == "split" else 3)), "the place")


@over(*((kind, size) for kind in KINDS for size in (4, 128, 256)))
def test_rings_of_each_size(make, kind, size):
    with make(*options_of(kind)) as program, program.machine(kind) as front:
        front.stop()
        queue = KINDS[kind](front.memory, size=size)
        front.start(queue)
        disk = disks.Disk(queue)
        for turn in range(2 * size):
            same(disk.do(disks.IN, turn, wanted=disks.SECTOR).data, program.bytes(turn), f"request {turn}")


@over(*((kind,) for kind in KINDS))
def test_what_was_on_offer_before_the_start_is_served(make, kind):
    with make(*options_of(kind)) as program, program.machine(kind) as front:
        front.stop()
        name = front.disk.submit(disks.IN, 3, wanted=disks.SECTOR, notify=False)
        front.start(front.queue)
        same(front.disk.result(name).data, program.bytes(3), "sector 3")


@over(*((kind,) for kind in KINDS))
def test_the_place_is_told_behind_a_status_of_0(make, kind):
    """A machine that stops may reset the status first, as QEMU 7.2 does, and then asks for the place: a moved guest goes on there."""
    with make(*options_of(kind)) as program, program.machine(kind, 12345, spoken=[*SPOKEN, Protocol.STATUS]) as front:
        front.disk.do(disks.IN, 1, wanted=disks.SECTOR)
        if front.protocol >> Protocol.STATUS & 1:
            front.tell(Request.SET_STATUS, bytes(8))
        same(front.stop(), expected_place(kind, front.queue, 12345 + (1 if kind == "split" else 3)), "the place")
        front.start(front.queue)
        same(front.disk.do(disks.IN, 2, wanted=disks.SECTOR).data, program.bytes(2), "sector 2")


def test_four_queues_at_once(make):
    with make("--queues=4") as program, program.machine() as front:
        same(front.offered >> Feature.MULTI_QUEUE & 1, 1, "whether MQ is offered")
        drivers = [front.disk]
        for index in range(1, 4):
            queue = KINDS["split"](front.memory, at=0x80000000 + index * 0x300000)
            front.start(queue, index)
            drivers.append(disks.Disk(queue, most=4096))
        names = [(disk, sector, disk.submit(disks.IN, sector, wanted=disks.SECTOR)) for sector in range(12) for disk in drivers]
        for disk, sector, name in names:
            same(disk.result(name).data, program.bytes(sector), f"sector {sector}")
        same([front.stop(index) for index in range(4)], [12] * 4, "the places")
