//! A guest that runs on, whose memory other threads write while it is served. What is expected is of VIRTIO 1.2.

use kalyubos::{
    Budget, CreateError, Device, Error, FaultKind, GuestConfig, Interrupts, Kind, MemoryError,
    Outcome, Pending, Region, Run, RunningGuest, SharedMemory, Slot, Window,
};
use std::num::NonZeroU32;
use std::ptr::NonNull;
use std::sync::atomic::{AtomicBool, AtomicU64, Ordering};
use std::sync::Arc;
use std::thread;

/// The first addresses of its two regions.
const LOW: u64 = 0x8000_0000;
const HIGH: u64 = 0x9000_0000;

/// Its queues, each with its available ring and its used ring behind the table (2.7).
const DISK: u64 = LOW + 0x1000;
const RECEIVE: u64 = LOW + 0x2000;
const TRANSMIT: u64 = LOW + 0x3000;
const AVAILABLE: u64 = 0x400;
const USED: u64 = 0x800;

/// A request's header and its status, a line, and where typed bytes go.
const HEADER: u64 = LOW + 0x4000;
const REQUEST_STATUS: u64 = LOW + 0x4010;
const LINE: u64 = LOW + 0x4100;
const TYPED: u64 = LOW + 0x4203;

/// A request's data: two buffers that begin and end within words.
const DATA: [Run; 2] = [
    Run {
        at: HIGH + 3,
        len: 200,
    },
    Run {
        at: HIGH + 261,
        len: 312,
    },
];

/// Bits of a descriptor (2.7.5).
const NEXT: u16 = 1;
const WRITE: u16 = 2;

/// Registers (4.2.2).
const NOTIFY: u16 = 0x050;
const INTERRUPT_ACK: u16 = 0x064;
const STATUS: u16 = 0x070;

fn slot() -> Slot {
    Slot::hosted(LOW, 0x1_0000, 8)
        .with_region(HIGH, 0x1000)
        .with_depth(2)
}

fn guest_of(slot: &Slot) -> RunningGuest {
    RunningGuest::create(&GuestConfig::new(slot)).expect("a guest")
}

/// Brings a window up to its queues, with VIRTIO_F_VERSION_1 alone (3.1.1).
fn begin(guest: &mut RunningGuest, window: Window) {
    for (offset, value) in [(STATUS, 3), (0x024, 1), (0x020, 1), (STATUS, 11)] {
        let pending = guest.write(window, offset, 4, value);
        assert_eq!(pending, Ok(Pending::default()));
    }
}

/// Makes a queue of four ready.
fn queue(guest: &mut RunningGuest, window: Window, number: u32, at: u64) {
    for (offset, value) in [
        (0x030, number),
        (0x038, 4),
        (0x080, at as u32),
        (0x090, (at + AVAILABLE) as u32),
        (0x0a0, (at + USED) as u32),
        (0x044, 1),
    ] {
        let pending = guest.write(window, offset, 4, value);
        assert_eq!(pending, Ok(Pending::default()));
    }
}

fn go_live(guest: &mut RunningGuest, window: Window) {
    let pending = guest.write(window, STATUS, 4, 15);
    assert_eq!(pending, Ok(Pending::default()));
}

/// Brings up the disk with its queue, and the console with its two.
fn bring_up(guest: &mut RunningGuest) {
    begin(guest, Window::Block);
    queue(guest, Window::Block, 0, DISK);
    go_live(guest, Window::Block);
    begin(guest, Window::Console);
    queue(guest, Window::Console, 0, RECEIVE);
    queue(guest, Window::Console, 1, TRANSMIT);
    go_live(guest, Window::Console);
}

/// Stores a chain of descriptors from 0 on, each as its two words.
fn describe(memory: &SharedMemory, table: u64, chain: &[(u64, u32, u16)]) {
    let words = memory.words(table).unwrap();
    for (index, (addr, len, flags)) in (0..).zip(chain) {
        let [low, high] = [2 * index, 2 * index + 1].map(|place| &words[place]);
        let next = index as u64 + 1;
        low.store(*addr, Ordering::Release);
        let rest = u64::from(*len) | u64::from(*flags) << 32 | next << 48;
        high.store(rest, Ordering::Release);
    }
}

/// Puts the chain of descriptor 0 on offer, so that as many were as `idx` says. All entries of the ring are 0.
fn offer(memory: &SharedMemory, table: u64, idx: u16) {
    let at = table + AVAILABLE + 2;
    memory.write(at, &idx.to_le_bytes()).unwrap();
}

fn bytes<const LEN: usize>(memory: &SharedMemory, at: u64) -> [u8; LEN] {
    let mut seen = [0; LEN];
    memory.read(at, &mut seen).unwrap();
    seen
}

/// The used idx of a queue, and the id and the length of the entry before it (2.7.8).
fn used(memory: &SharedMemory, table: u64) -> (u16, u32, u32) {
    let idx = u16::from_le_bytes(bytes(memory, table + USED + 2));
    let entry = table + USED + 4 + 8 * u64::from(idx.wrapping_sub(1) % 4);
    let [id, len] = [entry, entry + 4].map(|at| u32::from_le_bytes(bytes(memory, at)));
    (idx, id, len)
}

/// Stores a request of a type for a sector, over the two buffers: the device writes these if `flags` say so.
fn request(memory: &SharedMemory, kind: u64, sector: u64, flags: u16) {
    let header = memory.words(HEADER).unwrap();
    header[0].store(kind, Ordering::Release);
    header[1].store(sector, Ordering::Release);
    let [first, second] = DATA.map(|run| (run.at, run.len as u32, flags | NEXT));
    let chain = [
        (HEADER, 16, NEXT),
        first,
        second,
        (REQUEST_STATUS, 1, WRITE),
    ];
    describe(memory, DISK, &chain);
}

/// What a thread of the host does with a read: it fills the runs.
fn fill(memory: &SharedMemory, runs: &[Run], byte: u8) {
    for run in runs {
        memory.write(run.at, &vec![byte; run.len as usize]).unwrap();
    }
}

/// Three bytes each beside what devices and the host write, in the same words: behind the status, and around the data.
const BESIDE: [u64; 4] = [REQUEST_STATUS + 1, HIGH, HIGH + 203, HIGH + 258];

/// Writes numbers there until it is told to stop, and tells the last. Each stays until the next.
fn write_beside(memory: &SharedMemory, stop: &AtomicBool) -> [u8; 3] {
    let mut last = [0; 3];
    for turn in 1u32.. {
        last.copy_from_slice(&turn.to_le_bytes()[..3]);
        for place in BESIDE {
            memory.write(place, &last).unwrap();
            assert_eq!(bytes(memory, place), last);
        }
        if stop.load(Ordering::Relaxed) {
            break;
        }
    }
    last
}

/// Reads sector 1 as the `idx`th request, and finds this byte. The host's thread moves it during a call.
fn read_sector(guest: &mut RunningGuest, idx: u16, byte: u8) {
    let memory = guest.memory().clone();
    memory.write(REQUEST_STATUS, &[0xff]).unwrap();
    offer(&memory, DISK, idx);
    let pending = guest.write(Window::Block, NOTIFY, 4, 0).unwrap();
    assert!(pending.io && !pending.more && pending.interrupts.block == 0);
    let tag = guest.in_flight().unwrap().first().expect("a tag");
    let asked = guest.operation(tag).unwrap().expect("an operation");
    let told = (asked.kind, asked.start, asked.len, asked.stable);
    assert_eq!(told, (Kind::In, 512, 512, false));
    assert_eq!(*asked.runs, DATA);

    thread::scope(|threads| {
        threads.spawn(|| fill(&memory, &asked.runs, byte));
        assert_eq!(guest.read(Window::Block, 0x008, 4), Ok(2)); // DeviceID
    });
    let pending = guest.complete(tag, Outcome::Done).unwrap();
    assert!(!pending.io && pending.interrupts.block == 1);
    assert_eq!(guest.operation(tag), Ok(None));
    assert_eq!(used(&memory, DISK), (idx, 0, 513)); // the data and the status
    assert_eq!(bytes(&memory, REQUEST_STATUS), [0]);
    assert_eq!(bytes(&memory, DATA[0].at), [byte; 200]);
    assert_eq!(bytes(&memory, DATA[1].at), [byte; 312]);
    let pending = guest.write(Window::Block, INTERRUPT_ACK, 4, 1).unwrap();
    assert_eq!(pending.interrupts.block, 0);
}

/// Its next chain is number 65535 of the ring, behind which both indices are 0 (2.7.6, 2.7.8).
#[test]
fn a_queue_goes_on_where_another_device_left_it() {
    let mut guest = guest_of(&slot());
    let memory = guest.memory().clone();
    begin(&mut guest, Window::Block);
    assert_eq!(guest.place(Window::Block, 0), Err(Error::Idle));
    queue(&mut guest, Window::Block, 0, DISK);
    go_live(&mut guest, Window::Block);
    assert_eq!(guest.place(Window::Block, 0), Ok(0));
    assert_eq!(guest.set_place(Window::Block, 0, 65535), Ok(()));
    assert_eq!(guest.place(Window::Block, 0), Ok(65535));
    request(&memory, 0, 1, WRITE);
    offer(&memory, DISK, 0);
    let pending = guest.write(Window::Block, NOTIFY, 4, 0).unwrap();
    assert!(pending.io);
    assert_eq!(guest.set_place(Window::Block, 0, 5), Err(Error::Busy));
    let tag = guest.in_flight().unwrap().first().expect("a tag");
    guest.complete(tag, Outcome::Done).unwrap();
    assert_eq!(used(&memory, DISK), (0, 0, 513));
    assert_eq!(guest.place(Window::Block, 0), Ok(0));
    assert_eq!(guest.set_place(Window::Block, 1, 0), Err(Error::Idle));
}

/// What its driver laid out is copied to the other memory, and a request is served there.
#[test]
fn a_guest_goes_on_in_other_memory() {
    let words: Vec<_> = (0..0x2200).map(|_| AtomicU64::new(0)).collect();
    let lent = [&words[..0x2000], &words[0x2000..]].map(NonNull::from);
    let slot = slot();
    let mut guest = guest_of(&slot);
    bring_up(&mut guest);
    request(guest.memory(), 0, 1, WRITE);
    read_sector(&mut guest, 1, 5);
    let before = guest.memory().clone();
    let (base, len) = (HIGH, 0x1_0000);
    // SAFETY: the words stay until the guest is dropped, and are lent to no other.
    let mut set = |regions: &[Region], count| unsafe { guest.set_lent(regions, &lent[..count]) };
    assert_eq!(
        set(&[Region { base, len }], 1),
        Err(MemoryError::QueueOutside)
    );
    assert_eq!(set(slot.regions(), 1), Err(MemoryError::BadLoan));
    assert_eq!(set(&[], 0), Err(MemoryError::NoRegions));
    assert_eq!(set(slot.regions(), 2), Ok(()));
    let mut all = vec![0; 0x1_0000];
    before.read(LOW, &mut all).unwrap();
    guest.memory().write(LOW, &all).unwrap();
    read_sector(&mut guest, 2, 6);
    assert_eq!(bytes(&before, DATA[0].at), [5; 200]);
}

#[test]
fn requests_are_served_while_others_write() {
    let mut guest = guest_of(&slot());
    bring_up(&mut guest);
    request(guest.memory(), 0, 1, WRITE);
    let (memory, stop) = (guest.memory().clone(), Arc::new(AtomicBool::new(false)));
    let told = Arc::clone(&stop);
    let beside = thread::spawn(move || write_beside(&memory, &told));
    for idx in 1..=500 {
        read_sector(&mut guest, idx, idx as u8);
    }
    stop.store(true, Ordering::Relaxed);
    let last = beside.join().unwrap();
    for place in BESIDE {
        assert_eq!(bytes(guest.memory(), place), last);
    }
    assert_eq!(bytes(guest.memory(), REQUEST_STATUS), [0]);
}

/// What the guest writes over a request that began changes nothing of it. A write's bytes are those that stand when the host reads.
#[test]
fn an_operation_stays_as_it_was_read() {
    let mut guest = guest_of(&slot());
    let memory = guest.memory().clone();
    bring_up(&mut guest);
    request(&memory, 1, 3, 0);
    offer(&memory, DISK, 1);
    assert!(guest.write(Window::Block, NOTIFY, 4, 0).unwrap().io);
    let asked = guest.operation(0).unwrap().expect("an operation");
    let told = (asked.kind, asked.start, asked.len, asked.stable);
    assert_eq!(told, (Kind::Out, 3 * 512, 512, true)); // without a cache that could be flushed (5.2.6.2)
    memory.write(DISK, &[0xff; 64]).unwrap();
    memory.write(HEADER, &[0xff; 16]).unwrap();
    assert_eq!(guest.operation(0), Ok(Some(asked)));

    let reset = guest.write(Window::Block, STATUS, 4, 0);
    assert_eq!(reset, Err(Error::Busy));
    let pending = guest.complete(0, Outcome::Failed).unwrap();
    assert_eq!(pending.interrupts, guest.interrupts().unwrap());
    assert_eq!(pending.interrupts.block, 1);
    assert_eq!(used(&memory, DISK), (1, 0, 1));
    assert_eq!(bytes(&memory, REQUEST_STATUS), [1]); // VIRTIO_BLK_S_IOERR
    let reset = guest.write(Window::Block, STATUS, 4, 0);
    assert_eq!(reset, Ok(Pending::default()));
}

#[test]
fn a_line_is_put_out_and_one_is_typed() {
    let mut guest = guest_of(&slot());
    let memory = guest.memory().clone();
    bring_up(&mut guest);
    memory.write(LINE, b"what time is it?\n").unwrap();
    describe(&memory, TRANSMIT, &[(LINE, 10, NEXT), (LINE + 10, 7, 0)]);
    offer(&memory, TRANSMIT, 1);
    let pending = guest.write(Window::Console, NOTIFY, 4, 1).unwrap();
    let of_console = Interrupts {
        block: 0,
        console: 1,
    };
    assert_eq!((pending.interrupts, pending.output), (of_console, 17));
    assert_eq!(used(&memory, TRANSMIT), (1, 0, 0));
    let mut out = [0; 64];
    assert_eq!(guest.take_output(&mut out), Ok(17));
    assert_eq!(&out[..17], b"what time is it?\n");
    let pending = guest.write(Window::Console, INTERRUPT_ACK, 4, 1);
    assert_eq!(pending, Ok(Pending::default()));

    describe(&memory, RECEIVE, &[(TYPED, 16, WRITE)]);
    offer(&memory, RECEIVE, 1);
    let pending = guest.write(Window::Console, NOTIFY, 4, 0);
    assert_eq!(pending, Ok(Pending::default()));
    let (took, pending) = guest.input(b"ten\n").unwrap();
    assert_eq!((took, pending.interrupts), (4, of_console));
    assert_eq!(used(&memory, RECEIVE), (1, 0, 4));
    assert_eq!(bytes(&memory, TYPED - 3), *b"\0\0\0ten\n\0");

    let pending = guest.resize(100, 40).unwrap();
    assert_eq!(pending.interrupts.console, 3); // and the configuration changed
    assert_eq!(guest.read(Window::Console, 0x100, 2), Ok(100));
    assert_eq!(guest.read(Window::Console, 0x102, 2), Ok(40));
}

/// Offers two chains of a byte to a console of this outlet, whose calls have this budget, and notifies.
fn two_lines(budget: Budget, outlet: u32) -> (RunningGuest, Result<Pending, Error>) {
    let slot = slot().with_outlet(outlet);
    let config = GuestConfig::new(&slot).with_budget(budget);
    let mut guest = RunningGuest::create(&config).unwrap();
    bring_up(&mut guest);
    guest.memory().write(LINE, b"a").unwrap();
    describe(guest.memory(), TRANSMIT, &[(LINE, 1, 0)]);
    offer(guest.memory(), TRANSMIT, 2);
    let answer = guest.write(Window::Console, NOTIFY, 4, 1);
    (guest, answer)
}

/// Goes on behind an answer until nothing is due, and tells what then waits.
fn settled(guest: &mut RunningGuest, answer: Result<Pending, Error>) -> Pending {
    let mut pending = answer.unwrap();
    while pending.more {
        pending = guest.go_on().unwrap();
    }
    pending
}

/// What is left of a budget is due, and no other call is refused for it.
#[test]
fn a_queue_that_is_due_is_served_by_go_on() {
    let budget = Budget {
        chains: NonZeroU32::new(1),
        bytes: None,
    };
    let (mut guest, answer) = two_lines(budget, 64);
    let pending = answer.unwrap();
    assert_eq!((pending.more, pending.output), (true, 1));
    assert_eq!(guest.read(Window::Console, STATUS, 4), Ok(15));
    assert_eq!(guest.input(b"x").unwrap().0, 1);
    let pending = settled(&mut guest, Ok(pending));
    assert_eq!(pending.output, 2);
    assert_eq!(used(guest.memory(), TRANSMIT).0, 2);
    assert_eq!(guest.go_on(), Ok(pending));
}

#[test]
fn output_waits_for_room() {
    let (mut guest, answer) = two_lines(Budget::default(), 1);
    let told = Pending {
        interrupts: Interrupts {
            block: 0,
            console: 1,
        },
        output: 1,
        ..Pending::default()
    };
    assert_eq!(answer, Err(Error::NoRoom(told)));
    let mut out = [0; 4];
    assert_eq!(guest.take_output(&mut out), Ok(1));
    let answer = guest.write(Window::Console, NOTIFY, 4, 1);
    assert_eq!(settled(&mut guest, answer), told);
    assert_eq!(guest.take_output(&mut out), Ok(1));
    assert_eq!(guest.take_output(&mut out), Ok(0));
}

#[test]
fn a_disk_is_held_and_dropped() {
    let mut guest = guest_of(&slot());
    let memory = guest.memory().clone();
    bring_up(&mut guest);
    request(&memory, 0, 1, WRITE);
    offer(&memory, DISK, 1);
    assert_eq!(guest.release(), Err(Error::Idle));
    assert_eq!(guest.drop_operations(), Err(Error::Idle));
    assert_eq!(guest.complete(0, Outcome::Done), Err(Error::Idle));
    assert_eq!(guest.hold(), Ok(Pending::default()));
    assert_eq!(guest.hold(), Err(Error::Idle));
    let pending = guest.write(Window::Block, NOTIFY, 4, 0);
    assert_eq!(pending, Ok(Pending::default()));
    assert!(guest.in_flight().unwrap().is_empty());
    assert!(guest.release().unwrap().io);
    assert_eq!(guest.in_flight().unwrap().len(), 1);

    let pending = guest.drop_operations().unwrap();
    assert_eq!(pending.interrupts.block, 2); // the window asks for a reset (2.1.2)
    assert!(guest.in_flight().unwrap().is_empty());
    assert_eq!(guest.read(Window::Block, STATUS, 4), Ok(15 | 64));
    assert_eq!(guest.last_fault(Window::Block), Ok(None));
    assert_eq!(used(&memory, DISK).0, 0);
}

#[test]
fn a_fault_is_told_without_a_head() {
    let mut guest = guest_of(&slot());
    let memory = guest.memory().clone();
    bring_up(&mut guest);
    memory.write(DISK + AVAILABLE + 4, &[4, 0]).unwrap(); // a head outside the table
    offer(&memory, DISK, 1);
    let pending = guest.write(Window::Block, NOTIFY, 4, 0).unwrap();
    assert_eq!((pending.io, pending.interrupts.block), (false, 2));
    let fault = guest.last_fault(Window::Block).unwrap().expect("a fault");
    let told = (fault.kind, fault.queue, fault.head, fault.place);
    assert_eq!(told, (FaultKind::Index, 0, None, 0));
    assert_eq!(guest.last_fault(Window::Console), Ok(None));
}

#[test]
fn a_fault_behind_a_request_in_flight_is_told_at_its_place() {
    let mut guest = guest_of(&slot());
    let memory = guest.memory().clone();
    bring_up(&mut guest);
    request(&memory, 0, 1, WRITE);
    memory.write(DISK + AVAILABLE + 4, &[0, 0, 4, 0]).unwrap(); // the second head lies outside the table
    offer(&memory, DISK, 2);
    assert!(guest.write(Window::Block, NOTIFY, 4, 0).unwrap().io);
    assert_eq!(guest.in_flight().unwrap().len(), 1);
    let fault = guest.last_fault(Window::Block).unwrap().expect("a fault");
    let told = (fault.kind, fault.queue, fault.head, fault.place);
    assert_eq!(told, (FaultKind::Index, 0, None, 1));
}

#[test]
fn there_is_no_further_device() {
    let mut guest = guest_of(&slot());
    for window in [Window::Device(0), Window::Device(255)] {
        assert_eq!(guest.read(window, 0, 4), Err(Error::BadDevice));
        assert_eq!(guest.write(window, STATUS, 4, 0), Err(Error::BadDevice));
        assert_eq!(guest.last_fault(window), Err(Error::BadDevice));
    }
}

/// A guest with a card, whose queue of this number has a chain of this buffer on offer, of 26 bytes.
fn guest_with_card(queue_number: u32, flags: u16) -> RunningGuest {
    let card = Device::Network {
        mac: [2, 0, 0, 0, 0, 1],
        mtu: 1500,
    };
    let mut guest = guest_of(&slot().with_device(Device::Entropy).with_device(card));
    let memory = guest.memory().clone();
    begin(&mut guest, Window::Device(1));
    queue(&mut guest, Window::Device(1), queue_number, RECEIVE);
    go_live(&mut guest, Window::Device(1));
    describe(&memory, RECEIVE, &[(LINE, 26, flags)]);
    offer(&memory, RECEIVE, 1);
    guest
}

#[test]
fn a_frame_is_received_behind_its_header() {
    let mut guest = guest_with_card(0, WRITE);
    let frame = [7; 14];
    let handed = guest.receive(1, &frame).unwrap();
    assert!(handed.taken && !handed.more);
    assert_eq!(used(guest.memory(), RECEIVE), (1, 0, 26));
    assert_eq!(bytes(guest.memory(), LINE + 12), frame);
    assert_eq!(guest.device_pending(1).unwrap().interrupt, 1);
    guest.set_link(1, false).unwrap();
    assert_eq!(guest.device_pending(1).unwrap().interrupt, 3);
    assert_eq!(guest.receive(1, &[]), Err(Error::BadDevice));
}

#[test]
fn a_frame_that_is_sent_is_taken() {
    let mut guest = guest_with_card(1, 0);
    guest.memory().write(LINE + 12, &[9; 14]).unwrap();
    let pending = guest.write(Window::Device(1), NOTIFY, 4, 1).unwrap();
    assert_eq!(pending, Pending::default());
    assert_eq!(guest.device_pending(1).unwrap().frame, Some(14));
    let mut into = [0; 14];
    assert_eq!(
        guest.take_frame(1, &mut into[..13]),
        Err(Error::ShortBuffer)
    );
    assert_eq!(guest.take_frame(1, &mut into).unwrap().taken, Some(14));
    assert_eq!(into, [9; 14]);
    assert_eq!(guest.take_frame(1, &mut into).unwrap().taken, None);
    assert_eq!(guest.resize_device(1, 80, 25), Err(Error::BadDevice));
}

fn further_disk() -> Device {
    Device::Disk {
        sectors: 8,
        read_only: false,
        identity: Default::default(),
        depth: 1,
    }
}

#[test]
fn each_refusal_of_create_is_told() {
    let refused = |slot: Slot| RunningGuest::create(&GuestConfig::new(&slot)).unwrap_err();
    let of_an_image = refused(Slot::new(LOW, 0x1000, 0..8));
    assert_eq!(of_an_image, CreateError::NotHosted);
    assert_eq!(
        of_an_image.to_string(),
        "the host serves the disk of a guest that runs on"
    );
    for (slot, why) in [
        (slot().with_device(further_disk()), CreateError::BadDevice),
        (slot().with_outlet((1 << 24) + 1), CreateError::BadOutlet),
        (slot().with_depth(65), CreateError::BadDepth),
        (
            slot().with_region(LOW, 0x1000),
            CreateError::RegionsNotApart,
        ),
        (
            slot().with_region(HIGH + 0x2000, 0),
            CreateError::BadMemorySize,
        ),
        (
            slot().with_region(HIGH + 0x2000, 8),
            CreateError::BadMemorySize,
        ),
        (
            slot().with_region(HIGH + 0x2008, 0x1000),
            CreateError::BadMemoryBase,
        ),
        (
            Slot::hosted(LOW, 0x1000, 1 << 55),
            CreateError::ExtentOutside,
        ),
        (Slot::hosted(LOW, u64::MAX, 1), CreateError::NoMemory),
    ] {
        assert_eq!(refused(slot), why);
    }
    let many = (0..8).fold(slot(), |slot, place| {
        slot.with_region(HIGH + 0x2000 * (place + 1), 0x1000)
    });
    assert_eq!(refused(many), CreateError::TooManyRegions);
}

/// Each word's bytes are of eight threads, and none loses another's.
#[test]
fn threads_write_beside_each_other() {
    let guest = guest_of(&slot());
    let memory = guest.memory();
    thread::scope(|threads| {
        for place in 0..8 {
            threads.spawn(move || {
                for turn in 1..=100 {
                    for at in [LOW, HIGH + 0xff8].map(|at| at + place) {
                        memory.write(at, &[turn]).unwrap();
                        assert_eq!(bytes(memory, at), [turn]);
                    }
                }
            });
        }
    });
    assert_eq!(bytes(memory, LOW), [100; 8]);
    assert_eq!(bytes(memory, HIGH + 0xff8), [100; 8]);
}

#[test]
fn memory_has_two_ends() {
    let guest = guest_of(&slot());
    let memory = guest.memory();
    let text: Vec<u8> = (1..=21).collect();
    for at in [HIGH, HIGH + 5, HIGH + 0xfeb] {
        memory.write(HIGH, &[0; 0x1000]).unwrap();
        memory.write(at, &text).unwrap();
        let mut expected = [0; 0x1000];
        expected[(at - HIGH) as usize..][..21].copy_from_slice(&text);
        assert_eq!(bytes(memory, HIGH), expected);
    }
    for at in [HIGH - 1, HIGH + 0xfec, u64::MAX, 0] {
        assert_eq!(memory.write(at, &text), Err(Error::BadRange));
        assert_eq!(memory.read(at, &mut [0; 21]), Err(Error::BadRange));
    }
    // An empty range lies inside up to the memory's end.
    assert_eq!(memory.write(HIGH + 0x1000, &[]), Ok(()));
    assert_eq!(memory.read(HIGH + 0xfff, &mut []), Ok(()));
    assert_eq!(memory.write(HIGH + 0x1001, &[]), Err(Error::BadRange));
}

#[test]
fn words_begin_at_a_page() {
    let guest = guest_of(&slot());
    let memory = guest.memory();
    for (at, len) in [(LOW, 0x1_0000), (HIGH, 0x1000)] {
        let words = memory.words(at).unwrap();
        assert_eq!((words.len(), words.as_ptr() as usize % 4096), (len / 8, 0));
    }
    assert_eq!(memory.words(HIGH + 0xff8).unwrap().len(), 1);
    for at in [HIGH + 0x1000, HIGH + 4, LOW - 8] {
        assert_eq!(memory.words(at).unwrap_err(), Error::BadRange);
    }
    let regions =
        "[Region { base: 2147483648, len: 65536 }, Region { base: 2415919104, len: 4096 }]";
    assert_eq!(format!("{memory:?}"), regions);
}

/// A guest is made on one thread and ended on another, and a clone of its memory stays.
#[test]
fn memory_outlives_its_guest() {
    let mut guest = guest_of(&slot());
    let memory = guest.memory().clone();
    thread::spawn(move || bring_up(&mut guest)).join().unwrap();
    memory.write(HIGH, b"here").unwrap();
    assert_eq!(bytes(&memory, HIGH), *b"here");
}
