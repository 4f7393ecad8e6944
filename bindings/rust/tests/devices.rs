//! Further devices: an entropy device, a network card, a disk and a console, from their making to what their drivers get.

use kalyubos::{
    Board, Budget, Config, CreateError, Device, DevicePending, Error, Handed, Kind, Outcome,
    RestoreError, Run, Slot, Tags, Window,
};
use std::num::NonZeroU32;

const MEMORY: u64 = 0x8000_0000;
const LEN: u64 = 0x1_0000;
const NOTIFY: u16 = 0x050;
const STATUS: u16 = 0x070;
const CARD: Device = Device::Network {
    mac: [2, 0, 0, 0, 0, 1],
    mtu: 68,
};
const HEADER: usize = 12; // before a frame in a chain (5.1.6)

fn slot() -> Slot {
    Slot::hosted(MEMORY, LEN, 2)
}

fn board_of(devices: &[Device]) -> Board {
    board_within(devices, Budget::default())
}

fn board_within(devices: &[Device], budget: Budget) -> Board {
    let slot = devices
        .iter()
        .fold(slot(), |slot, one| slot.with_device(*one));
    assert_eq!(slot.devices(), devices);
    Board::create(&Config::new(&[slot]).with_budget(budget)).expect("a board")
}

/// All is taken and served.
fn whole<T>(taken: T) -> Result<Handed<T>, Error> {
    Ok(Handed { taken, more: false })
}

/// A driver brings a device's queue of four up, and offers a chain of one buffer at 0x400.
fn offer(board: &mut Board, device: u8, queue: u32, len: u32, flags: u8) {
    let at = MEMORY as u32;
    let memory = board.memory(0, MEMORY).expect("a memory");
    memory[..0x400].fill(0);
    memory[0x100..0x108].copy_from_slice(&(MEMORY + 0x400).to_le_bytes());
    memory[0x108..0x10c].copy_from_slice(&len.to_le_bytes());
    memory[0x10c] = flags;
    memory[0x202] = 1;
    for (offset, value) in [
        (STATUS, 0),
        (STATUS, 1),
        (STATUS, 3),
        (0x024, 1),
        (0x020, 1),
        (STATUS, 11),
        (0x030, queue),
        (0x038, 4),
        (0x080, at + 0x100),
        (0x090, at + 0x200),
        (0x0a0, at + 0x300),
        (0x044, 1),
        (STATUS, 15),
        (NOTIFY, queue),
    ] {
        let window = Window::Device(device);
        let pending = board.write(0, window, offset, 4, value).expect("a store");
        assert!(!pending.more && !pending.io);
    }
}

/// How many chains the queue gave back, and how many bytes the first of them was given.
fn used(board: &mut Board) -> (u8, u8) {
    let memory = board.memory(0, MEMORY).expect("a memory");
    (memory[0x302], memory[0x308])
}

#[test]
fn a_slot_has_up_to_six_devices() {
    let board = board_of(&[Device::Entropy, CARD, CARD, CARD, CARD, Device::Entropy]);
    for (device, id) in [(0, 4), (1, 1), (4, 1), (5, 4)] {
        assert_eq!(board.read(0, Window::Device(device), 0x008, 4), Ok(id));
    }
    for device in [6, 7, 252, 253, 254, 255] {
        let window = Window::Device(device);
        assert_eq!(board.read(0, window, 0x008, 4), Err(Error::BadDevice));
        assert_eq!(board.last_fault(0, window), Err(Error::BadDevice));
        assert_eq!(board.device_pending(0, device), Err(Error::BadDevice));
    }
    assert_eq!(board.device_pending(1, 0), Err(Error::BadSlot));
}

#[test]
fn what_no_slot_has_is_refused() {
    let refused = |slot: Slot| {
        let slots = [slot];
        let config = Config::new(&slots);
        let why = Board::create(&config).unwrap_err();
        let fault = config.judge().unwrap_err();
        assert_eq!((fault.why, fault.slot), (why, Some(0)));
        why
    };
    let short = Device::Network {
        mac: [0; 6],
        mtu: 67,
    };
    let many = (0..7).fold(slot(), |slot, _| slot.with_device(Device::Entropy));
    assert_eq!(refused(slot().with_device(short)), CreateError::BadDevice);
    assert_eq!(refused(many), CreateError::TooManyDevices);
    for (sectors, depth) in [(1 << 55, 1), (1, 65), (1, 256)] {
        let disk = disk_of(sectors, depth);
        assert_eq!(refused(slot().with_device(disk)), CreateError::BadDevice);
    }
    for (start, sectors) in [(0, 0), (3, 1), (0, 4), (u64::MAX, 2), (1, 1)] {
        let slot = Slot::new(MEMORY, LEN, 0..0).with_spare(3);
        let slot = slot.with_device(over_image(1, 2));
        let slot = slot.with_device(over_image(start, sectors));
        assert_eq!(refused(slot), CreateError::BadExtent);
    }
    let hosted = slot().with_spare(3).with_device(over_image(0, 1));
    assert_eq!(refused(hosted), CreateError::BadExtent);
}

fn over_image(start: u64, sectors: u64) -> Device {
    Device::ImageDisk {
        start,
        sectors,
        read_only: false,
        identity: "spare".parse().expect("an identity"),
    }
}

fn disk_of(sectors: u64, depth: u32) -> Device {
    Device::Disk {
        sectors,
        read_only: false,
        identity: "data".parse().expect("an identity"),
        depth,
    }
}

/// A driver brings a disk's queue of four up, and asks its host for its sector 3.
fn ask(board: &mut Board, device: u8) {
    request(board, device, 0, 3, true);
}

/// A driver brings a disk's queue of four up, and makes a request of a sector, whose bytes lie at 0x1000: type 0 reads it, and type 1
/// writes it.
fn request(board: &mut Board, device: u8, kind: u8, sector: u8, io: bool) {
    let memory = board.memory(0, MEMORY).expect("a memory");
    memory[..0x600].fill(0);
    let data = if kind == 0 { 3 } else { 1 };
    for (i, (at, len, flags)) in [(0x400u64, 16u32, 1u8), (0x1000, 512, data), (0x500, 1, 2)]
        .into_iter()
        .enumerate()
    {
        let descriptor = &mut memory[0x100 + 16 * i..][..16];
        descriptor[..8].copy_from_slice(&(MEMORY + at).to_le_bytes());
        descriptor[8..12].copy_from_slice(&len.to_le_bytes());
        descriptor[12] = flags;
        descriptor[14] = i as u8 + 1;
    }
    memory[0x400] = kind;
    memory[0x408] = sector;
    memory[0x202] = 1;
    memory[0x500] = 0xff;
    let at = MEMORY as u32;
    for (offset, value) in [
        (STATUS, 0),
        (STATUS, 1),
        (STATUS, 3),
        (0x024, 1),
        (0x020, 1),
        (STATUS, 11),
        (0x030, 0),
        (0x038, 4),
        (0x080, at + 0x100),
        (0x090, at + 0x200),
        (0x0a0, at + 0x300),
        (0x044, 1),
        (STATUS, 15),
        (NOTIFY, 0),
    ] {
        let window = Window::Device(device);
        let pending = board.write(0, window, offset, 4, value).expect("a store");
        assert_eq!((pending.more, pending.io), (false, io && offset == NOTIFY));
    }
}

#[test]
fn a_disk_is_asked_by_its_window() {
    let mut board = board_of(&[Device::Entropy, disk_of(4, 0)]);
    let window = Window::Device(1);
    ask(&mut board, 1);
    let tags = board.in_flight(0, window).unwrap();
    assert_eq!((tags.len(), tags.first()), (1, Some(0)));
    assert_eq!(board.device_pending(0, 1).unwrap().tags, tags);
    assert!(board.in_flight(0, Window::Block).unwrap().is_empty());
    assert!(board.device_pending(0, 0).unwrap().tags.is_empty());
    let asked = board
        .operation(0, window, 0)
        .unwrap()
        .expect("an operation");
    assert_eq!((asked.kind, asked.start, asked.len), (Kind::In, 1536, 512));
    let run = Run {
        at: MEMORY + 0x1000,
        len: 512,
    };
    assert_eq!(*asked.runs, [run]);
    assert_eq!(board.write(0, window, STATUS, 4, 0), Err(Error::Busy));
    board.memory(0, run.at).unwrap()[..512].fill(7);
    assert!(!board.complete(0, window, 0, Outcome::Done).unwrap().io);
    assert_eq!(board.device_pending(0, 1).unwrap().interrupt, 1);
    let lines = board.lines(0).unwrap();
    assert!(lines.is_high(window));
    for low in [
        Window::Block,
        Window::Console,
        Window::Device(0),
        Window::Device(u8::MAX),
    ] {
        assert!(!lines.is_high(low));
    }
    assert_eq!(board.lines(1), Err(Error::BadSlot));
    assert_eq!(board.memory(0, MEMORY + 0x500).unwrap()[0], 0);
    assert_eq!(used(&mut board), (1, 1)); // 513 bytes
    assert_eq!(board.operation(0, window, 0), Ok(None));
    let completed = board.complete(0, window, 0, Outcome::Done);
    assert_eq!(completed, Err(Error::Idle));
}

#[test]
fn disks_over_the_image_read_what_was_written_to_them() {
    let slot = Slot::new(MEMORY, LEN, 0..2).with_spare(3);
    assert_eq!((slot.sectors(), slot.spare()), (0..2, 3));
    let slot = slot
        .with_device(over_image(1, 2))
        .with_device(over_image(0, 1));
    let image = vec![0; 5 * 512];
    let mut board = Board::create(&Config::new(&[slot]).with_image(&image)).expect("a board");
    // the last sector of each: 1 of the first, which is 4 of the image, and 0 of the second, which is 2
    for (device, sector, at, byte) in [(0, 1, 4, 5), (1, 0, 2, 6)] {
        board.memory(0, MEMORY + 0x1000).unwrap()[..512].fill(byte);
        request(&mut board, device, 1, sector, false);
        board.memory(0, MEMORY + 0x1000).unwrap()[..512].fill(0);
        request(&mut board, device, 0, sector, false);
        assert_eq!(board.memory(0, MEMORY + 0x500).unwrap()[0], 0);
        let read = board.memory(0, MEMORY + 0x1000).unwrap()[..512].to_vec();
        assert_eq!(read, [byte; 512]);
        assert_eq!(board.image().unwrap()[512 * at..][..512], read);
        request(&mut board, device, 0, sector + 1, false);
        assert_eq!(board.memory(0, MEMORY + 0x500).unwrap()[0], 1); // IOERR
        let pending = board.device_pending(0, device).unwrap();
        assert_eq!((pending.interrupt, pending.tags.len()), (1, 0));
        assert_eq!(
            board.in_flight(0, Window::Device(device)),
            Err(Error::BadDevice)
        );
    }
    let written: usize = board
        .image()
        .unwrap()
        .iter()
        .filter(|byte| **byte != 0)
        .count();
    assert_eq!(written, 2 * 512);
}

#[test]
fn a_disk_is_held_and_given_up_by_its_window() {
    let mut board = board_of(&[disk_of(4, 64), disk_of(4, 1)]);
    ask(&mut board, 1);
    let (first, second) = (Window::Device(0), Window::Device(1));
    assert_eq!(board.drop_operations(0, first), Err(Error::Idle));
    let _ = board.drop_operations(0, second).unwrap();
    assert_eq!(board.device_pending(0, 1).unwrap().interrupt, 2);
    assert_eq!(board.device_pending(0, 0).unwrap().interrupt, 0);
    assert_eq!(board.release(0, second), Err(Error::Idle));
    assert!(!board.hold(0, second).unwrap().io);
    assert_eq!(board.hold(0, second), Err(Error::Idle));
    assert!(!board.release(0, second).unwrap().io);
    assert!(!board.hold(0, first).unwrap().io);
}

#[test]
fn a_window_of_no_disk_is_refused() {
    let mut board = board_of(&[Device::Entropy, CARD]);
    for window in [
        Window::Console,
        Window::Device(0),
        Window::Device(1),
        Window::Device(2),
        Window::Device(255),
    ] {
        assert_eq!(board.in_flight(0, window), Err(Error::BadDevice));
        assert_eq!(board.operation(0, window, 0), Err(Error::BadDevice));
        let completed = board.complete(0, window, 0, Outcome::Done);
        assert_eq!(completed, Err(Error::BadDevice));
        assert_eq!(board.drop_operations(0, window), Err(Error::BadDevice));
        assert_eq!(board.hold(0, window), Err(Error::BadDevice));
        assert_eq!(board.release(0, window), Err(Error::BadDevice));
    }
}

#[test]
fn a_driver_gets_the_bytes_of_its_host() {
    let mut board = board_of(&[Device::Entropy]);
    offer(&mut board, 0, 0, 16, 2);
    assert!(board.device_pending(0, 0).unwrap().starved);
    assert_eq!(board.supply(0, 0, b"sixteen bytes..!"), whole(16));
    let pending = board.device_pending(0, 0).unwrap();
    assert_eq!((pending.interrupt, pending.starved), (1, false));
    assert_eq!(used(&mut board), (1, 16));
    assert_eq!(
        &board.memory(0, MEMORY + 0x400).unwrap()[..16],
        b"sixteen bytes..!"
    );
    assert_eq!(board.receive(0, 0, &[0; 64]), Err(Error::BadDevice));
}

/// A driver that waits, a frame that waits for another one, and a link that is down, behind a roll-back.
#[test]
fn what_waits_is_saved_and_restored() {
    let mut board = board_of(&[Device::Entropy, CARD]);
    offer(&mut board, 0, 0, 16, 2);
    assert_eq!(board.receive(0, 1, &[9; 64]), whole(true));
    assert_eq!(board.set_link(0, 1, false), Ok(()));
    let devices = board.save(0).expect("a snapshot");
    let memory = board.memory(0, MEMORY).expect("a memory").to_vec();

    assert_eq!(board.supply(0, 0, &[1; 100]), whole(100));
    assert_eq!(board.receive(0, 1, &[8; 64]), whole(true));
    assert_eq!(board.set_link(0, 1, true), Ok(()));
    assert_ne!(board.save(0), Ok(devices.clone()));

    board
        .memory(0, MEMORY)
        .expect("a memory")
        .copy_from_slice(&memory);
    let cut = board.restore(0, &devices[..devices.len() - 1]);
    assert_eq!(cut, Err(RestoreError::BadWaiting));
    let _ = board.restore(0, &devices).expect("a restore");
    assert_eq!(board.save(0), Ok(devices));
    assert!(board.device_pending(0, 0).unwrap().starved);
    assert_eq!(board.supply(0, 0, &[2; 16]), whole(16));
    assert_eq!(board.memory(0, MEMORY + 0x400).unwrap()[..16], [2; 16]);

    offer(&mut board, 1, 0, 200, 2);
    assert_eq!(used(&mut board), (1, 64 + HEADER as u8));
    assert_eq!(board.memory(0, MEMORY + 0x400).unwrap()[HEADER], 9);
    assert_eq!(board.read(0, Window::Device(1), 0x106, 2), Ok(0));
}

#[test]
fn frames_go_both_ways() {
    let mut board = board_of(&[Device::Entropy, CARD]);
    for len in [0, 68 + 15] {
        assert_eq!(board.receive(0, 1, &vec![1; len]), Err(Error::BadDevice));
    }
    offer(&mut board, 1, 0, 200, 2);
    assert_eq!(board.receive(0, 1, &[9; 82]), whole(true));
    assert_eq!(used(&mut board), (1, 82 + HEADER as u8));
    let chain = &board.memory(0, MEMORY + 0x400).unwrap()[..HEADER + 83];
    assert_eq!((chain[10], chain[HEADER], chain[HEADER + 82]), (1, 9, 0));

    board.memory(0, MEMORY + 0x400).unwrap()[..HEADER + 64].fill(5);
    offer(&mut board, 1, 1, HEADER as u32 + 64, 0);
    let sent = DevicePending {
        interrupt: 1,
        starved: false,
        frame: Some(64),
        tags: Tags::default(),
    };
    let mut into = [0; 100];
    assert_eq!(board.device_pending(0, 1), Ok(sent));
    assert_eq!(
        board.take_frame(0, 1, &mut into[..63]),
        Err(Error::ShortBuffer)
    );
    assert_eq!(board.take_frame(0, 1, &mut into), whole(Some(64)));
    assert_eq!((into[0], into[63], into[64]), (5, 5, 0));
    assert_eq!(board.take_frame(0, 1, &mut into), whole(None));

    assert_eq!(board.set_link(0, 1, false), Ok(()));
    assert_eq!(board.device_pending(0, 1).unwrap().interrupt, 3);
    assert_eq!(board.set_link(0, 0, false), Err(Error::BadDevice));
}

#[test]
fn a_console_has_input_output_and_a_size() {
    let console = Device::Console { cols: 80, rows: 25 };
    let mut board = board_of(&[Device::Entropy, console]);
    let window = Window::Device(1);
    let size = |board: &Board| board.read(0, window, 0x100, 4);
    assert_eq!(size(&board), Ok(25 << 16 | 80));
    assert_eq!(board.resize_device(0, 1, 132, 43), Ok(()));
    assert_eq!(size(&board), Ok(43 << 16 | 132));
    assert_eq!(board.resize_device(0, 0, 132, 43), Err(Error::BadDevice));

    offer(&mut board, 1, 0, 8, 2);
    assert!(board.device_pending(0, 1).unwrap().starved);
    assert_eq!(board.supply(0, 1, b"ls\n"), whole(3));
    assert_eq!(used(&mut board), (1, 3));
    assert_eq!(&board.memory(0, MEMORY + 0x400).unwrap()[..4], b"ls\n\0");

    board.memory(0, MEMORY + 0x400).unwrap()[..64].fill(b'x');
    offer(&mut board, 1, 1, 64, 0);
    let mut into = [0; 100];
    assert_eq!(board.device_pending(0, 1).unwrap().frame, Some(64));
    assert_eq!(
        board.take_frame(0, 1, &mut into[..63]),
        Err(Error::ShortBuffer)
    );
    assert_eq!(board.take_frame(0, 1, &mut into), whole(Some(64)));
    assert_eq!((into[0], into[63], into[64]), (b'x', b'x', 0));
    assert_eq!(board.take_frame(0, 1, &mut into), whole(None));
}

/// So many chains are on offer in all, each of the one buffer. The driver doesn't notify.
fn offer_silently(board: &mut Board, chains: u8) {
    board.memory(0, MEMORY).expect("a memory")[0x202] = chains;
}

#[test]
fn what_is_handed_in_pauses_and_goes_on() {
    let budget = Budget {
        chains: NonZeroU32::new(1),
        bytes: None,
    };
    let mut board = board_within(&[Device::Entropy, CARD], budget);
    offer(&mut board, 0, 0, 4, 2);
    offer_silently(&mut board, 3);
    let handed = board.supply(0, 0, b"twelve bytes").unwrap();
    assert_eq!((handed.taken, handed.more), (12, true));
    assert_eq!(board.device_pending(0, 0).unwrap().interrupt, 0);
    assert_eq!(board.supply(0, 0, b"more"), Err(Error::Busy));
    assert!(board.go_on(0).unwrap().more);
    assert!(!board.go_on(0).unwrap().more);
    assert_eq!(board.device_pending(0, 0).unwrap().interrupt, 1);
    assert_eq!(used(&mut board), (3, 4));

    for _ in 0..2 {
        assert_eq!(board.receive(0, 1, &[1; 20]), whole(true)); // they wait
    }
    offer(&mut board, 1, 0, 32, 2);
    offer_silently(&mut board, 3);
    let handed = board.receive(0, 1, &[2; 19]).unwrap();
    assert_eq!((handed.taken, handed.more), (true, true));
    assert_eq!(board.take_frame(0, 1, &mut [0; 1]), Err(Error::Busy));
    assert!(!board.go_on(0).unwrap().more);
    assert_eq!(used(&mut board), (3, 32));
    assert_eq!(board.memory(0, MEMORY + 0x400).unwrap()[HEADER], 2);
}

#[test]
fn what_a_driver_sends_pauses_and_goes_on() {
    let budget = Budget {
        chains: NonZeroU32::new(1),
        bytes: None,
    };
    let console = Device::Console { cols: 80, rows: 25 };
    let mut board = board_within(&[console], budget);
    offer(&mut board, 0, 1, 2, 0);
    offer_silently(&mut board, 3);
    let window = Window::Device(0);
    assert!(board.write(0, window, NOTIFY, 4, 1).unwrap().more);
    assert_eq!(board.device_pending(0, 0).unwrap().frame, Some(4));
    assert_eq!(board.read(0, window, STATUS, 4), Err(Error::Busy));
    assert!(!board.go_on(0).unwrap().more);
    assert_eq!(board.take_frame(0, 0, &mut [0; 8]), whole(Some(6)));
}

#[test]
fn what_a_take_makes_room_for_pauses_and_goes_on() {
    let budget = Budget {
        chains: NonZeroU32::new(1),
        bytes: None,
    };
    let mut board = board_within(&[CARD], budget);
    let window = Window::Device(0);
    offer(&mut board, 0, 1, HEADER as u32 + 1, 0);
    for frames in 2..=64 {
        offer_silently(&mut board, frames);
        assert!(!board.write(0, window, NOTIFY, 4, 1).unwrap().more);
    }
    offer_silently(&mut board, 66); // the card has room for 64 frames
    assert!(!board.write(0, window, NOTIFY, 4, 1).unwrap().more);
    assert_eq!(used(&mut board).0, 64);

    for _ in 1..64 {
        assert_eq!(board.take_frame(0, 0, &mut [0; 8]), whole(Some(1)));
    }
    assert_eq!(used(&mut board).0, 64);
    let handed = board.take_frame(0, 0, &mut [0; 8]).unwrap();
    assert_eq!((handed.taken, handed.more), (Some(1), true));
    assert_eq!(board.take_frame(0, 0, &mut [0; 8]), Err(Error::Busy));
    assert!(!board.go_on(0).unwrap().more);
    assert_eq!(used(&mut board).0, 66);
    for _ in 0..2 {
        assert_eq!(board.take_frame(0, 0, &mut [0; 8]), whole(Some(1)));
    }
    assert_eq!(board.take_frame(0, 0, &mut [0; 8]), whole(None));
}
