//! A guest is saved on one board and goes on on another.

use kalyubos::{Board, Budget, Config, Error, Outcome, RestoreError, Slot, Window};
use std::num::NonZeroU32;

const MEMORY: u64 = 0x8000_0000;
const LEN: u64 = 0x1_0000;
const NOTIFY: u16 = 0x050;
const STATUS: u16 = 0x070;

fn slot() -> Slot {
    Slot::new(MEMORY, LEN, 0..2)
}

/// A board of this guest over an image.
fn over_image(image: &[u8]) -> Board {
    Board::create(&Config::new(&[slot()]).with_image(image)).expect("a board")
}

/// What a driver writes to a window whose queue 0 has 4 places: its table at 0x100, its rings at 0x200 and 0x300.
const BRING_UP: [(u16, u32); 10] = [
    (STATUS, 3),
    (0x024, 1),
    (0x020, 1),
    (STATUS, 11),
    (0x038, 4),
    (0x080, 0x8000_0100),
    (0x090, 0x8000_0200),
    (0x0a0, 0x8000_0300),
    (0x044, 1),
    (STATUS, 15),
];

/// The bytes of a chain of one descriptor each, at 0x100, and of the available ring that has the first `count` of them.
fn offer(memory: &mut [u8], chain: &[(u64, u32, u8, u8)], heads: u8) {
    for (place, (addr, len, flags, next)) in chain.iter().enumerate() {
        let entry = &mut memory[0x100 + 16 * place..][..16];
        entry[..8].copy_from_slice(&(MEMORY + addr).to_le_bytes());
        entry[8..12].copy_from_slice(&len.to_le_bytes());
        entry[12] = *flags;
        entry[14] = *next;
    }
    for head in 0..heads {
        memory[0x204 + 2 * usize::from(head)] = head;
    }
    memory[0x202] = heads;
}

/// A guest types `ls`, its buffer takes one byte, and on another board it finds the other.
#[test]
fn a_guest_goes_on_where_it_was_saved() {
    let mut first = over_image(&[7; 1024]);
    for (offset, value) in BRING_UP {
        let _ = first
            .write(0, Window::Console, offset, 4, value)
            .expect("a store");
    }
    offer(
        first.memory(0, MEMORY).expect("a memory"),
        &[(0x400, 1, 2, 0), (0x401, 1, 2, 0)],
        1,
    );
    let _ = first
        .write(0, Window::Console, NOTIFY, 4, 0)
        .expect("a store");
    assert_eq!(first.input(0, b"ls").expect("input").0, 2);

    // 61 bytes of description, whether the slot is held, 96 of a window and 8 more of one whose queue is ready, the count,
    // and one byte of input
    assert_eq!(first.saved_len(0), Ok(61 + 1 + 96 + 96 + 8 + 4 + 1));
    let devices = first.save(0).expect("a snapshot");
    let memory = first.memory(0, MEMORY).expect("a memory").to_vec();
    let disk = first.image().expect("an image").to_vec();
    drop(first);

    let mut second = over_image(&disk);
    second
        .memory(0, MEMORY)
        .expect("a memory")
        .copy_from_slice(&memory);
    let pending = second.restore(0, &devices).expect("a restore");
    assert_eq!(
        (pending.interrupts.block, pending.interrupts.console),
        (0, 1)
    );
    let lines = second.lines(0).expect("lines");
    assert!(lines.is_high(Window::Console) && !lines.is_high(Window::Block));
    assert_eq!(second.save(0).expect("a snapshot"), devices);

    second.memory(0, MEMORY).expect("a memory")[0x202] = 2;
    second.memory(0, MEMORY).expect("a memory")[0x206] = 1;
    let _ = second
        .write(0, Window::Console, NOTIFY, 4, 0)
        .expect("a store");
    assert_eq!(
        second.memory(0, MEMORY).expect("a memory")[0x400..0x402],
        *b"ls"
    );
}

#[test]
fn a_short_buffer_is_left_as_it_was() {
    let board = over_image(&[7; 1024]);
    let len = board.saved_len(0).expect("a length");
    let mut buffer = vec![0xaa; len + 1];
    assert_eq!(
        board.save_into(0, &mut buffer[..len - 1]),
        Err(Error::ShortBuffer)
    );
    assert_eq!(buffer, vec![0xaa; len + 1]);
    assert_eq!(board.save_into(0, &mut buffer), Ok(len));
    assert_eq!(&buffer[..8], b"KALYUBOS");
    assert_eq!(buffer[len], 0xaa);
}

#[test]
fn each_refusal_of_a_restore_is_told() {
    let mut board = over_image(&[7; 1024]);
    let fresh = board.save(0).expect("a snapshot");
    let with = |place: usize, byte: u8| {
        let mut bytes = fresh.clone();
        bytes[place] = byte;
        bytes
    };
    let rows = [
        (1, fresh.clone(), RestoreError::BadSlot),
        (0, vec![], RestoreError::BadSnapshot),
        (0, with(0, b'L'), RestoreError::BadSnapshot),
        (0, with(28, 3), RestoreError::OtherSlot), // three sectors
        (0, with(61, 1), RestoreError::OtherSlot), // held
        (0, with(61, 2), RestoreError::BadSnapshot),
        (0, with(70, 16), RestoreError::BadState), // a bit of Status that has no name
    ];
    for (slot, bytes, why) in rows {
        assert_eq!(board.restore(slot, &bytes), Err(why));
        assert_eq!(board.save(0), Ok(fresh.clone()));
    }
    assert_eq!(board.saved_len(1), Err(Error::BadSlot));
    assert_eq!(board.save(1), Err(Error::BadSlot));
}

#[test]
fn a_paused_service_is_busy() {
    let budget = Budget {
        chains: NonZeroU32::new(1),
        bytes: None,
    };
    let slots = [slot()];
    let config = Config::new(&slots)
        .with_image(&[7; 1024])
        .with_budget(budget);
    let mut board = Board::create(&config).expect("a board");
    let fresh = board.save(0).expect("a snapshot");
    for (offset, value) in BRING_UP {
        let _ = board
            .write(0, Window::Block, offset, 4, value)
            .expect("a store");
    }
    // two flushes, each a header and a status
    let memory = board.memory(0, MEMORY).expect("a memory");
    offer(memory, &[(0x400, 16, 1, 1), (0x410, 1, 2, 0)], 1);
    memory[0x400] = 4;
    memory[0x202] = 2;
    let pending = board
        .write(0, Window::Block, NOTIFY, 4, 0)
        .expect("a store");
    assert!(pending.more);
    assert_eq!(board.saved_len(0), Err(Error::Busy));
    assert_eq!(board.restore(0, &fresh), Err(RestoreError::Busy));
    assert!(!board.go_on(0).expect("a service").more);
    assert!(board.save(0).is_ok());
}

#[test]
fn a_disk_at_work_is_busy() {
    let hosted = [Slot::hosted(MEMORY, LEN, 2)];
    let mut board = Board::create(&Config::new(&hosted)).expect("a board");
    let fresh = board.save(0).expect("a snapshot");
    for (offset, value) in BRING_UP {
        let _ = board
            .write(0, Window::Block, offset, 4, value)
            .expect("a store");
    }
    let memory = board.memory(0, MEMORY).expect("a memory");
    offer(
        memory,
        &[(0x400, 16, 1, 1), (0x600, 512, 3, 2), (0x410, 1, 2, 0)],
        1,
    );
    let served = board
        .write(0, Window::Block, NOTIFY, 4, 0)
        .expect("a store");
    assert!(served.io);
    assert_eq!(board.saved_len(0), Err(Error::Busy));
    assert_eq!(board.save_into(0, &mut [0; 1024]), Err(Error::Busy));
    assert_eq!(board.restore(0, &fresh), Err(RestoreError::Busy));
    let _ = board
        .complete(0, Window::Block, 0, Outcome::Done)
        .expect("a completion");

    // a slot over an image takes it
    let devices = board.save(0).expect("a snapshot");
    let mut over_image = over_image(&[7; 1024]);
    let pending = over_image.restore(0, &devices).expect("a restore");
    assert_eq!(pending.interrupts.block, 1);
}

/// A slot is held, and its guest saved with a request on offer. Where it goes on, the request begins with the release.
#[test]
fn a_held_guest_goes_on_elsewhere() {
    let hosted = [Slot::hosted(MEMORY, LEN, 2)];
    let mut first = Board::create(&Config::new(&hosted)).expect("a board");
    for (offset, value) in BRING_UP {
        let _ = first
            .write(0, Window::Block, offset, 4, value)
            .expect("a store");
    }
    let memory = first.memory(0, MEMORY).expect("a memory");
    let request = [(0x400, 16, 1, 1), (0x600, 512, 3, 2), (0x410, 1, 2, 0)];
    offer(memory, &request, 1);
    memory[0x202] = 2;
    assert!(first.write(0, Window::Block, NOTIFY, 4, 0).unwrap().io);
    assert!(!first.hold(0, Window::Block).unwrap().io);
    assert_eq!(first.save(0), Err(Error::Busy));
    assert!(
        !first
            .complete(0, Window::Block, 0, Outcome::Done)
            .unwrap()
            .io
    );
    let devices = first.save(0).expect("a snapshot");
    assert_eq!(devices[61], 1);
    assert_eq!(
        over_image(&[7; 1024]).restore(0, &devices),
        Err(RestoreError::OtherSlot)
    );

    let mut second = Board::create(&Config::new(&hosted)).expect("a board");
    let memory = second.memory(0, MEMORY).expect("a memory");
    memory.copy_from_slice(first.memory(0, MEMORY).expect("a memory"));
    assert!(!second.restore(0, &devices).expect("a restore").io);
    assert!(!second.write(0, Window::Block, NOTIFY, 4, 0).unwrap().io);
    assert!(second.release(0, Window::Block).unwrap().io);
    assert!(
        !second
            .complete(0, Window::Block, 0, Outcome::Done)
            .unwrap()
            .io
    );
    assert_eq!(second.release(0, Window::Block), Err(Error::Idle));
    assert_eq!(second.memory(0, MEMORY).expect("a memory")[0x302], 2); // the used idx
}
