//! A disk that the host serves: a flight from its write to its completion, also beside a disk of the image.

use kalyubos::{Board, Budget, Config, CreateError, Error, Kind, Outcome, Run, Slot, Tags, Window};
use std::num::NonZeroU32;

const MEMORY: u64 = 0x8000_0000;
const LEN: u64 = 0x1_0000;
const NOTIFY: u16 = 0x050;
const STATUS: u16 = 0x070;

fn hosted() -> Slot {
    Slot::hosted(MEMORY, LEN, 2)
}

/// Brings up a window's queue of four, whose areas lie behind an offset of the memory.
fn bring_up(board: &mut Board, slot: u8, window: Window, queue: u32, offset: u32) {
    let at = MEMORY as u32 + offset;
    for (offset, value) in [
        (STATUS, 1),
        (STATUS, 3),
        (0x024, 1),
        (0x020, 1),
        (STATUS, 11),
        (0x030, queue),
        (0x038, 4),
        (0x080, at + 0x100),
        (0x090, at + 0x200),
        (0x0a0, at + 0x300),
        (0x044, 1),
        (STATUS, 15),
    ] {
        let pending = board.write(slot, window, offset, 4, value);
        assert!(!pending.expect("a store").io);
    }
}

/// The slot's driver puts a read of sector 1 on offer: status at 0, header at 0x10, data at 0x400 and 0x600.
fn offer_read(board: &mut Board, slot: u8) {
    bring_up(board, slot, Window::Block, 0, 0);
    let memory = board.memory(slot, MEMORY).expect("a memory");
    memory[0x18] = 1; // the sector
    for (place, (addr, len, flags, next)) in [
        (0x10, 16, 1, 1u8),
        (0x400, 0x100, 3, 2),
        (0x600, 0x100, 3, 3),
        (0, 1, 2, 0),
    ]
    .into_iter()
    .enumerate()
    {
        let entry = &mut memory[0x100 + 16 * place..][..16];
        entry[..8].copy_from_slice(&(MEMORY + addr).to_le_bytes());
        entry[8..12].copy_from_slice(&u32::to_le_bytes(len));
        entry[12] = flags;
        entry[14] = next;
    }
    memory[0x202] = 1; // one chain on offer
    memory[0] = 0xff;
}

/// A board of one guest with such a read on offer.
fn one_read_on_offer() -> Board {
    let mut board = Board::create(&Config::new(&[hosted()])).expect("a board");
    offer_read(&mut board, 0);
    board
}

#[test]
fn a_request_waits_for_the_host() {
    let mut board = one_read_on_offer();
    assert_eq!(
        board.complete(0, Window::Block, 0, Outcome::Done),
        Err(Error::Idle)
    );
    let served = board
        .write(0, Window::Block, NOTIFY, 4, 0)
        .expect("a store");
    assert!(served.io && served.interrupts.block == 0);

    let asked = board
        .operation(0, Window::Block, 0)
        .expect("a slot")
        .expect("an operation");
    assert_eq!(
        (asked.kind, asked.start, asked.len, asked.stable),
        (Kind::In, 512, 512, false)
    );
    let runs = [(0x400, 0x100), (0x600, 0x100)].map(|(at, len)| Run {
        at: MEMORY + at,
        len,
    });
    assert_eq!(*asked.runs, runs);

    // the guest runs on, but can't reset its device
    assert_eq!(board.read(0, Window::Block, 0x008, 4), Ok(2));
    assert_eq!(
        board.write(0, Window::Block, STATUS, 4, 0),
        Err(Error::Busy)
    );
    board.memory(0, MEMORY).expect("a memory")[0x101] = 0xff;
    assert_eq!(board.operation(0, Window::Block, 0), Ok(Some(asked)));

    board
        .write_memory(0, runs[1].at, &[7; 0x100])
        .expect("a run");
    let served = board
        .complete(0, Window::Block, 0, Outcome::Done)
        .expect("a completion");
    assert!(!served.io && served.interrupts.block == 1);
    let memory = board.memory(0, MEMORY).expect("a memory");
    assert_eq!((memory[0], memory[0x6ff], memory[0x302]), (0, 7, 1));
    assert_eq!(board.operation(0, Window::Block, 0), Ok(None));
}

/// The runs are read while the memory is lent, and on another thread while the guest's calls go on.
#[test]
fn an_operation_borrows_no_board() {
    let mut board = one_read_on_offer();
    assert!(board.write(0, Window::Block, NOTIFY, 4, 0).unwrap().io);
    let asked = board
        .operation(0, Window::Block, 0)
        .unwrap()
        .expect("an operation");
    for run in &asked.runs {
        board.memory(0, run.at).unwrap()[..run.len as usize].fill(7);
    }
    let memory = board.memory(0, MEMORY).unwrap();
    assert!(memory[0x400..0x500].iter().all(|byte| *byte == 7));
    assert_eq!(memory[0x500..0x600], [0; 0x100]);
    assert!(memory[0x600..0x700].iter().all(|byte| *byte == 7));

    let length = std::thread::spawn(move || asked.runs.iter().map(|run| run.len).sum::<u64>());
    assert_eq!(board.read(0, Window::Block, 0x008, 4), Ok(2));
    assert_eq!(length.join().unwrap(), 512);
    let served = board.complete(0, Window::Block, 0, Outcome::Done).unwrap();
    assert!(!served.io && served.interrupts.block == 1);
}

/// A flush has no runs, and an empty list of them is equal to another.
#[test]
fn a_flush_has_no_runs() {
    let mut board = one_read_on_offer();
    board.memory(0, MEMORY).unwrap()[0x10] = 4; // the request's type, and then no data
    board.memory(0, MEMORY).unwrap()[0x10e] = 3;
    assert!(board.write(0, Window::Block, NOTIFY, 4, 0).unwrap().io);
    let asked = board
        .operation(0, Window::Block, 0)
        .unwrap()
        .expect("an operation");
    assert_eq!((asked.kind, asked.start, asked.len), (Kind::Flush, 0, 0));
    assert!(asked.runs.is_empty() && asked.runs == asked.clone().runs);
    assert_eq!(format!("{:?}", asked.runs), "[]");
}

/// What only asks borrows the board as shared: a host asks from several places of one thread.
#[test]
fn asking_changes_nothing() {
    let board = one_read_on_offer();
    let (first, second) = (&board, &board);
    let mut status = [0];
    first.read_memory(0, MEMORY, &mut status).unwrap();
    assert_eq!(status, [0xff]);
    assert_eq!(second.read(0, Window::Block, STATUS, 4), Ok(15));
    assert_eq!(first.interrupts(0).unwrap().block, 0);
    assert_eq!(second.counters(0).unwrap().notifies, 0);
    assert_eq!(first.save(0).unwrap().len(), second.saved_len(0).unwrap());
    assert_eq!(first.operation(0, Window::Block, 0), Ok(None));
}

/// A board of one guest of this depth with the read on offer so many times.
fn reads_on_offer(depth: u32, count: u8) -> Board {
    let slots = [hosted().with_depth(depth)];
    let mut board = Board::create(&Config::new(&slots)).expect("a board");
    offer_read(&mut board, 0);
    board.memory(0, MEMORY).unwrap()[0x202] = count;
    board
}

/// Of three requests two are in flight together; the last of these ends first, and its tag is used again.
#[test]
fn operations_end_in_any_order() {
    let mut board = reads_on_offer(2, 3);
    assert_eq!(board.in_flight(0, Window::Block), Ok(Tags::default()));
    assert!(board.write(0, Window::Block, NOTIFY, 4, 0).unwrap().io);
    let tags = board.in_flight(0, Window::Block).unwrap();
    assert_eq!(tags.into_iter().collect::<Vec<_>>(), [0, 1]);
    assert_eq!(format!("{tags:?} {}", tags.len()), "{0, 1} 2");
    assert_eq!(board.operation(0, Window::Block, 2), Ok(None));
    assert_eq!(
        board.complete(0, Window::Block, 2, Outcome::Done),
        Err(Error::Idle)
    );
    assert_eq!(
        board.complete(0, Window::Block, 255, Outcome::Done),
        Err(Error::Idle)
    );

    let first = board.operation(0, Window::Block, 0).unwrap();
    assert!(
        board
            .complete(0, Window::Block, 1, Outcome::Done)
            .unwrap()
            .io
    ); // the third begins
    assert_eq!(board.in_flight(0, Window::Block), Ok(tags));
    assert_eq!(board.operation(0, Window::Block, 0).unwrap(), first);
    assert!(
        !board
            .complete(0, Window::Block, 1, Outcome::Failed)
            .unwrap()
            .io
    );
    assert_eq!(board.in_flight(0, Window::Block).unwrap().first(), Some(0));
    assert_eq!(
        board.write(0, Window::Block, STATUS, 4, 0),
        Err(Error::Busy)
    );
    assert!(
        !board
            .complete(0, Window::Block, 0, Outcome::Done)
            .unwrap()
            .io
    );
    assert!(board.in_flight(0, Window::Block).unwrap().is_empty());
    assert_eq!(board.memory(0, MEMORY).unwrap()[0x302], 3); // the used idx
    let reset = board.write(0, Window::Block, STATUS, 4, 0).unwrap();
    assert_eq!(reset.interrupts.block, 0);
}

/// A fault behind an operation in flight: its completion frees the tag, and changes nothing of the guest's memory.
#[test]
fn a_completion_behind_a_fault_frees_its_tag() {
    let mut board = reads_on_offer(2, 2);
    board.memory(0, MEMORY).unwrap()[0x206] = 4; // the second head is outside the table
    let pending = board.write(0, Window::Block, NOTIFY, 4, 0).unwrap();
    assert!(pending.io && pending.interrupts.block & 2 != 0);
    let before = board.memory(0, MEMORY).unwrap().to_vec();
    let pending = board.complete(0, Window::Block, 0, Outcome::Done).unwrap();
    assert!(!pending.io && pending.interrupts.block & 2 != 0);
    assert!(board.in_flight(0, Window::Block).unwrap().is_empty());
    assert_eq!(board.memory(0, MEMORY).unwrap(), before);
}

/// What the host gives up frees its tags, and changes nothing of the guest's memory. The reset that waited passes, and the
/// next request is served.
#[test]
fn a_drop_gives_up_all_that_is_in_flight() {
    let mut board = reads_on_offer(2, 3);
    assert_eq!(board.drop_operations(0, Window::Block), Err(Error::Idle));
    assert!(board.write(0, Window::Block, NOTIFY, 4, 0).unwrap().io);
    let before = board.memory(0, MEMORY).unwrap().to_vec();
    assert_eq!(
        board.write(0, Window::Block, STATUS, 4, 0),
        Err(Error::Busy)
    );
    let pending = board.drop_operations(0, Window::Block).unwrap();
    assert!(!pending.io && pending.interrupts.block == 2);
    assert!(board.in_flight(0, Window::Block).unwrap().is_empty());
    assert_eq!(
        board.complete(0, Window::Block, 1, Outcome::Done),
        Err(Error::Idle)
    );
    assert_eq!(board.drop_operations(0, Window::Block), Err(Error::Idle));
    assert_eq!(board.read(0, Window::Block, STATUS, 4), Ok(15 | 64));
    assert_eq!(board.last_fault(0, Window::Block), Ok(None));
    assert!(!board.write(0, Window::Block, NOTIFY, 4, 0).unwrap().io);
    assert_eq!(board.memory(0, MEMORY).unwrap(), before);

    let reset = board.write(0, Window::Block, STATUS, 4, 0).unwrap();
    assert_eq!(reset.interrupts.block, 0);
    offer_read(&mut board, 0);
    assert!(board.write(0, Window::Block, NOTIFY, 4, 0).unwrap().io);
    assert!(
        !board
            .complete(0, Window::Block, 0, Outcome::Done)
            .unwrap()
            .io
    );
    assert_eq!(board.memory(0, MEMORY).unwrap()[0x302], 1); // the used idx
}

/// Of three requests two are in flight when the slot is held: the third begins with the release.
#[test]
fn a_held_slot_takes_no_request() {
    let mut board = reads_on_offer(2, 3);
    assert_eq!(board.release(0, Window::Block), Err(Error::Idle));
    assert!(!board.hold(0, Window::Block).unwrap().io);
    assert_eq!(board.hold(0, Window::Block), Err(Error::Idle));
    assert!(!board.write(0, Window::Block, NOTIFY, 4, 0).unwrap().io);
    assert!(board.in_flight(0, Window::Block).unwrap().is_empty());
    assert!(board.release(0, Window::Block).unwrap().io);
    assert_eq!(board.in_flight(0, Window::Block).unwrap().len(), 2);

    assert!(!board.hold(0, Window::Block).unwrap().io);
    assert!(
        !board
            .complete(0, Window::Block, 1, Outcome::Done)
            .unwrap()
            .io
    );
    assert!(
        !board
            .complete(0, Window::Block, 0, Outcome::Done)
            .unwrap()
            .io
    );
    assert_eq!(board.memory(0, MEMORY).unwrap()[0x302], 2); // the used idx
    assert!(board.in_flight(0, Window::Block).unwrap().is_empty());
    assert!(board.release(0, Window::Block).unwrap().io);
    assert_eq!(board.in_flight(0, Window::Block).unwrap().first(), Some(0));
    assert_eq!(board.release(0, Window::Block), Err(Error::Idle));
}

/// A reset and a drop leave a held slot held.
#[test]
fn a_hold_ends_with_its_release_alone() {
    let mut board = reads_on_offer(1, 2);
    assert!(board.write(0, Window::Block, NOTIFY, 4, 0).unwrap().io);
    assert!(!board.hold(0, Window::Block).unwrap().io);
    assert!(!board.drop_operations(0, Window::Block).unwrap().io);
    assert!(!board.write(0, Window::Block, STATUS, 4, 0).unwrap().io);
    offer_read(&mut board, 0);
    assert!(!board.write(0, Window::Block, NOTIFY, 4, 0).unwrap().io);
    assert!(board.release(0, Window::Block).unwrap().io);
}

#[test]
fn a_failure_is_an_error_of_the_request() {
    let mut board = one_read_on_offer();
    assert!(
        board
            .write(0, Window::Block, NOTIFY, 4, 0)
            .expect("a store")
            .io
    );
    let served = board
        .complete(0, Window::Block, 0, Outcome::Failed)
        .expect("a completion");
    assert!(!served.io && served.interrupts.block == 1);
    assert_eq!(board.memory(0, MEMORY).expect("a memory")[0], 1);
}

#[test]
fn refusals_are_told() {
    let mut board = one_read_on_offer();
    assert_eq!(board.operation(1, Window::Block, 0), Err(Error::BadSlot));
    assert_eq!(
        board.complete(1, Window::Block, 0, Outcome::Done),
        Err(Error::BadSlot)
    );
    assert_eq!(board.drop_operations(1, Window::Block), Err(Error::BadSlot));
    assert_eq!(board.hold(1, Window::Block), Err(Error::BadSlot));
    assert_eq!(board.release(1, Window::Block), Err(Error::BadSlot));
    assert_eq!(board.image_len(), Err(Error::NoImage));
    assert_eq!(board.image().unwrap_err(), Error::NoImage);
    assert_eq!(board.in_flight(1, Window::Block), Err(Error::BadSlot));
    let deep = [hosted().with_depth(65)];
    let fault = Config::new(&deep).judge().unwrap_err();
    assert_eq!((fault.why, fault.slot), (CreateError::BadDepth, Some(0)));
    assert_eq!(
        Board::create(&Config::new(&deep)).unwrap_err(),
        CreateError::BadDepth
    );
    let long = [Slot::hosted(MEMORY, LEN, 1 << 55)];
    let refused = Board::create(&Config::new(&long)).unwrap_err();
    assert_eq!(refused, CreateError::ExtentOutside);
}

/// The request of a guest over the image is served while the other's waits for the host; each gets the bytes of its own
/// disk.
#[test]
fn a_board_has_both_kinds_of_disk() {
    let slots = [Slot::new(MEMORY, LEN, 1..3), hosted()];
    let config = Config::new(&slots).with_image(&[7; 3 * 512]);
    let mut board = Board::create(&config).expect("a board");
    offer_read(&mut board, 0);
    offer_read(&mut board, 1);
    assert!(board.write(1, Window::Block, NOTIFY, 4, 0).unwrap().io);
    let pending = board.write(0, Window::Block, NOTIFY, 4, 0).unwrap();
    assert!(!pending.io && pending.interrupts.block == 1);
    assert_eq!(board.operation(0, Window::Block, 0), Ok(None));
    assert_eq!(
        board.complete(0, Window::Block, 0, Outcome::Done),
        Err(Error::Idle)
    );
    assert_eq!(board.drop_operations(0, Window::Block), Err(Error::Idle));
    assert_eq!(board.hold(0, Window::Block), Err(Error::Idle));
    assert_eq!(board.release(0, Window::Block), Err(Error::Idle));
    assert_eq!(board.memory(0, MEMORY + 0x400).unwrap()[0], 7);

    let asked = board
        .operation(1, Window::Block, 0)
        .unwrap()
        .expect("an operation");
    board.memory(1, asked.runs[0].at).unwrap()[0] = 9;
    let pending = board.complete(1, Window::Block, 0, Outcome::Done).unwrap();
    assert!(!pending.io && pending.interrupts.block == 1);
    assert_eq!(board.memory(1, MEMORY).unwrap()[..1], [0]);
    assert_eq!(board.memory(1, MEMORY + 0x400).unwrap()[0], 9);
    assert_eq!(board.image(), Ok(&[7; 3 * 512][..]));
}

/// Within a budget the console's service pauses while an operation is in flight, which is completed once the service is
/// done.
#[test]
fn a_console_pauses_beside_a_disk_at_work() {
    let budget = Budget {
        chains: NonZeroU32::new(1),
        bytes: None,
    };
    let slots = [hosted()];
    let config = Config::new(&slots).with_budget(budget);
    let mut board = Board::create(&config).expect("a board");
    offer_read(&mut board, 0);
    assert!(board.write(0, Window::Block, NOTIFY, 4, 0).unwrap().io);
    bring_up(&mut board, 0, Window::Console, 1, 0x2000);
    let memory = board.memory(0, MEMORY + 0x2000).unwrap();
    memory[0x100..0x109].copy_from_slice(&[0, 0, 0, 0x80, 0, 0, 0, 0, 1]); // a byte at the memory's front
    memory[0x202] = 2; // on offer two times
    let pending = board.write(0, Window::Console, NOTIFY, 4, 1).unwrap();
    assert!(pending.more && !pending.io && pending.output == 1);
    assert!(board.operation(0, Window::Block, 0).unwrap().is_some());
    assert_eq!(
        board.complete(0, Window::Block, 0, Outcome::Done),
        Err(Error::Busy)
    );
    assert_eq!(board.drop_operations(0, Window::Block), Err(Error::Busy));
    assert_eq!(board.hold(0, Window::Block), Err(Error::Busy));
    assert_eq!(board.release(0, Window::Block), Err(Error::Busy));
    let pending = board.go_on(0).unwrap();
    assert!(!pending.more && pending.output == 2);
    assert!(
        !board
            .complete(0, Window::Block, 0, Outcome::Done)
            .unwrap()
            .io
    );
}
