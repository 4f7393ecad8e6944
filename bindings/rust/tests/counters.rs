//! What the devices of a guest did: each number is worked out from what its driver asked for.

use kalyubos::{
    Board, Budget, Config, Counters, DriverFault, Error, FaultKind, Outcome, Slot, Window,
};
use std::num::NonZeroU32;

const MEMORY: u64 = 0x8000_0000;
const LEN: u64 = 0x1_0000;
const NOTIFY: u16 = 0x050;
const STATUS: u16 = 0x070;
const NEEDS_RESET: u32 = 0x40;

const RECEIVEQ: u32 = 0;
const TRANSMITQ: u32 = 1;

/// How a buffer's descriptor begins (2.7.5): its address, its length and its flags.
type Buffer = (u64, u32, u8);

const NEXT: u8 = 1;
const WRITE: u8 = 2;

/// The header, the data in two buffers, and the status of a read of sector 0.
const REQUEST: [Buffer; 4] = [
    (0x400, 16, NEXT),
    (0x800, 0x100, NEXT | WRITE),
    (0xa00, 0x100, NEXT | WRITE),
    (0xc00, 1, WRITE),
];

/// What a driver writes to bring up a window, whose queue of this number has eight places (3.1.1, 4.2.3.2).
fn bring_up(queue: u32) -> [(u16, u32); 11] {
    let at = MEMORY as u32;
    [
        (STATUS, 3),
        (0x024, 1), // the high word of the driver's features: VERSION_1
        (0x020, 1),
        (STATUS, 11),
        (0x030, queue),
        (0x038, 8),
        (0x080, at + 0x100),
        (0x090, at + 0x200),
        (0x0a0, at + 0x300),
        (0x044, 1),
        (STATUS, 15),
    ]
}

/// Puts buffers into the descriptor table, each with the next behind it, and these heads on offer.
fn offer(memory: &mut [u8], buffers: &[Buffer], heads: &[u8]) {
    for (place, (addr, len, flags)) in buffers.iter().enumerate() {
        let entry = &mut memory[0x100 + 16 * place..][..16];
        entry[..8].copy_from_slice(&(MEMORY + addr).to_le_bytes());
        entry[8..12].copy_from_slice(&len.to_le_bytes());
        entry[12] = *flags;
        entry[14] = place as u8 + 1;
    }
    for (place, head) in heads.iter().enumerate() {
        memory[0x204 + 2 * place] = *head;
    }
    memory[0x202] = heads.len() as u8;
}

/// Two guests, of which the first has brought up this queue.
fn board(window: Window, queue: u32, budget: Budget, outlet: u32) -> Board {
    let slots = [
        Slot::new(MEMORY, LEN, 0..2).with_outlet(outlet),
        Slot::new(MEMORY, LEN, 2..2),
    ];
    let config = Config::new(&slots)
        .with_image(&[7; 1024])
        .with_budget(budget);
    let mut board = Board::create(&config).expect("a board");
    for (offset, value) in bring_up(queue) {
        let _ = board.write(0, window, offset, 4, value).expect("a store");
    }
    board
}

fn one_chain() -> Budget {
    Budget {
        chains: NonZeroU32::new(1),
        bytes: None,
    }
}

#[test]
fn a_read_is_counted() {
    let mut board = board(Window::Block, 0, Budget::default(), 0);
    offer(board.memory(0, MEMORY).expect("a memory"), &REQUEST, &[0]);
    let _ = board.write(0, Window::Block, NOTIFY, 4, 0);
    // out: the header; in: a sector and the status
    let counted = Counters {
        notifies: 1,
        chains: 1,
        bytes_in: 512 + 1,
        bytes_out: 16,
        ..Counters::default()
    };
    assert_eq!(board.counters(0), Ok(counted));

    // nothing is on offer: a notification, and no more
    let _ = board.write(0, Window::Block, NOTIFY, 4, 0);
    assert_eq!(
        board.counters(0),
        Ok(Counters {
            notifies: 2,
            ..counted
        })
    );
    // there is no queue 1, and the other guest did nothing
    let _ = board.write(0, Window::Block, NOTIFY, 4, 1);
    assert_eq!(board.counters(0).map(|it| it.notifies), Ok(2));
    assert_eq!(board.counters(1), Ok(Counters::default()));
    assert_eq!(board.counters(2), Err(Error::BadSlot));
}

#[test]
fn a_restore_keeps_the_numbers() {
    let mut board = board(Window::Block, 0, Budget::default(), 0);
    let before = board.save(0).expect("a snapshot");
    offer(board.memory(0, MEMORY).expect("a memory"), &REQUEST, &[0]);
    let _ = board.write(0, Window::Block, NOTIFY, 4, 0);
    let counted = board.counters(0).expect("a slot");
    let _ = board.restore(0, &before).expect("a restore");
    assert_eq!(board.counters(0), Ok(counted));
    // the same request again, since the device has forgotten that it was served
    let _ = board.write(0, Window::Block, NOTIFY, 4, 0);
    assert_eq!(board.counters(0).map(|it| it.chains), Ok(2));
}

/// Each call serves one of three chains, so two of three calls pause.
#[test]
fn pauses_are_counted() {
    let mut board = board(Window::Console, TRANSMITQ, one_chain(), 64);
    let buffers = [(0x400, 3, 0), (0x403, 2, 0), (0x405, 3, 0)];
    offer(
        board.memory(0, MEMORY).expect("a memory"),
        &buffers,
        &[0, 1, 2],
    );
    assert!(board.write(0, Window::Console, NOTIFY, 4, 1).unwrap().more);
    let mut counted = Counters {
        notifies: 1,
        chains: 1,
        bytes_out: 3,
        pauses: 1,
        ..Counters::default()
    };
    assert_eq!(board.counters(0), Ok(counted));
    for (chains, bytes_out, pauses) in [(2, 5, 2), (3, 8, 2)] {
        assert_eq!(board.go_on(0).unwrap().more, chains == 2);
        counted = Counters {
            chains,
            bytes_out,
            pauses,
            ..counted
        };
        assert_eq!(board.counters(0), Ok(counted));
    }
}

/// Two bytes are typed into two buffers of one byte. Nobody notifies.
#[test]
fn a_pause_of_input_is_counted() {
    let mut board = board(Window::Console, RECEIVEQ, one_chain(), 64);
    let buffers = [(0x400, 1, WRITE), (0x401, 1, WRITE)];
    offer(
        board.memory(0, MEMORY).expect("a memory"),
        &buffers,
        &[0, 1],
    );
    let (took, pending) = board.input(0, b"ls").expect("input");
    assert!(took == 2 && pending.more);
    let paused = Counters {
        chains: 1,
        bytes_in: 1,
        pauses: 1,
        ..Counters::default()
    };
    assert_eq!(board.counters(0), Ok(paused));
    assert!(!board.go_on(0).unwrap().more);
    let done = Counters {
        chains: 2,
        bytes_in: 2,
        ..paused
    };
    assert_eq!(board.counters(0), Ok(done));
}

/// The outlet has room for the first chain's byte. The second goes out once that one is taken, by another notification.
#[test]
fn refusals_are_counted() {
    let mut board = board(Window::Console, TRANSMITQ, Budget::default(), 1);
    let buffers = [(0x400, 1, 0), (0x401, 1, 0)];
    offer(
        board.memory(0, MEMORY).expect("a memory"),
        &buffers,
        &[0, 1],
    );
    for refusals in [1, 2] {
        let refused = board.write(0, Window::Console, NOTIFY, 4, 1);
        assert!(matches!(refused, Err(Error::NoRoom(_))));
        let counted = Counters {
            notifies: refusals,
            chains: 1,
            bytes_out: 1,
            refusals,
            ..Counters::default()
        };
        assert_eq!(board.counters(0), Ok(counted));
    }
    assert_eq!(board.take_output(0, &mut [0; 4]), Ok(1));
    let _ = board.write(0, Window::Console, NOTIFY, 4, 1).unwrap();
    let counted = Counters {
        notifies: 3,
        chains: 2,
        bytes_out: 2,
        refusals: 2,
        ..Counters::default()
    };
    assert_eq!(board.counters(0), Ok(counted));
}

/// A head of 8 names no place of a table of eight. The chain before it is used; then the window serves nothing until a reset.
#[test]
fn a_fault_is_counted() {
    let mut board = board(Window::Console, TRANSMITQ, Budget::default(), 64);
    offer(
        board.memory(0, MEMORY).expect("a memory"),
        &[(0x400, 3, 0)],
        &[0, 8],
    );
    for _ in 0..2 {
        let _ = board.write(0, Window::Console, NOTIFY, 4, 1).unwrap();
    }
    let counted = Counters {
        notifies: 1,
        chains: 1,
        bytes_out: 3,
        faults: 1,
        ..Counters::default()
    };
    assert_eq!(board.counters(0), Ok(counted));
    let status = board.read(0, Window::Console, STATUS, 4).unwrap();
    assert_eq!(status & NEEDS_RESET, NEEDS_RESET);
    let fault = DriverFault {
        kind: FaultKind::Index,
        queue: TRANSMITQ,
        head: Some(8),
        place: 1,
    };
    assert_eq!(board.last_fault(0, Window::Console), Ok(Some(fault)));
    assert_eq!(
        fault.to_string(),
        "queue 1, head 8, place 1: a descriptor's index outside its table"
    );
    assert_eq!(board.last_fault(0, Window::Block), Ok(None));
    assert_eq!(board.last_fault(2, Window::Block), Err(Error::BadSlot));

    // more chains are available than the queue has places (2.7.13): the service ends as it opens
    let _ = board.write(0, Window::Console, STATUS, 4, 0).unwrap();
    for (offset, value) in bring_up(TRANSMITQ) {
        let _ = board.write(0, Window::Console, offset, 4, value).unwrap();
    }
    board.memory(0, MEMORY).expect("a memory")[0x202] = 9;
    let _ = board.write(0, Window::Console, NOTIFY, 4, 1).unwrap();
    let counted = Counters {
        notifies: 2,
        faults: 2,
        ..counted
    };
    assert_eq!(board.counters(0), Ok(counted));
    let fault = DriverFault {
        kind: FaultKind::Jump,
        queue: TRANSMITQ,
        head: None,
        place: 0,
    };
    assert_eq!(board.last_fault(0, Window::Console), Ok(Some(fault)));
}

/// A read of sector 0 into pages 3 and 5. The used ring and the status are in page 0. What the host writes, and another guest's
/// pages, aren't marked.
#[test]
fn pages_that_a_device_writes_to_are_marked() {
    let mut board = board(Window::Block, 0, Budget::default(), 0);
    for slot in [0, 1] {
        board.keep_pages(slot, 16).expect("a slot");
    }
    assert_eq!(board.keep_pages(2, 16), Err(Error::BadSlot));
    assert_eq!(board.keep_pages(0, 8), Err(Error::TooFewPages));
    let mut request = REQUEST;
    (request[1].0, request[2].0) = (0x3800, 0x5a00);
    offer(board.memory(0, MEMORY).expect("a memory"), &request, &[0]);
    board.write_memory(0, MEMORY + 0x9000, &[1]).unwrap();
    assert_eq!(board.pages(0), [0, 0]);
    let _ = board.write(0, Window::Block, NOTIFY, 4, 0).unwrap();
    assert_eq!(board.pages(0), [0b10_1001, 0]);
    assert_eq!(board.pages(1), [0, 0]);

    // they stay until the host clears them, and are kept no longer than it asks
    let _ = board.write(0, Window::Block, NOTIFY, 4, 0).unwrap();
    assert_eq!(board.pages(0), [0b10_1001, 0]);
    board.pages(0).fill(0);
    let _ = board.write(0, Window::Block, NOTIFY, 4, 0).unwrap();
    assert_eq!(board.pages(0)[0] & 0b10_1000, 0); // nothing is read; the used ring may be written to
    board.keep_pages(0, 0).expect("a slot");
    assert!(board.pages(0).is_empty());
}

/// A guest whose disk the host serves. These chains were on offer, and its driver has notified.
fn hosted(buffers: &[Buffer], heads: &[u8]) -> Board {
    let slots = [Slot::hosted(MEMORY, LEN, 2)];
    let mut board = Board::create(&Config::new(&slots)).expect("a board");
    for (offset, value) in bring_up(0) {
        let _ = board.write(0, Window::Block, offset, 4, value).unwrap();
    }
    offer(board.memory(0, MEMORY).expect("a memory"), buffers, heads);
    assert!(board.write(0, Window::Block, NOTIFY, 4, 0).unwrap().io);
    board
}

#[test]
fn a_hosted_read_is_counted_once_it_is_completed() {
    let mut board = hosted(&REQUEST, &[0]);
    let asked = Counters {
        notifies: 1,
        ..Counters::default()
    };
    assert_eq!(board.counters(0), Ok(asked));
    let _ = board.complete(0, Window::Block, 0, Outcome::Done).unwrap();
    let done = Counters {
        chains: 1,
        bytes_in: 512 + 1,
        bytes_out: 16,
        ..asked
    };
    assert_eq!(board.counters(0), Ok(done));
    assert_eq!(board.counters(1), Err(Error::BadSlot));
}

/// Of a read that failed only the status was written, behind data that weren't: none at the front, so the used length is 0.
#[test]
fn a_failure_of_the_host_is_a_refusal() {
    let mut board = hosted(&REQUEST, &[0]);
    let _ = board
        .complete(0, Window::Block, 0, Outcome::Failed)
        .unwrap();
    let failed = Counters {
        notifies: 1,
        chains: 1,
        bytes_out: 16,
        refusals: 1,
        ..Counters::default()
    };
    assert_eq!(board.counters(0), Ok(failed));
}

/// A flush that has a header and a status alone comes behind the read, and the console puts out a byte meanwhile, without a
/// queue.
#[test]
fn requests_of_a_disk_are_counted_one_by_one() {
    let flush = [(0x500, 16, NEXT), (0xd00, 1, WRITE)];
    let mut board = hosted(&[REQUEST.as_slice(), &flush].concat(), &[0, 4]);
    board.write_memory(0, MEMORY + 0x500, &[4]).unwrap();
    let _ = board.write(0, Window::Console, 0x108, 1, 0x21).unwrap();
    assert_eq!(board.counters(0).map(|it| it.chains), Ok(0));
    assert!(
        board
            .complete(0, Window::Block, 0, Outcome::Done)
            .unwrap()
            .io
    );
    assert_eq!(board.counters(0).map(|it| it.chains), Ok(1));
    assert!(
        !board
            .complete(0, Window::Block, 0, Outcome::Done)
            .unwrap()
            .io
    );
    let counted = Counters {
        notifies: 1,
        chains: 2,
        bytes_in: 512 + 1 + 1,
        bytes_out: 2 * 16,
        ..Counters::default()
    };
    assert_eq!(board.counters(0), Ok(counted));
}

/// What its console puts out is counted beside what its disk does, and so is what finds no room in its outlet.
#[test]
fn a_hosted_guest_has_a_console_too() {
    let slots = [Slot::hosted(MEMORY, LEN, 2).with_outlet(3)];
    let mut board = Board::create(&Config::new(&slots)).expect("a board");
    for (window, queue) in [(Window::Block, 0), (Window::Console, TRANSMITQ)] {
        for (offset, value) in bring_up(queue) {
            let _ = board.write(0, window, offset, 4, value).unwrap();
        }
    }
    let memory = board.memory(0, MEMORY).expect("a memory");
    offer(memory, &[(0x400, 3, 0), (0x403, 1, 0)], &[0, 1]);
    let refused = board.write(0, Window::Console, NOTIFY, 4, 1);
    assert!(matches!(refused, Err(Error::NoRoom(_))));
    let put_out = Counters {
        notifies: 1,
        chains: 1,
        bytes_out: 3,
        refusals: 1,
        ..Counters::default()
    };
    assert_eq!(board.counters(0), Ok(put_out));

    // the same memory, now with a request of the disk
    let memory = board.memory(0, MEMORY).expect("a memory");
    offer(memory, &REQUEST, &[0]);
    memory[0x400] = 8; // GET_ID, which has data of 20 bytes
    memory[0x110 + 8..][..2].copy_from_slice(&[20, 0]);
    memory[0x110 + 14] = 3; // the status is the next buffer
    assert!(!board.write(0, Window::Block, NOTIFY, 4, 0).unwrap().io);
    let both = Counters {
        notifies: 2,
        chains: 2,
        bytes_in: 20 + 1,
        bytes_out: 3 + 16,
        ..put_out
    };
    assert_eq!(board.counters(0), Ok(both));
}
