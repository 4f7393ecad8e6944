//! Each call at its edges: what it answers, and that the next call goes on.

use kalyubos::{
    Board, Budget, Config, CreateError, Error, Identity, IdentityTooLong, Interrupts, Pending,
    Region, Slot, Window,
};
use std::num::NonZeroU32;
use std::sync::Mutex;
use std::thread;

const MEMORY: u64 = 0x8000_0000;
const LEN: u64 = 0x1_0000;
const STATUS: u16 = 0x070;
const EMERG_WR: u16 = 0x108;

/// A board over an image.
fn board_of(slots: &[Slot], image: &[u8]) -> Board {
    Board::create(&Config::new(slots).with_image(image)).expect("a board")
}

fn one_guest() -> Board {
    board_of(&[Slot::new(MEMORY, LEN, 0..2)], &[7; 1024])
}

#[test]
fn each_refusal_of_create_is_told() {
    let good = Slot::new(MEMORY, LEN, 0..1);
    let refused = |slots: &[Slot], image: &[u8], cache| {
        let config = Config::new(slots).with_image(image).with_cache(cache);
        let refused = Board::create(&config).unwrap_err();
        assert_eq!(config.judge().map_err(|fault| fault.why), Err(refused));
        refused
    };
    let of_one = |slot: Slot| refused(&[slot], &[0; 512], 1);
    let one = [good.clone()];

    assert_eq!(refused(&[], &[0; 512], 1), CreateError::NoSlots);
    assert_eq!(
        refused(&vec![good.clone(); 65], &[0; 512], 1),
        CreateError::TooManySlots
    );
    assert_eq!(
        refused(&[good.clone(), good.clone()], &[0; 512], 1),
        CreateError::ExtentsOverlap
    );
    assert_eq!(refused(&one, &[0; 513], 1), CreateError::BadImage);
    assert_eq!(refused(&one, &[0; 512], 0), CreateError::BadCache);
    assert_eq!(refused(&one, &[0; 512], 65537), CreateError::BadCache);
    assert_eq!(
        of_one(Slot::new(MEMORY, LEN + 1, 0..1)),
        CreateError::BadMemorySize
    );
    assert_eq!(
        of_one(Slot::new(MEMORY, (1 << 46) + 4096, 0..1)),
        CreateError::BadMemorySize
    );
    assert_eq!(
        of_one(Slot::new(MEMORY + 1, LEN, 0..1)),
        CreateError::BadMemoryBase
    );
    assert_eq!(
        of_one(Slot::new(MEMORY, LEN, 0..2)),
        CreateError::ExtentOutside
    );
    assert_eq!(
        of_one(good.clone().with_region(MEMORY + LEN, LEN)),
        CreateError::RegionsNotApart
    );
    for len in [0, 1, 1 << 46] {
        assert_eq!(
            of_one(good.clone().with_region(MEMORY + 2 * LEN, len)),
            CreateError::BadMemorySize
        );
    }
    let mut many = good.clone();
    for place in 1..8 {
        many = many.with_region(MEMORY + 2 * LEN * place, LEN);
    }
    board_of(&[many.clone()], &[0; 512]);
    assert_eq!(
        of_one(many.with_region(MEMORY + 16 * LEN, LEN)),
        CreateError::TooManyRegions
    );
    assert_eq!(
        of_one(good.with_outlet((1 << 24) + 1)),
        CreateError::BadOutlet
    );
}

#[test]
fn a_slot_that_is_wrong_is_told_by_its_place() {
    let image = [0; 64 * 512];
    for place in 0..64 {
        let mut slots: Vec<Slot> = (0..64)
            .map(|at| Slot::new(MEMORY, LEN, at..at + 1))
            .collect();
        slots[place] = Slot::new(MEMORY, LEN, 0..0).with_region(MEMORY + 2 * LEN, LEN + 1);
        let fault = Config::new(&slots).with_image(&image).judge().unwrap_err();
        assert_eq!(fault.why, CreateError::BadMemorySize);
        assert_eq!((fault.slot, fault.region), (Some(place), Some(1)));
    }
    let good = Slot::new(MEMORY, LEN, 0..64);
    let many = (1..9).fold(good.clone(), |slot, place| {
        slot.with_region(MEMORY + 2 * LEN * place, LEN)
    });
    for (slots, cache, why, slot) in [
        (vec![good.clone()], 0, CreateError::BadCache, None),
        (vec![], 1, CreateError::NoSlots, None),
        (vec![good, many], 1, CreateError::TooManyRegions, Some(1)),
    ] {
        let config = Config::new(&slots).with_image(&image).with_cache(cache);
        let fault = config.judge().unwrap_err();
        assert_eq!((fault.why, fault.slot, fault.region), (why, slot, None));
    }
}

/// A board of two guests, of which the first has two chains of one byte on offer in its transmit queue.
fn two_chains_on_offer(budget: Budget, outlet: u32) -> Board {
    let slots = [
        Slot::new(MEMORY, LEN, 0..1).with_outlet(outlet),
        Slot::new(MEMORY, LEN, 1..2),
    ];
    let config = Config::new(&slots)
        .with_image(&[0; 1024])
        .with_budget(budget);
    let mut board = Board::create(&config).expect("a board");
    for (offset, value) in [
        (0x070, 3),
        (0x024, 1),
        (0x020, 1),
        (0x070, 11),
        (0x030, 1),
        (0x038, 2),
        (0x080, 0x8000_1000),
        (0x090, 0x8000_2000),
        (0x0a0, 0x8000_3000),
        (0x044, 1),
        (0x070, 15),
    ] {
        let pending = board
            .write(0, Window::Console, offset, 4, value)
            .expect("a register");
        assert!(!pending.more);
    }
    for (place, address) in [(0x1000, 0x4000_u32), (0x1010, 0x4001)] {
        let mut descriptor = [0; 16];
        descriptor[..4].copy_from_slice(&(0x8000_0000 + address).to_le_bytes());
        descriptor[8] = 1;
        board
            .write_memory(0, MEMORY + place, &descriptor)
            .expect("a descriptor");
    }
    board
        .write_memory(0, MEMORY + 0x2000, &[0, 0, 2, 0, 0, 0, 1, 0])
        .expect("the available ring");
    board
        .write_memory(0, MEMORY + 0x4000, b"ab")
        .expect("the bytes");
    board
}

#[test]
fn a_service_pauses_and_goes_on() {
    let budget = Budget {
        chains: NonZeroU32::new(1),
        bytes: None,
    };
    let mut board = two_chains_on_offer(budget, 64);
    let pending = board.write(0, Window::Console, 0x050, 4, 1).unwrap();
    assert!(pending.more);
    assert_eq!(pending.output, 1);
    assert_eq!(board.read(0, Window::Console, STATUS, 4), Err(Error::Busy));
    assert_eq!(board.write_memory(0, MEMORY, &[1]), Err(Error::Busy));
    assert_eq!(board.read(1, Window::Console, STATUS, 4), Ok(0));

    let pending = board.go_on(0).unwrap();
    assert!(!pending.more);
    assert_eq!(pending.interrupts.console, 1);
    let mut out = [0; 4];
    assert_eq!(board.take_output(0, &mut out), Ok(2));
    assert_eq!(out[..2], *b"ab");
    assert_eq!(board.go_on(0).map(|pending| pending.more), Ok(false));
    assert_eq!(board.go_on(2), Err(Error::BadSlot));
}

#[test]
fn without_a_budget_nothing_pauses() {
    let mut board = two_chains_on_offer(Budget::default(), 64);
    let pending = board.write(0, Window::Console, 0x050, 4, 1).unwrap();
    assert!(!pending.more);
    assert_eq!(pending.output, 2);
}

/// The first chain's byte fills the outlet, and the driver is told of it, though the second finds no room.
#[test]
fn what_waits_is_told_where_output_finds_no_room() {
    let mut board = two_chains_on_offer(Budget::default(), 1);
    let told = Pending {
        interrupts: Interrupts {
            block: 0,
            console: 1,
        },
        output: 1,
        ..Pending::default()
    };
    let refused = board.write(0, Window::Console, 0x050, 4, 1);
    assert_eq!(refused, Err(Error::NoRoom(told)));
    assert_eq!(board.interrupts(0), Ok(told.interrupts));
    let mut out = [0; 4];
    assert_eq!(board.take_output(0, &mut out), Ok(1));
    assert_eq!(board.write(0, Window::Console, 0x050, 4, 1), Ok(told));
    assert_eq!(board.take_output(0, &mut out), Ok(1));
    assert_eq!(out[..1], *b"b");
}

#[test]
fn a_slot_tells_what_it_was_made_with() {
    let identity = Identity::from([9; 20]);
    let slot = Slot::new(MEMORY, LEN, 1..3)
        .with_console(132, 43)
        .with_outlet(5)
        .with_read_only(true)
        .with_identity(identity);
    let memory = Region {
        base: MEMORY,
        len: LEN,
    };
    assert_eq!(slot.regions(), [memory]);
    assert_eq!(slot.sectors(), 1..3);
    assert_eq!((slot.console(), slot.outlet()), ((132, 43), 5));
    assert_eq!((slot.is_read_only(), slot.identity()), (true, identity));
    assert!(!slot.is_hosted());
    let hosted = Slot::hosted(MEMORY, LEN, 5);
    assert_eq!((hosted.sectors(), hosted.is_hosted()), (0..5, true));
    assert_eq!((hosted.depth(), hosted.with_depth(64).depth()), (1, 64));
}

#[test]
fn there_is_no_slot_1() {
    let mut board = one_guest();
    let mut byte = [0];
    assert_eq!(board.read(1, Window::Block, 0, 4), Err(Error::BadSlot));
    assert_eq!(
        board.write(1, Window::Block, STATUS, 4, 1),
        Err(Error::BadSlot)
    );
    assert_eq!(board.read_memory(1, MEMORY, &mut byte), Err(Error::BadSlot));
    assert_eq!(board.write_memory(1, MEMORY, &byte), Err(Error::BadSlot));
    assert_eq!(board.memory(1, MEMORY).unwrap_err(), Error::BadSlot);
    assert_eq!(board.input(1, b"x"), Err(Error::BadSlot));
    assert_eq!(board.resize(1, 1, 1), Err(Error::BadSlot));
    assert_eq!(board.take_output(1, &mut byte), Err(Error::BadSlot));
    assert_eq!(board.interrupts(1), Err(Error::BadSlot));
    assert_eq!(board.disturbed(1), Err(Error::BadSlot));
}

#[test]
fn memory_has_two_ends() {
    let mut board = one_guest();
    let mut seen = [0xff; 2];
    for addr in [MEMORY, MEMORY + LEN - 2] {
        board.write_memory(0, addr, &[1, 2]).unwrap();
        board.read_memory(0, addr, &mut seen).unwrap();
        assert_eq!(seen, [1, 2]);
    }
    for addr in [MEMORY - 1, MEMORY + LEN - 1, u64::MAX] {
        assert_eq!(board.read_memory(0, addr, &mut seen), Err(Error::BadRange));
        assert_eq!(board.write_memory(0, addr, &seen), Err(Error::BadRange));
    }
    // An empty range lies inside up to the memory's end.
    assert_eq!(board.write_memory(0, MEMORY + LEN, &[]), Ok(()));
    assert_eq!(
        board.write_memory(0, MEMORY + LEN + 1, &[]),
        Err(Error::BadRange)
    );
}

#[test]
fn memory_in_place_is_the_guests() {
    let mut board = one_guest();
    let parts = board.memory_parts(0, MEMORY).unwrap();
    assert_eq!(
        (parts.len(), parts.cast::<u8>().as_ptr() as usize % 4096),
        (LEN as usize, 0)
    );
    board.memory(0, MEMORY).unwrap()[..2].copy_from_slice(&[1, 2]);
    board.memory(0, MEMORY).unwrap()[LEN as usize - 1] = 3;
    let mut seen = [0; 2];
    board.read_memory(0, MEMORY, &mut seen).unwrap();
    assert_eq!(seen, [1, 2]);
    board.read_memory(0, MEMORY + LEN - 2, &mut seen).unwrap();
    assert_eq!(seen, [0, 3]);
    board.write_memory(0, MEMORY + LEN - 2, &[4, 5]).unwrap();
    assert_eq!(board.memory(0, MEMORY).unwrap()[LEN as usize - 2..], [4, 5]);
    assert_eq!(board.memory_parts(0, MEMORY), Ok(parts));
}

#[test]
fn memory_in_two_regions_has_a_gap() {
    let second = MEMORY + LEN + 0x1000;
    let slot = Slot::new(MEMORY, LEN, 0..2).with_region(second, 0x2000);
    let mut board = board_of(&[slot], &[7; 1024]);
    for (addr, len) in [(MEMORY, LEN), (second, 0x2000), (second + 0x1fff, 1)] {
        assert_eq!(
            board.memory(0, addr).map(|bytes| bytes.len() as u64),
            Ok(len)
        );
    }
    for addr in [MEMORY - 1, MEMORY + LEN, second - 1, second + 0x2000] {
        assert_eq!(board.memory(0, addr).unwrap_err(), Error::BadRange);
    }
    board.memory(0, second).unwrap()[0] = 9;
    let mut seen = [0];
    board.read_memory(0, second, &mut seen).unwrap();
    assert_eq!(seen, [9]);

    // neither region holds all of a range that crosses a border
    let mut range = [0; 2];
    for addr in [MEMORY + LEN - 1, second - 1] {
        assert_eq!(board.read_memory(0, addr, &mut range), Err(Error::BadRange));
        assert_eq!(board.write_memory(0, addr, &range), Err(Error::BadRange));
    }
}

#[test]
fn the_image_is_lent_and_copied() {
    let mut board = one_guest();
    let mut last = [0; 1];
    assert_eq!(board.image_len(), Ok(1024));
    assert_eq!(board.image(), Ok(&[7; 1024][..]));
    assert_eq!(board.read_image(1023, &mut last), Ok(()));
    assert_eq!(last, [7]);
    assert_eq!(board.read_image(1024, &mut last), Err(Error::BadRange));
}

#[test]
fn a_resize_raises_the_consoles_line_alone() {
    let mut board = one_guest();
    let told = board.write(0, Window::Console, STATUS, 4, 4).unwrap(); // DRIVER_OK
    assert_eq!(told, Pending::default());
    assert_eq!(
        board.interrupts(0),
        Ok(Interrupts {
            block: 0,
            console: 0
        })
    );
    let told = board.resize(0, 100, 40).unwrap();
    assert_eq!(
        told,
        Pending {
            interrupts: Interrupts {
                block: 0,
                console: 2
            },
            ..Pending::default()
        }
    );
    assert_eq!(board.interrupts(0), Ok(told.interrupts));
    assert_eq!(board.read(0, Window::Console, 0x100, 2), Ok(100));
    assert_eq!(board.read(0, Window::Console, 0x102, 2), Ok(40));
}

#[test]
fn output_waits_in_parts() {
    let mut board = one_guest();
    for (waits, byte) in (1..).zip(*b"abc") {
        let told = board
            .write(0, Window::Console, EMERG_WR, 1, byte.into())
            .unwrap();
        assert_eq!(told.output, waits);
    }
    let mut part = [0; 2];
    assert_eq!(board.take_output(0, &mut part), Ok(2));
    assert_eq!(part, *b"ab");
    assert_eq!(board.take_output(0, &mut part), Ok(1));
    assert_eq!(part, *b"cb");
    assert_eq!(board.take_output(0, &mut []), Ok(0));
    assert_eq!(board.disturbed(0), Ok(false));
}

#[test]
fn threads_share_a_board_in_a_lock() {
    let slots: Vec<Slot> = (0..4)
        .map(|at| Slot::new(MEMORY, LEN, at..at + 1))
        .collect();
    let board = Mutex::new(board_of(&slots, &[0; 4 * 512]));
    thread::scope(|cpus| {
        for slot in 0..4 {
            let board = &board;
            cpus.spawn(move || {
                for turn in 0..100 {
                    let mark = [slot, turn];
                    let mut seen = [0; 2];
                    board
                        .lock()
                        .unwrap()
                        .write_memory(slot, MEMORY, &mark)
                        .unwrap();
                    board
                        .lock()
                        .unwrap()
                        .read_memory(slot, MEMORY, &mut seen)
                        .unwrap();
                    assert_eq!(seen, mark);
                }
            });
        }
    });
}

/// What the slot's driver reads by GET_ID, where the device has been brought up with a queue of one split request.
fn get_id(board: &mut Board, slot: u8) -> [u8; 20] {
    let mut set = |offset, value| board.write(slot, Window::Block, offset, 4, value).unwrap();
    for (offset, value) in [
        (STATUS, 0),
        (STATUS, 3),
        (0x024, 1), // the high word of the driver's features: VERSION_1
        (0x020, 1),
        (STATUS, 11),
        (0x038, 4), // a queue of 4
        (0x080, 0x8000_1000),
        (0x090, 0x8000_2000),
        (0x0a0, 0x8000_3000),
        (0x044, 1),
        (STATUS, 15),
    ] {
        assert_eq!(set(offset, value), Pending::default());
    }
    let memory = board.memory(slot, MEMORY).unwrap();
    let mut put = |at: usize, bytes: &[u8]| memory[at..at + bytes.len()].copy_from_slice(bytes);
    // descriptors: 16 bytes of header, 20 of data, the status
    put(
        0x1000,
        &[0, 0x40, 0, 0x80, 0, 0, 0, 0, 16, 0, 0, 0, 1, 0, 1, 0],
    );
    put(
        0x1010,
        &[0, 0x50, 0, 0x80, 0, 0, 0, 0, 20, 0, 0, 0, 3, 0, 2, 0],
    );
    put(
        0x1020,
        &[0, 0x60, 0, 0x80, 0, 0, 0, 0, 1, 0, 0, 0, 2, 0, 0, 0],
    );
    put(0x4000, &[8]);
    put(0x2002, &[1, 0]);
    let served = board.write(slot, Window::Block, 0x050, 4, 0).unwrap();
    assert_eq!(served.interrupts.block, 1);
    let mut told = [0; 20];
    board.read_memory(slot, MEMORY + 0x5000, &mut told).unwrap();
    told
}

#[test]
fn each_of_64_disks_tells_its_own_identity() {
    let slots: Vec<Slot> = (0..64)
        .map(|number| Slot::new(MEMORY, LEN, 0..0).with_identity(Identity::from([number + 1; 20])))
        .collect();
    let mut board = board_of(&slots, &[0; 512]);
    for number in 0..64 {
        assert_eq!(get_id(&mut board, number), [number + 1; 20]);
    }
    assert_eq!(board.read(64, Window::Block, 0, 4), Err(Error::BadSlot));
}

#[test]
fn an_identity_is_a_text_of_20_bytes_at_most() {
    let slot = |identity| Slot::new(MEMORY, LEN, 0..1).with_identity(identity);
    let told = |identity| get_id(&mut board_of(&[slot(identity)], &[0; 512]), 0);
    assert_eq!(
        told("disk-0".parse().unwrap()),
        *b"disk-0\0\0\0\0\0\0\0\0\0\0\0\0\0\0"
    );
    assert_eq!(told("".parse().unwrap()), [0; 20]);
    assert_eq!(
        told("a disk of 20 letters".parse().unwrap()),
        *b"a disk of 20 letters"
    );
    let long = "a disk of 21 letters!".parse::<Identity>();
    assert_eq!(long, Err(IdentityTooLong { len: 21 }));
    assert_eq!(
        long.unwrap_err().to_string(),
        "an identity has 20 bytes at most, and this text has 21"
    );
}

#[test]
fn errors_say_what_is_wrong() {
    let shown: Box<dyn std::error::Error> = Error::BadSlot.into();
    assert_eq!(shown.to_string(), "the board has no such slot");
    assert_eq!(CreateError::NoSlots.to_string(), "a board needs a slot");
    let fault = Config::new(&[Slot::hosted(MEMORY, 1, 0)]).judge();
    assert_eq!(
        fault.unwrap_err().to_string(),
        "slot 0: region 0: a region's length is a multiple of 4096, and a guest has 2^46 bytes at most"
    );
}
