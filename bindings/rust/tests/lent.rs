//! Memory that the host lends, as bytes or as words: each guest has its own, region by region, and the host has all of it again.

use kalyubos::{Board, Config, CreateError, GuestConfig, RunningGuest, Slot};
use std::ptr::NonNull;
use std::sync::atomic::{AtomicU64, Ordering};

/// Where a guest's first region begins. Its second one is a page behind the end of the first.
const FIRST: u64 = 0x8000_0000;
const SECOND: u64 = 0x8000_2000;

const PAGE: usize = 0x1000;

/// Two guests at the same addresses, of two regions of a page each. The host serves the second one's disk.
fn guests() -> [Slot; 2] {
    let len = PAGE as u64;
    [Slot::new(FIRST, len, 0..1), Slot::hosted(FIRST, len, 1)]
        .map(|slot| slot.with_region(SECOND, len))
}

/// The pages of both guests, of which each byte is the page's number, from 1 on.
fn pages() -> [Vec<u8>; 4] {
    [1, 2, 3, 4].map(|byte| vec![byte; PAGE])
}

fn lent(pages: &mut [Vec<u8>]) -> Vec<NonNull<[u8]>> {
    pages
        .iter_mut()
        .map(|page| NonNull::from(&mut page[..]))
        .collect()
}

/// What must be left once guest 0 has written `ab` at the end of its first page, and guest 1 `cd` at the front of its second.
fn written() -> [Vec<u8>; 4] {
    let mut pages = pages();
    pages[0][PAGE - 2..].copy_from_slice(b"ab");
    pages[3][..2].copy_from_slice(b"cd");
    pages
}

#[test]
fn each_guest_has_its_own_pages() {
    let mut pages = pages();
    let loans = lent(&mut pages);
    // SAFETY: nothing else reaches the pages until the board is dropped.
    let made = unsafe { Board::over_lent(&Config::new(&guests()).with_image(&[0; 512]), &loans) };
    let mut board = made.unwrap();
    for (slot, bytes) in [(0, [1, 2]), (1, [3, 4])] {
        for (addr, byte) in [FIRST, SECOND].into_iter().zip(bytes) {
            let mut found = [0; PAGE];
            board.read_memory(slot, addr, &mut found).unwrap();
            assert_eq!(found, [byte; PAGE], "guest {slot} at {addr:x}");
        }
    }
    board.write_memory(0, FIRST + 0xffe, b"ab").unwrap();
    board.memory(1, SECOND).unwrap()[..2].copy_from_slice(b"cd");
    drop(board);
    assert!(pages == written());
}

#[test]
fn other_pages_are_refused_and_left() {
    let mut pages = pages();
    let mut loans = lent(&mut pages);
    let last = loans.pop().unwrap();
    let guests = guests();
    let config = Config::new(&guests).with_image(&[0; 512]);
    // SAFETY: nothing else reaches the pages until the boards are refused.
    let refused = unsafe { Board::over_lent(&config, &loans) };
    assert_eq!(refused.unwrap_err(), CreateError::BadLoan);
    loans.insert(0, last);
    loans.push(last);
    // SAFETY: as above.
    let refused = unsafe { Board::over_lent(&config, &loans) };
    assert_eq!(refused.unwrap_err(), CreateError::BadLoan);
    // SAFETY: nothing is lent.
    let refused = unsafe { Board::over_lent(&config, &[]) };
    assert_eq!(refused.unwrap_err(), CreateError::BadLoan);
    assert!(pages == self::pages());
}

/// Words of a page each, of which each is its page's number, from 1 on.
fn words() -> [Vec<AtomicU64>; 2] {
    [1, 2].map(|number| (0..PAGE / 8).map(|_| AtomicU64::new(number)).collect())
}

fn values(words: &[Vec<AtomicU64>; 2]) -> [Vec<u64>; 2] {
    [0, 1].map(|page| {
        let loaded = words[page].iter().map(|word| word.load(Ordering::Acquire));
        loaded.collect()
    })
}

/// A guest that runs on has the words of its regions: neither its beginning nor its end changes one.
#[test]
fn a_guest_that_runs_on_has_its_words() {
    let words = words();
    let lent = [0, 1].map(|page| NonNull::from(&words[page][..]));
    let [_, slot] = guests();
    // SAFETY: the words stay until the guest is dropped, and are lent to no other.
    let guest = unsafe { RunningGuest::over_lent(&GuestConfig::new(&slot), &lent) }.unwrap();
    assert!(values(&words) == values(&self::words()));
    guest.memory().write(FIRST + 0xffe, b"ab").unwrap();
    guest.memory().write(SECOND, b"cd").unwrap();
    words[1][1].store(7, Ordering::Release);
    assert_eq!(
        guest.memory().words(SECOND + 8).unwrap().as_ptr(),
        &raw const words[1][1]
    );
    drop(guest);
    let mut expected = values(&self::words());
    expected[0][PAGE / 8 - 1] = u64::from_ne_bytes(*b"\x01\0\0\0\0\0ab");
    expected[1][0] = u64::from_ne_bytes(*b"cd\0\0\0\0\0\0");
    expected[1][1] = 7;
    assert!(values(&words) == expected);
}

#[test]
fn other_words_are_refused_and_left() {
    let words = words();
    let [first, second] = [0, 1].map(|page| NonNull::from(&words[page][..]));
    let [of_an_image, slot] = guests();
    let refused = |slot: &Slot, lent: &[_]| {
        // SAFETY: the words stay until the guest is refused.
        let refused = unsafe { RunningGuest::over_lent(&GuestConfig::new(slot), lent) };
        refused.unwrap_err()
    };
    let short = NonNull::from(&words[1][1..]);
    for lent in [&[first][..], &[first, short], &[first, second, short], &[]] {
        assert_eq!(refused(&slot, lent), CreateError::BadLoan);
    }
    let lent = [first, second];
    assert_eq!(refused(&of_an_image, &lent), CreateError::NotHosted);
    assert!(values(&words) == values(&self::words()));
}
