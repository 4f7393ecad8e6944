//! The memory of a guest that runs on: words that others read and write at any moment.

use crate::error::{CreateError, Error};
use crate::ffi;
use crate::slot::Region;
use std::alloc::{alloc_zeroed, Layout};
use std::fmt;
use std::ops::Range;
use std::ptr::NonNull;
use std::sync::atomic::{AtomicU64, Ordering};
use std::sync::Arc;

/// How many bytes a word has.
const WORD: usize = 8;

/// A region of a guest's own memory begins at a multiple of so many bytes.
const PAGE: usize = 4096;

/// The memory of a [guest that runs on](crate::RunningGuest), as words of 8 bytes. Its CPUs, its transfers, its host and the
/// library read and write them at any moment, so nobody ever borrows its bytes: a word is read and written by atomic steps.
///
/// A clone is the same memory. Give one to each thread that moves a disk's bytes: they go on during calls for the guest.
/// Memory of [`create`](crate::RunningGuest::create) stays until the guest and all clones are dropped.
///
/// ```
/// use kalyubos::{GuestConfig, RunningGuest, Slot};
/// use std::sync::atomic::Ordering;
/// use std::thread;
///
/// let slot = Slot::hosted(0x8000_0000, 0x1_0000, 8);
/// let guest = RunningGuest::create(&GuestConfig::new(&slot))?;
/// let memory = guest.memory().clone();
/// thread::spawn(move || memory.write(0x8000_0006, b"hello")).join().unwrap()?;
///
/// let mut seen = [0; 5];
/// guest.memory().read(0x8000_0006, &mut seen)?;
/// assert_eq!(&seen, b"hello");
/// let words = guest.memory().words(0x8000_0000)?;
/// assert_eq!(words.len(), 0x2000);
/// assert_eq!(words[1].load(Ordering::Acquire).to_ne_bytes(), *b"llo\0\0\0\0\0");
/// # Ok::<(), Box<dyn std::error::Error>>(())
/// ```
#[derive(Clone)]
pub struct SharedMemory {
    regions: Arc<Regions>,
}

// Where each region begins, and its words.
struct Regions {
    bases: Vec<u64>,
    words: Vec<Words>,
}

// The words of a region.
enum Words {
    // Of the heap. Some are skipped, so that the region begins at a page.
    Own {
        all: Box<[AtomicU64]>,
        skipped: usize,
        len: usize,
    },
    // Of the caller of `over_lent`.
    Lent(NonNull<[AtomicU64]>),
}

// SAFETY: nothing but atomic accesses reaches the words, from any thread.
unsafe impl Send for Words {}
unsafe impl Sync for Words {}

impl Words {
    // So many zeros, which aren't touched before they are used, or none where the heap has too little memory.
    fn zeros(len: usize) -> Option<Words> {
        let spare = PAGE / WORD - 1;
        let layout = Layout::array::<AtomicU64>(len.checked_add(spare)?).ok()?;
        // SAFETY: the spare words aren't none.
        let first = NonNull::new(unsafe { alloc_zeroed(layout) })?;
        let all = NonNull::slice_from_raw_parts(first.cast::<AtomicU64>(), len + spare);
        // SAFETY: the zeros of this layout are words, and of the heap that a box gives them back to.
        let all = unsafe { Box::from_raw(all.as_ptr()) };
        let skipped = (all.as_ptr() as usize).wrapping_neg() % PAGE / WORD;
        Some(Words::Own { all, skipped, len })
    }

    fn all(&self) -> &[AtomicU64] {
        match self {
            Words::Own { all, skipped, len } => &all[*skipped..][..*len],
            // SAFETY: the caller of `over_lent` keeps them while there is a guest or a memory that has them.
            Words::Lent(words) => unsafe { words.as_ref() },
        }
    }
}

impl SharedMemory {
    // Zeros for these regions.
    pub(crate) fn zeros(regions: &[Region]) -> Result<SharedMemory, CreateError> {
        let words = regions.iter().map(|region| {
            let len = usize::try_from(region.len).ok()?;
            Words::zeros(len / WORD)
        });
        let words = words.collect::<Option<_>>().ok_or(CreateError::NoMemory)?;
        Ok(SharedMemory::of(regions, words))
    }

    // Words that the caller of `over_lent` lends for these regions.
    pub(crate) fn lent(regions: &[Region], lent: &[NonNull<[AtomicU64]>]) -> SharedMemory {
        let words = lent.iter().copied().map(Words::Lent).collect();
        SharedMemory::of(regions, words)
    }

    fn of(regions: &[Region], words: Vec<Words>) -> SharedMemory {
        let bases = regions.iter().map(|region| region.base).collect();
        SharedMemory {
            regions: Arc::new(Regions { bases, words }),
        }
    }

    // Its words as C has them.
    pub(crate) fn in_c(&self) -> Vec<ffi::Words> {
        let words = self.regions.words.iter().map(Words::all);
        words
            .map(|all| ffi::Words {
                words: all.as_ptr().cast_mut().cast(),
                len: all.len(),
            })
            .collect()
    }

    /// The words from an address to the end of its region, in place. [`Error::BadRange`]: no region has the address, or it
    /// is no multiple of 8.
    ///
    /// Bytes lie in a word as in the host's memory: `u64::from_ne_bytes` makes a word of them. A region of a guest's own memory
    /// begins at a page of 4096 bytes, to map it for the guest's CPUs.
    pub fn words(&self, addr: u64) -> Result<&[AtomicU64], Error> {
        match self.find(addr, 1)? {
            (words, start) if start % WORD == 0 => Ok(&words[start / WORD..]),
            _ => Err(Error::BadRange),
        }
    }

    /// Copies bytes out of the memory, from address `addr` on: those of a word by one load, which acquires what was written before
    /// them. [`Error::BadRange`]: no region has them all.
    pub fn read(&self, addr: u64, into: &mut [u8]) -> Result<(), Error> {
        let (words, start) = self.find(addr, into.len())?;
        let mut left = into;
        for (word, place) in parts(words, start, left.len()) {
            let (part, behind) = left.split_at_mut(place.len());
            part.copy_from_slice(&word.load(Ordering::Acquire).to_ne_bytes()[place]);
            left = behind;
        }
        Ok(())
    }

    /// Copies bytes into the memory, from address `addr` on: those of a word by one step, which keeps what others write beside
    /// them in the word, and releases what this thread wrote before. So a number of 2, 4 or 8 bytes at a multiple of its size is
    /// never seen in part. [`Error::BadRange`]: no region has them all.
    pub fn write(&self, addr: u64, from: &[u8]) -> Result<(), Error> {
        let (words, start) = self.find(addr, from.len())?;
        let mut left = from;
        for (word, place) in parts(words, start, left.len()) {
            let (part, behind) = left.split_at(place.len());
            put(word, place, part);
            left = behind;
        }
        Ok(())
    }

    // The words of the region that has so many bytes from an address on, and how many of its bytes stand before them.
    fn find(&self, addr: u64, len: usize) -> Result<(&[AtomicU64], usize), Error> {
        let found = self.regions().find_map(|(base, words)| {
            let start = usize::try_from(addr.checked_sub(base)?).ok()?;
            let is_inside = start.checked_add(len)? <= WORD * words.len();
            is_inside.then_some((words, start))
        });
        found.ok_or(Error::BadRange)
    }

    fn regions(&self) -> impl Iterator<Item = (u64, &[AtomicU64])> {
        let words = self.regions.words.iter().map(Words::all);
        self.regions.bases.iter().copied().zip(words)
    }
}

// The words that have these bytes, each with the places of the bytes in it.
fn parts(
    words: &[AtomicU64],
    start: usize,
    len: usize,
) -> impl Iterator<Item = (&AtomicU64, Range<usize>)> {
    let (first, end) = (start / WORD, start + len);
    let last = if len == 0 { first } else { end.div_ceil(WORD) };
    let touched = words[first..last].iter().enumerate();
    touched.map(move |(index, word)| {
        let at = WORD * (first + index);
        (word, start.max(at) - at..end.min(at + WORD) - at)
    })
}

// Puts bytes into their places in a word.
fn put(word: &AtomicU64, place: Range<usize>, part: &[u8]) {
    let with_part = |old: u64| {
        let mut bytes = old.to_ne_bytes();
        bytes[place.clone()].copy_from_slice(part);
        u64::from_ne_bytes(bytes)
    };
    if part.len() == WORD {
        word.store(with_part(0), Ordering::Release);
        return;
    }
    let mut old = word.load(Ordering::Relaxed);
    while let Err(other) =
        word.compare_exchange_weak(old, with_part(old), Ordering::Release, Ordering::Relaxed)
    {
        old = other;
    }
}

impl fmt::Debug for SharedMemory {
    fn fmt(&self, f: &mut fmt::Formatter<'_>) -> fmt::Result {
        let regions = self.regions().map(|(base, words)| Region {
            base,
            len: (WORD * words.len()) as u64,
        });
        f.debug_list().entries(regions).finish()
    }
}
