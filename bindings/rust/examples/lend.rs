//! A VMM whose guest memory is behind traits like those of the crate `vm-memory` lends it to a board: no byte is copied.
//!
//! [`GuestMemory`] and [`GuestMemoryRegion`] stand for that crate's traits, which have more; [`Pages`] stands for its
//! mapping. To use the real ones, replace the three by a `use`. [`Machine`] keeps the duties of [`Board::over_lent`]. A
//! guest then reads a sector, which the host puts where the guest wants it.

use kalyubos::{Board, Config, CreateError, Error, Kind, Outcome, Slot, Window};
use std::alloc::{alloc_zeroed, dealloc, Layout};
use std::ptr::{self, NonNull};
use std::sync::Arc;

// ---- what a VMM has already

/// A region of guest memory.
trait GuestMemoryRegion {
    /// Its first address in the guest.
    fn start_addr(&self) -> u64;
    /// How many bytes it has.
    fn len(&self) -> u64;
    /// Where its first byte lies in the host. It stays there.
    fn as_ptr(&self) -> NonNull<u8>;
}

/// A guest's memory: its regions by ascending addresses.
trait GuestMemory {
    /// A region of it.
    type R: GuestMemoryRegion;
    /// All regions.
    fn iter(&self) -> impl Iterator<Item = &Self::R>;
}

/// Pages of the host, which a hypervisor maps for a guest's CPUs.
struct Pages {
    start: u64,
    bytes: NonNull<[u8]>,
}

// SAFETY: it owns its bytes, and reaches them through a pointer alone.
unsafe impl Send for Pages {}
unsafe impl Sync for Pages {}

impl Pages {
    fn layout(len: usize) -> Layout {
        Layout::from_size_align(len, 4096).expect("a length that isn't too large")
    }

    fn new(start: u64, len: usize) -> Pages {
        assert!(len > 0);
        // SAFETY: the length isn't 0.
        let first = NonNull::new(unsafe { alloc_zeroed(Pages::layout(len)) }).expect("memory");
        Pages {
            start,
            bytes: NonNull::slice_from_raw_parts(first, len),
        }
    }
}

impl Drop for Pages {
    fn drop(&mut self) {
        // SAFETY: `new` allocated them so, and nobody has them now.
        unsafe { dealloc(self.as_ptr().as_ptr(), Pages::layout(self.bytes.len())) };
    }
}

impl GuestMemoryRegion for Pages {
    fn start_addr(&self) -> u64 {
        self.start
    }

    fn len(&self) -> u64 {
        self.bytes.len() as u64
    }

    fn as_ptr(&self) -> NonNull<u8> {
        self.bytes.cast()
    }
}

impl GuestMemory for Vec<Pages> {
    type R = Pages;

    fn iter(&self) -> impl Iterator<Item = &Pages> {
        self.as_slice().iter()
    }
}

// ---- what lends it

/// A guest's board and the memory that it was lent.
///
/// The board is dropped first, and the memory lives as long as it. CPUs that write the memory in place stand while a call of `board`
/// touches it: a write to QueueNotify, `input`, `complete`, and the two that copy.
struct Machine<M> {
    board: Board,
    memory: Arc<M>,
}

impl<M: GuestMemory> Machine<M> {
    /// A board of one guest over its memory, with a disk of so many sectors.
    ///
    /// # Safety
    ///
    /// No other board was lent this memory, and whoever has it too keeps the duty above.
    unsafe fn new(memory: Arc<M>, sectors: u64) -> Result<Machine<M>, CreateError> {
        let mut regions = memory.iter();
        let first = regions.next().ok_or(CreateError::BadMemorySize)?;
        let slot = regions.fold(
            Slot::hosted(first.start_addr(), first.len(), sectors),
            |slot, region| slot.with_region(region.start_addr(), region.len()),
        );
        let lent: Vec<_> = memory
            .iter()
            .map(|region| NonNull::slice_from_raw_parts(region.as_ptr(), region.len() as usize))
            .collect();
        // SAFETY: the bytes stay until `memory` is dropped, behind the board, and the caller keeps the other duties.
        let board = unsafe { Board::over_lent(&Config::new(&[slot]), &lent) }?;
        Ok(Machine { board, memory })
    }

    /// Where bytes of the guest lie in the host, if one region has them all.
    fn host_address(&self, at: u64, len: u64) -> Option<NonNull<u8>> {
        let region = self.memory.iter().find(|region| {
            at >= region.start_addr() && at - region.start_addr() + len <= region.len()
        })?;
        // SAFETY: the offset lies inside the region.
        Some(unsafe { region.as_ptr().add((at - region.start_addr()) as usize) })
    }

    /// Copies bytes into guest memory between two calls, as a CPU or a transfer does.
    fn put(&self, at: u64, bytes: &[u8]) {
        let to = self.host_address(at, bytes.len() as u64);
        let to = to.expect("an address inside a region");
        // SAFETY: the bytes are there, and no call is made meanwhile, since `self` has the board.
        unsafe { ptr::copy_nonoverlapping(bytes.as_ptr(), to.as_ptr(), bytes.len()) };
    }

    /// A byte of guest memory.
    fn get(&self, at: u64) -> u8 {
        let from = self
            .host_address(at, 1)
            .expect("an address inside a region");
        // SAFETY: as in `put`.
        unsafe { from.as_ptr().read_volatile() }
    }

    /// Serves what the guest asks of its disk, from bytes straight into its memory; answers whether its line is high.
    fn serve(&mut self, disk: &[u8]) -> Result<bool, Error> {
        let mut is_high = self.board.interrupts(0)?.block != 0;
        while let Some(tag) = self.board.in_flight(0, Window::Block)?.first() {
            let Some(asked) = self.board.operation(0, Window::Block, tag)? else {
                continue;
            };
            let mut rest = &disk[asked.start as usize..];
            let runs = if asked.kind == Kind::In {
                &*asked.runs
            } else {
                &[]
            };
            for run in runs {
                let (part, behind) = rest.split_at(run.len as usize);
                self.put(run.at, part);
                rest = behind;
            }
            let outcome = if asked.kind == Kind::In {
                Outcome::Done
            } else {
                Outcome::Failed
            };
            is_high = self
                .board
                .complete(0, Window::Block, tag, outcome)?
                .interrupts
                .block
                != 0;
        }
        Ok(is_high)
    }
}

// ---- a guest of two regions, whose driver reads sector 1

const LOW: u64 = 0;
const HIGH: u64 = 0x1_0000_0000;
const LEN: usize = 0x1_0000;

const TABLE: u64 = 0x1000;
const AVAILABLE: u64 = 0x2000;
const USED: u64 = 0x3000;
const HEADER: u64 = 0x4000;
const STATUS: u64 = 0x4010;

/// Its descriptors: the header and the status byte lie in the low region, the data in the high one.
const CHAIN: [(u64, u32, u16, u16); 3] = [(HEADER, 16, 1, 1), (HIGH, 512, 3, 2), (STATUS, 1, 2, 0)];

/// The registers that its driver writes, in order; the last notifies.
const STORES: [(u16, u32); 13] = [
    (0x070, 1),
    (0x070, 3),
    (0x024, 1),
    (0x020, 1),
    (0x070, 11),
    (0x030, 0),
    (0x038, 4),
    (0x080, TABLE as u32),
    (0x090, AVAILABLE as u32),
    (0x0a0, USED as u32),
    (0x044, 1),
    (0x070, 15),
    (0x050, 0),
];

/// What the driver does; answers whether its disk then waits for the host.
fn drive(machine: &mut Machine<Vec<Pages>>) -> Result<bool, Error> {
    for (place, (addr, len, flags, next)) in (0..).zip(CHAIN) {
        let mut descriptor = addr.to_le_bytes().to_vec();
        descriptor.extend(len.to_le_bytes());
        descriptor.extend(flags.to_le_bytes());
        descriptor.extend(next.to_le_bytes());
        machine.put(TABLE + 16 * place, &descriptor);
    }
    machine.put(HEADER + 8, &1u64.to_le_bytes()); // the sector
    machine.put(AVAILABLE + 2, &1u16.to_le_bytes());
    machine.put(STATUS, &[0xff]);
    let mut io = false;
    for (offset, value) in STORES {
        io |= machine.board.write(0, Window::Block, offset, 4, value)?.io;
    }
    Ok(io)
}

/// Runs the guest; answers the status of its request and the first bytes that it reads.
fn run() -> Result<(u8, [u8; 5]), Box<dyn std::error::Error>> {
    let memory = Arc::new(vec![Pages::new(LOW, LEN), Pages::new(HIGH, LEN)]);
    let mut disk = vec![0; 2 * 512];
    disk[512..517].copy_from_slice(b"hello");

    // SAFETY: this is the memory's only board, and nobody else writes it.
    let mut machine = unsafe { Machine::new(Arc::clone(&memory), 2) }?;
    assert!(drive(&mut machine)?);
    assert!(machine.serve(&disk)?);
    let text = [0, 1, 2, 3, 4].map(|at| machine.get(HIGH + at));
    Ok((machine.get(STATUS), text))
}

fn main() -> Result<(), Box<dyn std::error::Error>> {
    let (status, text) = run()?;
    println!("status {status}: {}", String::from_utf8_lossy(&text));
    Ok(())
}

#[test]
fn a_guest_reads_into_lent_memory() {
    assert_eq!(run().unwrap(), (0, *b"hello"));
}
