//! The board and its calls.

use crate::config::Config;
use crate::counters::Counters;
use crate::error::{CreateError, Error};
use crate::ffi::answers::{IO, MORE, NO_ROOM};
use crate::ffi::{self, windows};
use std::collections::BTreeMap;
use std::num::{NonZeroU32, NonZeroU64};
use std::ptr::{self, NonNull};
use std::slice;

/// A guest's windows, each of 4096 bytes.
#[derive(Clone, Copy, Debug, PartialEq, Eq, Hash)]
pub enum Window {
    /// The registers of its disk.
    Block,
    /// The registers of its console.
    Console,
    /// The registers of its further device of this number, from 0 on.
    Device(u8),
}

impl Window {
    /// Its number in C. That of no device is of a window that no slot has.
    ///
    /// ```
    /// use kalyubos::Window;
    ///
    /// let windows = [Window::Block, Window::Console, Window::Device(0), Window::Device(5)];
    /// assert_eq!(windows.map(Window::number), [0, 1, 2, 7]);
    /// ```
    #[must_use]
    pub fn number(self) -> u8 {
        match self {
            Window::Block => windows::BLOCK,
            Window::Console => windows::CONSOLE,
            Window::Device(device) => device.saturating_add(windows::DEVICE),
        }
    }
}

/// InterruptStatus of a slot's windows. A window's line is high while its word isn't 0.
#[derive(Clone, Copy, Debug, Default, PartialEq, Eq, Hash)]
#[must_use = "the slot's lines move by them"]
pub struct Interrupts {
    /// The block window's word.
    pub block: u32,
    /// The console window's word.
    pub console: u32,
}

/// What waits once a call is answered: the host moves the slot's lines and takes its output by it.
#[derive(Clone, Copy, Debug, Default, PartialEq, Eq, Hash)]
#[must_use = "the slot's lines move by it, and nothing else tells that its service pauses or its disk waits"]
pub struct Pending {
    /// Both interrupt words.
    pub interrupts: Interrupts,
    /// How many bytes of the console's output wait to be taken.
    pub output: u64,
    /// Whether the slot's service pauses: [`Board::go_on`] goes on with it. Of a guest that runs on, whether a queue is due, which
    /// [`RunningGuest::go_on`](crate::RunningGuest::go_on) serves.
    pub more: bool,
    /// Whether operations of the disk began that the call was for, which wait for the host: [`Board::in_flight`] says which. Of a
    /// further disk they may have begun too where `more` is true, and may with each [`Board::go_on`].
    pub io: bool,
}

/// How much one call serves before a service pauses.
#[derive(Clone, Copy, Debug, Default, PartialEq, Eq, Hash)]
pub struct Budget {
    /// How many chains; without a limit by default.
    pub chains: Option<NonZeroU32>,
    /// How many bytes the buffers of these chains may have, the last chain's not counted; without a limit by default.
    pub bytes: Option<NonZeroU64>,
}

impl Pending {
    // What a call that is done told.
    pub(crate) fn of(told: ffi::Pending) -> Pending {
        let interrupts = Interrupts {
            block: told.block,
            console: told.console,
        };
        Pending {
            interrupts,
            output: told.output,
            more: false,
            io: false,
        }
    }

    // What a call that answered this number told. A service that pauses, and a disk that waits, are no errors.
    pub(crate) fn told(number: u32, told: ffi::Pending) -> Result<Pending, Error> {
        let pending = Pending {
            more: number == MORE,
            io: number == IO,
            ..Pending::of(told)
        };
        match number {
            MORE | IO => Ok(pending),
            NO_ROOM => Err(Error::NoRoom(pending)),
            number => Error::check(number).map(|()| pending),
        }
    }
}

/// A board of up to sixty-four guests. It is ended, and its memory freed, where it is dropped.
///
/// A guest's disk is a part of the board's image, or one that the host serves. Guests whose disks the host serves share
/// nothing: a host may have a board for each, of one slot, and no lock between them.
///
/// A board is `Send` and not `Sync`: one thread at a time calls it. Threads that share it put it into a `Mutex`, and
/// what each guest sees is the same in whichever order they take the lock.
///
/// ```compile_fail
/// fn is_sync<T: Sync>() {}
/// is_sync::<kalyubos::Board>();
/// ```
#[derive(Debug)]
pub struct Board {
    // It holds a board until the drop.
    handle: ffi::Handle,
    // The bits of slots' pages, which are lent to the library.
    pub(crate) kept: BTreeMap<u8, Vec<u8>>,
}

// SAFETY: a handle is proved to be `Send`: what it owns, any thread may use and free, one at a time.
unsafe impl Send for Board {}

// Each duty of the header is kept here. References are never null, an exclusive one overlaps no other, and a `Board` can't
// be copied. It isn't `Sync`, so one call at a time is made on its handle; those that take `&self` change nothing.
impl Board {
    /// Makes a board. It takes all memory that the board ever needs.
    ///
    /// ```
    /// use kalyubos::{Board, Config, CreateError, Slot};
    ///
    /// let disk = vec![0; 16 * 512];
    /// let guests = [
    ///     Slot::new(0x8000_0000, 0x1_0000, 0..8),
    ///     Slot::new(0x8000_0000, 0x1_0000, 8..16).with_read_only(true),
    /// ];
    /// let board = Board::create(&Config::new(&guests).with_image(&disk))?;
    ///
    /// let both = [guests[0].clone(), guests[0].clone()];
    /// let refused = Board::create(&Config::new(&both).with_image(&disk));
    /// assert_eq!(refused.unwrap_err(), CreateError::ExtentsOverlap);
    /// # Ok::<(), CreateError>(())
    /// ```
    pub fn create(config: &Config<'_>) -> Result<Board, CreateError> {
        Board::over_loans(config, &mut [])
    }

    /// A board as [`create`](Board::create) makes it, over memory that the host lends: for each region of all slots,
    /// slot by slot, as many bytes as it has. None is copied, cleared or touched, then or where the board is dropped,
    /// which frees none. So a guest of any size is made at once, and its memory begins as the bytes stand.
    ///
    /// # Safety
    ///
    /// Until the board is dropped the bytes stay where they are, each with a value, and no two regions of any boards
    /// share one. Nobody else reads or writes them while a call touches them, while [`memory`](Board::memory) lends
    /// them, or while a service of their guest is paused. The calls that touch a guest's memory are
    /// [`write`](Board::write) to QueueNotify (0x050), [`input`](Board::input), [`go_on`](Board::go_on),
    /// [`complete`](Board::complete), [`release`](Board::release), [`read_memory`](Board::read_memory),
    /// [`write_memory`](Board::write_memory), [`supply`](Board::supply), [`receive`](Board::receive),
    /// [`take_frame`](Board::take_frame) and [`device_pending`](Board::device_pending). During others the guest's CPUs may run.
    ///
    /// ```
    /// # use kalyubos::{Board, Config, CreateError, Slot};
    /// # use std::ptr::NonNull;
    /// let mut bytes = vec![7; 0x1000];
    /// let lent = [NonNull::from(&mut bytes[..])];
    /// let slots = [Slot::hosted(0x8000_0000, 0x1000, 8)];
    /// // SAFETY: nothing else reaches the bytes until the board is dropped.
    /// let mut board = unsafe { Board::over_lent(&Config::new(&slots), &lent) }?;
    /// board.write_memory(0, 0x8000_0ffe, b"ab")?;
    /// drop(board);
    /// assert_eq!(&bytes[0xffd..], b"\x07ab");
    ///
    /// let none = unsafe { Board::over_lent(&Config::new(&slots), &[]) };
    /// assert_eq!(none.unwrap_err(), CreateError::BadLoan);
    /// # Ok::<(), Box<dyn std::error::Error>>(())
    /// ```
    pub unsafe fn over_lent(
        config: &Config<'_>,
        lent: &[NonNull<[u8]>],
    ) -> Result<Board, CreateError> {
        if lent.is_empty() {
            return Err(CreateError::BadLoan); // of no loans C would make a board over its own memory
        }
        let mut loans: Vec<_> = lent.iter().map(loan_of).collect();
        Board::over_loans(config, &mut loans)
    }

    // A board over these loans, whose bytes are lent by `over_lent` alone, or over memory of its own where there are
    // none.
    fn over_loans(config: &Config<'_>, loans: &mut [ffi::Loan]) -> Result<Board, CreateError> {
        let mut handle = ffi::Handle::empty();
        let number = config.with_c(loans, |config| unsafe {
            ffi::kalyubos_create(&mut handle, config)
        })?;
        CreateError::check(number).map(|()| Board {
            handle,
            kept: BTreeMap::new(),
        })
    }

    // The handle, for the calls of other modules that change nothing.
    pub(crate) fn handle(&self) -> &ffi::Handle {
        &self.handle
    }

    // The handle, for their other calls.
    pub(crate) fn handle_mut(&mut self) -> &mut ffi::Handle {
        &mut self.handle
    }

    /// What a guest's read of `width` bytes (1, 2 or 4) at an offset of a window gives, extended by zeros. Every offset
    /// and width has an answer.
    ///
    /// ```
    /// # use kalyubos::{Board, Config, Slot, Window};
    /// # let mut board = Board::create(&Config::new(&[Slot::hosted(0, 0x1000, 1)]))?;
    /// const DEVICE_ID: u16 = 0x008;
    /// assert_eq!(board.read(0, Window::Block, DEVICE_ID, 4)?, 2);
    /// assert_eq!(board.read(0, Window::Console, DEVICE_ID, 4)?, 3);
    /// # Ok::<(), Box<dyn std::error::Error>>(())
    /// ```
    pub fn read(&self, slot: u8, window: Window, offset: u16, width: u8) -> Result<u32, Error> {
        let mut value = 0;
        Error::check(unsafe {
            ffi::kalyubos_read(
                &self.handle,
                slot,
                window.number(),
                offset,
                width,
                &mut value,
            )
        })?;
        Ok(value)
    }

    /// A guest's write. What it notifies is served before the call returns, or up to the budget, and the call tells what
    /// then waits.
    ///
    /// [`Error::NoRoom`]: the next chain of the console's transmit queue, or the byte of an emergency write, doesn't fit
    /// behind the output that waits. The chains before it are served, and it stays on offer; the error has what then
    /// waits, by which the lines move. Take the output and make the same write again, as long as it is answered so and
    /// there was output to take.
    ///
    /// [`Error::Busy`]: a service of the slot is paused. Or the write, to Status or QueueReady of a disk's window,
    /// waits for all that is in flight of that disk, which the host serves. The guest's CPU waits with it; make the same write
    /// again once all is completed or [dropped](Board::drop_operations).
    ///
    /// Of a further device [`device_pending`](Board::device_pending) tells what then waits.
    ///
    /// ```
    /// # use kalyubos::{Board, Config, Error, Slot, Window};
    /// # let slot = Slot::hosted(0, 0x1000, 1);
    /// const EMERG_WR: u16 = 0x108;
    /// let mut board = Board::create(&Config::new(&[slot.with_outlet(1)]))?;
    /// assert_eq!(board.write(0, Window::Console, EMERG_WR, 4, b'a'.into())?.output, 1);
    /// let refused = board.write(0, Window::Console, EMERG_WR, 4, b'b'.into());
    /// assert!(matches!(refused, Err(Error::NoRoom(pending)) if pending.output == 1));
    ///
    /// let mut out = [0; 16];
    /// assert_eq!(board.take_output(0, &mut out)?, 1);
    /// assert_eq!(out[0], b'a');
    /// assert_eq!(board.write(0, Window::Console, EMERG_WR, 4, b'b'.into())?.output, 1);
    /// # Ok::<(), Box<dyn std::error::Error>>(())
    /// ```
    pub fn write(
        &mut self,
        slot: u8,
        window: Window,
        offset: u16,
        width: u8,
        value: u32,
    ) -> Result<Pending, Error> {
        let mut told = ffi::Pending::default();
        let number = unsafe {
            ffi::kalyubos_write(
                &mut self.handle,
                slot,
                window.number(),
                offset,
                width,
                value,
                &mut told,
            )
        };
        Pending::told(number, told)
    }

    /// Goes on with a slot's service that pauses, and tells what then waits. Until it is done every other call for the
    /// slot is [`Error::Busy`], but those that tell its interrupts, counters or operations or take its output, and none
    /// of its CPUs runs. Of a further device [`device_pending`](Board::device_pending) tells what waits at the end.
    pub fn go_on(&mut self, slot: u8) -> Result<Pending, Error> {
        let mut told = ffi::Pending::default();
        let number = unsafe { ffi::kalyubos_go_on(&mut self.handle, slot, &mut told) };
        Pending::told(number, told)
    }

    /// A guest's memory in place, from an address to the end of the region that holds it; [`Error::BadRange`] where none does.
    /// What is written there is a write of that guest's.
    ///
    /// ```
    /// # use kalyubos::{Board, Config, Slot};
    /// let slot = Slot::hosted(0x8000_0000, 0x1000, 1).with_region(0x8000_2000, 0x1000);
    /// let mut board = Board::create(&Config::new(&[slot]))?;
    /// let memory = board.memory(0, 0x8000_2f00)?;
    /// assert_eq!(memory.len(), 0x100);
    /// memory[..5].copy_from_slice(b"hello");
    ///
    /// let mut seen = [0; 5];
    /// board.read_memory(0, 0x8000_2f00, &mut seen)?;
    /// assert_eq!(&seen, b"hello");
    /// # Ok::<(), Box<dyn std::error::Error>>(())
    /// ```
    pub fn memory(&mut self, slot: u8, addr: u64) -> Result<&mut [u8], Error> {
        let bytes = self.memory_parts(slot, addr)?;
        // SAFETY: the bytes are the slot's memory, which stays until the drop, and while they are lent no call is made.
        Ok(unsafe { &mut *bytes.as_ptr() })
    }

    /// Where a guest's memory lies, from an address to the end of its region, to map it for the guest's CPUs. It stays until the
    /// board is dropped, and a region begins at a page of 4096 bytes where the heap is the library's own.
    ///
    /// Whoever writes through it keeps two duties: no CPU of the guest runs while a call touches its memory, as
    /// [`over_lent`](Board::over_lent) says, and none runs on once the board is dropped.
    pub fn memory_parts(&mut self, slot: u8, addr: u64) -> Result<NonNull<[u8]>, Error> {
        let (mut bytes, mut len) = (ptr::null_mut(), 0);
        Error::check(unsafe {
            ffi::kalyubos_memory(&mut self.handle, slot, addr, &mut bytes, &mut len)
        })?;
        let bytes = NonNull::new(bytes).expect("a region isn't empty");
        Ok(NonNull::slice_from_raw_parts(bytes, len))
    }

    /// Copies bytes out of a guest's memory, from address `addr` on.
    pub fn read_memory(&self, slot: u8, addr: u64, into: &mut [u8]) -> Result<(), Error> {
        Error::check(unsafe {
            ffi::kalyubos_read_memory(&self.handle, slot, addr, into.as_mut_ptr(), into.len())
        })
    }

    /// Copies bytes into a guest's memory, from address `addr` on.
    ///
    /// ```
    /// # use kalyubos::{Board, Config, Error, Slot};
    /// let mut board = Board::create(&Config::new(&[Slot::hosted(0x8000_0000, 0x1000, 1)]))?;
    /// board.write_memory(0, 0x8000_0ffe, b"ab")?;
    /// let mut seen = [0; 2];
    /// board.read_memory(0, 0x8000_0ffe, &mut seen)?;
    /// assert_eq!(&seen, b"ab");
    /// assert_eq!(board.write_memory(0, 0x8000_0fff, b"ab"), Err(Error::BadRange));
    /// # Ok::<(), Box<dyn std::error::Error>>(())
    /// ```
    pub fn write_memory(&mut self, slot: u8, addr: u64, from: &[u8]) -> Result<(), Error> {
        Error::check(unsafe {
            ffi::kalyubos_write_memory(&mut self.handle, slot, addr, from.as_ptr(), from.len())
        })
    }

    /// Types bytes to a console, and tells how many it took, the first ones, and what then waits. Type the others again until none is taken,
    /// then after the guest's next calls.
    ///
    /// ```
    /// # use kalyubos::{Board, Config, Slot};
    /// # let mut board = Board::create(&Config::new(&[Slot::hosted(0, 0x1000, 1)]))?;
    /// assert_eq!(board.input(0, b"ls\n")?.0, 3);
    /// assert_eq!(board.input(0, &[b'x'; 5000])?.0, 4093); // a console keeps 4096
    /// # Ok::<(), Box<dyn std::error::Error>>(())
    /// ```
    pub fn input(&mut self, slot: u8, bytes: &[u8]) -> Result<(usize, Pending), Error> {
        let (mut took, mut told) = (0, ffi::Pending::default());
        let number = unsafe {
            ffi::kalyubos_input(
                &mut self.handle,
                slot,
                bytes.as_ptr(),
                bytes.len(),
                &mut took,
                &mut told,
            )
        };
        Ok((took, Pending::told(number, told)?))
    }

    /// Gives a console another size, of which its driver is told, and tells what then waits.
    pub fn resize(&mut self, slot: u8, cols: u16, rows: u16) -> Result<Pending, Error> {
        let mut told = ffi::Pending::default();
        let number = unsafe { ffi::kalyubos_resize(&mut self.handle, slot, cols, rows, &mut told) };
        Pending::told(number, told)
    }

    /// Moves out the first bytes of what a console put out, as many as find room, and tells how many they are. The others
    /// wait for the next call.
    pub fn take_output(&mut self, slot: u8, into: &mut [u8]) -> Result<usize, Error> {
        let mut taken = 0;
        Error::check(unsafe {
            ffi::kalyubos_take_output(
                &mut self.handle,
                slot,
                into.as_mut_ptr(),
                into.len(),
                &mut taken,
            )
        })?;
        Ok(taken)
    }

    /// The interrupt words of a slot's disk and console. Each write, input and resize tells them; a read moves none.
    pub fn interrupts(&self, slot: u8) -> Result<Interrupts, Error> {
        let (mut block, mut console) = (0, 0);
        Error::check(unsafe {
            ffi::kalyubos_interrupts(&self.handle, slot, &mut block, &mut console)
        })?;
        Ok(Interrupts {
            block: block.into(),
            console: console.into(),
        })
    }

    /// Whether a call of the image ever failed for the slot.
    pub fn disturbed(&self, slot: u8) -> Result<bool, Error> {
        let mut disturbed = false;
        Error::check(unsafe { ffi::kalyubos_disturbed(&self.handle, slot, &mut disturbed) })?;
        Ok(disturbed)
    }

    /// What the slot's devices did since the board was made. It may be asked at any time, also in a pause.
    ///
    /// ```
    /// # use kalyubos::{Board, Config, Counters, Slot};
    /// let board = Board::create(&Config::new(&[Slot::hosted(0, 0x1000, 1)]))?;
    /// assert_eq!(board.counters(0)?, Counters::default());
    /// # Ok::<(), Box<dyn std::error::Error>>(())
    /// ```
    pub fn counters(&self, slot: u8) -> Result<Counters, Error> {
        let mut counters = Counters::default();
        Error::check(unsafe { ffi::kalyubos_counters(&self.handle, slot, &mut counters) })?;
        Ok(counters)
    }

    /// The image's length in bytes; [`Error::NoImage`] where there is none.
    pub fn image_len(&self) -> Result<usize, Error> {
        let mut len = 0;
        Error::check(unsafe { ffi::kalyubos_image_len(&self.handle, &mut len) })?;
        Ok(len)
    }

    /// Copies bytes out of the image as it stands, from byte `start` on.
    pub fn read_image(&self, start: usize, into: &mut [u8]) -> Result<(), Error> {
        Error::check(unsafe {
            ffi::kalyubos_read_image(&self.handle, start, into.as_mut_ptr(), into.len())
        })
    }

    /// The whole image as it stands, to save what the guests wrote.
    ///
    /// ```
    /// # use kalyubos::{Board, Config, Slot};
    /// let slots = [Slot::new(0, 0x1000, 0..1)];
    /// let mut board = Board::create(&Config::new(&slots).with_image(&[7; 512]))?;
    /// assert_eq!(board.image()?, [7; 512]);
    /// # Ok::<(), Box<dyn std::error::Error>>(())
    /// ```
    pub fn image(&mut self) -> Result<&[u8], Error> {
        let (mut bytes, mut len) = (NonNull::dangling().as_ptr() as *const u8, 0);
        Error::check(unsafe { ffi::kalyubos_image(&self.handle, &mut bytes, &mut len) })?;
        // SAFETY: the bytes are the image, which stays until the drop, and while they are lent no call is made.
        Ok(unsafe { slice::from_raw_parts(bytes, len) })
    }
}

impl Drop for Board {
    fn drop(&mut self) {
        // It holds a board, so the answer is 0.
        unsafe { ffi::kalyubos_destroy(&mut self.handle) };
    }
}

// Lent bytes, as C has them.
fn loan_of(bytes: &NonNull<[u8]>) -> ffi::Loan {
    ffi::Loan {
        bytes: bytes.as_ptr().cast(),
        len: bytes.len(),
    }
}
