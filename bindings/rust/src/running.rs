//! A guest whose CPUs run on while it is served, and its calls.

use crate::board::{Budget, Interrupts, Pending, Window};
use crate::config::check_version;
use crate::error::{CreateError, Error, MemoryError};
use crate::fault::DriverFault;
use crate::ffi;
use crate::operation::{Operation, Outcome, Run};
use crate::shared::SharedMemory;
use crate::slot::{Region, Slot};
use crate::tags::Tags;
use std::mem;
use std::num::{NonZeroU32, NonZeroU64};
use std::ptr::NonNull;
use std::sync::atomic::AtomicU64;

/// What a guest that runs on is made of: a slot whose disk the host serves, without a further disk.
#[derive(Clone, Copy, Debug)]
#[must_use = "a config is there once a guest is made of it"]
pub struct GuestConfig<'a> {
    slot: &'a Slot,
    budget: Budget,
}

impl<'a> GuestConfig<'a> {
    /// A guest of this slot, whose calls have no limit.
    pub fn new(slot: &'a Slot) -> GuestConfig<'a> {
        GuestConfig {
            slot,
            budget: Budget::default(),
        }
    }

    /// How much one call serves of a queue.
    pub fn with_budget(self, budget: Budget) -> GuestConfig<'a> {
        GuestConfig { budget, ..self }
    }

    // Calls the library with the config as C has it, over these words.
    fn with_c<T>(
        &self,
        words: &mut [ffi::Words],
        call: impl FnOnce(&mut ffi::GuestConfig) -> T,
    ) -> Result<T, CreateError> {
        check_version()?;
        let slot = self.slot.in_c()?;
        Ok(call(&mut ffi::GuestConfig {
            size: mem::size_of::<ffi::GuestConfig>(),
            slot: &slot,
            words: words.as_mut_ptr(),
            words_len: words.len(),
            chains: self.budget.chains.map_or(0, NonZeroU32::get),
            bytes: self.budget.bytes.map_or(0, NonZeroU64::get),
        }))
    }
}

/// A guest whose CPUs run on while it is served: a disk that the host serves, a console, and further network cards, consoles and
/// entropy devices. It is ended where it is dropped.
///
/// It is on no board, and shares nothing with a board or with another guest: a host has a lock for each. During its calls
/// its CPUs, its transfers and the host's threads read and write its [memory](RunningGuest::memory) as they like. What
/// [`operation`](RunningGuest::operation) tells lies inside that memory and the disk, whatever they write.
///
/// A call is that of a [`Board`](crate::Board) of the same name, without a slot, but:
///
/// - Where a call says [`Pending::more`], a queue is due, of which the driver may never notify again: its budget is spent, or
///   its driver put chains on offer again and again while it was served. [`go_on`](RunningGuest::go_on) serves it; other calls
///   may stand in between, and none is refused for it.
/// - After [`Pending::io`], [`Pending::more`] and [`Error::NoRoom`] operations may have begun:
///   [`in_flight`](RunningGuest::in_flight) says which.
///
/// ```
/// use kalyubos::{
///     Error, GuestConfig, Kind, Outcome, Pending, Run, RunningGuest, SharedMemory, Slot, Window,
/// };
/// use std::sync::Mutex;
///
/// /// Serves what is due behind a call. Others may call in between.
/// fn settle(guest: &Mutex<RunningGuest>, mut pending: Pending) -> Result<Pending, Error> {
///     while pending.more {
///         pending = guest.lock().unwrap().go_on()?;
///     }
///     Ok(pending)
/// }
///
/// /// What a thread of the disk does with an operation, while the guest and its calls go on.
/// fn fill(memory: &SharedMemory, runs: &[Run], disk: &[u8]) -> Result<(), Error> {
///     let mut rest = disk;
///     for run in runs {
///         let (part, behind) = rest.split_at(run.len as usize);
///         memory.write(run.at, part)?;
///         rest = behind;
///     }
///     Ok(())
/// }
///
/// let slot = Slot::hosted(0x8000_0000, 0x1_0000, 8).with_depth(16);
/// let guest = RunningGuest::create(&GuestConfig::new(&slot))?;
/// let memory = guest.memory().clone();
/// let guest = Mutex::new(guest);
///
/// // An exit of a CPU: a store to QueueNotify. The lines move by what is told.
/// let pending = guest.lock().unwrap().write(Window::Block, 0x050, 4, 0)?;
/// assert_eq!(settle(&guest, pending)?, Pending::default());
///
/// // The disk's thread. The lock isn't held while bytes move.
/// let tags = guest.lock().unwrap().in_flight()?;
/// for tag in tags {
///     let asked = guest.lock().unwrap().operation(tag)?;
///     match asked {
///         Some(asked) if asked.kind == Kind::In => fill(&memory, &asked.runs, &[0; 8 * 512][asked.start as usize..])?,
///         asked => println!("{asked:?}"),
///     }
///     let pending = guest.lock().unwrap().complete(tag, Outcome::Done)?;
///     println!("{:?}", settle(&guest, pending)?);
/// }
/// # Ok::<(), Box<dyn std::error::Error>>(())
/// ```
///
/// It is `Send` and not `Sync`, as a board is:
///
/// ```compile_fail
/// fn is_sync<T: Sync>() {}
/// is_sync::<kalyubos::RunningGuest>();
/// ```
#[derive(Debug)]
pub struct RunningGuest {
    // It holds a guest until the drop.
    handle: ffi::GuestHandle,
    // The words that the library has are kept by it.
    memory: SharedMemory,
    // The bits of its pages that the library has.
    kept: Vec<u8>,
}

// SAFETY: a handle is proved to be `Send`: what it owns, any thread may use and free, one at a time.
unsafe impl Send for RunningGuest {}

// Each duty of the header is kept here, as for a `Board`. The words are reached by atomic accesses alone.
impl RunningGuest {
    /// Makes a guest over memory of its own, which are zeros. It takes all memory that the guest ever needs.
    ///
    /// ```
    /// use kalyubos::{CreateError, GuestConfig, RunningGuest, Slot};
    ///
    /// let slot = Slot::hosted(0x8000_0000, 0x1_0000, 8).with_region(0x9000_0000, 0x1000);
    /// let guest = RunningGuest::create(&GuestConfig::new(&slot))?;
    ///
    /// let of_an_image = Slot::new(0x8000_0000, 0x1_0000, 0..8);
    /// let refused = RunningGuest::create(&GuestConfig::new(&of_an_image));
    /// assert_eq!(refused.unwrap_err(), CreateError::NotHosted);
    /// # Ok::<(), CreateError>(())
    /// ```
    pub fn create(config: &GuestConfig<'_>) -> Result<RunningGuest, CreateError> {
        let memory = SharedMemory::zeros(config.slot.regions())?;
        RunningGuest::over(config, memory)
    }

    /// A guest as [`create`](RunningGuest::create) makes it, over words that the host lends: for each region as many as its
    /// bytes are, divided by 8. None is copied, cleared or touched, then or where the guest is dropped, which frees none.
    ///
    /// # Safety
    ///
    /// Until the guest and each clone of its [`memory`](RunningGuest::memory) are dropped, the words stay mapped where they
    /// are, for reads and writes, and each is aligned to 8. No two runs of words of any guests, and no bytes of a board, share
    /// one. The guest's CPUs, its transfers and other processes read and write them as they like; code of this program does so
    /// as `AtomicU64` alone.
    ///
    /// ```
    /// # use kalyubos::{CreateError, GuestConfig, RunningGuest, Slot};
    /// # use std::ptr::NonNull;
    /// # use std::sync::atomic::{AtomicU64, Ordering};
    /// let words: Vec<_> = (0..512).map(AtomicU64::new).collect();
    /// let lent = [NonNull::from(&words[..])];
    /// let slot = Slot::hosted(0x8000_0000, 0x1000, 8);
    /// // SAFETY: the words stay until the guest is dropped, and are lent to no other.
    /// let guest = unsafe { RunningGuest::over_lent(&GuestConfig::new(&slot), &lent) }?;
    /// guest.memory().write(0x8000_0ffe, b"ab")?;
    /// drop(guest);
    /// assert_eq!(words[511].load(Ordering::Acquire).to_ne_bytes(), *b"\xff\x01\0\0\0\0ab");
    ///
    /// let none = unsafe { RunningGuest::over_lent(&GuestConfig::new(&slot), &[]) };
    /// assert_eq!(none.unwrap_err(), CreateError::BadLoan);
    /// # Ok::<(), Box<dyn std::error::Error>>(())
    /// ```
    pub unsafe fn over_lent(
        config: &GuestConfig<'_>,
        lent: &[NonNull<[AtomicU64]>],
    ) -> Result<RunningGuest, CreateError> {
        let memory = SharedMemory::lent(config.slot.regions(), lent);
        RunningGuest::over(config, memory)
    }

    // A guest over this memory, which no other guest has.
    fn over(config: &GuestConfig<'_>, memory: SharedMemory) -> Result<RunningGuest, CreateError> {
        let mut handle = ffi::GuestHandle::empty();
        let number = config.with_c(&mut memory.in_c(), |config| unsafe {
            ffi::kalyubos_guest_create(&mut handle, config)
        })?;
        CreateError::check(number).map(|()| RunningGuest {
            handle,
            memory,
            kept: Vec::new(),
        })
    }

    pub(crate) fn handle(&self) -> &ffi::GuestHandle {
        &self.handle
    }

    pub(crate) fn handle_mut(&mut self) -> &mut ffi::GuestHandle {
        &mut self.handle
    }

    /// The guest's memory, of which a clone may be read and written at any moment, from any thread.
    #[must_use]
    pub fn memory(&self) -> &SharedMemory {
        &self.memory
    }

    /// What a guest's read gives, as [`Board::read`](crate::Board::read).
    pub fn read(&self, window: Window, offset: u16, width: u8) -> Result<u32, Error> {
        let mut value = 0;
        Error::check(unsafe {
            ffi::kalyubos_guest_read(&self.handle, window.number(), offset, width, &mut value)
        })?;
        Ok(value)
    }

    /// A guest's write. What it notifies is served before the call returns, or up to the budget, and the call tells what
    /// then waits.
    ///
    /// [`Error::NoRoom`]: the console's next output doesn't fit behind what waits. Take the output and make the same write again,
    /// as long as it is answered so and there was output to take.
    ///
    /// [`Error::Busy`]: the write, to Status or QueueReady of the disk's window, waits for all that is in flight. Make it again
    /// once all is completed or [dropped](RunningGuest::drop_operations).
    pub fn write(
        &mut self,
        window: Window,
        offset: u16,
        width: u8,
        value: u32,
    ) -> Result<Pending, Error> {
        let window = window.number();
        self.told(|handle, told| unsafe {
            ffi::kalyubos_guest_write(handle, window, offset, width, value, told)
        })
    }

    /// Serves each queue that is due, up to the budget, and tells what then waits. [`Error::NoRoom`]: take the output and
    /// make this call again, as long as there was output to take. With an [`output`](Pending::output) of 0 what the console puts
    /// out next is longer than the whole outlet, and is never put out.
    ///
    /// A guest that refills its ring keeps a queue due: a thread that serves several guests makes this call once in each turn.
    pub fn go_on(&mut self) -> Result<Pending, Error> {
        self.told(|handle, told| unsafe { ffi::kalyubos_guest_go_on(handle, told) })
    }

    /// Types bytes to the console, and tells how many it took, the first ones, and what then waits, as
    /// [`Board::input`](crate::Board::input).
    pub fn input(&mut self, bytes: &[u8]) -> Result<(usize, Pending), Error> {
        let mut took = 0;
        let pending = self.told(|handle, told| unsafe {
            ffi::kalyubos_guest_input(handle, bytes.as_ptr(), bytes.len(), &mut took, told)
        })?;
        Ok((took, pending))
    }

    /// Gives the console another size, of which its driver is told, and tells what then waits.
    pub fn resize(&mut self, cols: u16, rows: u16) -> Result<Pending, Error> {
        self.told(|handle, told| unsafe { ffi::kalyubos_guest_resize(handle, cols, rows, told) })
    }

    /// Moves out the first bytes of what the console put out, as many as find room, and tells how many they are.
    pub fn take_output(&mut self, into: &mut [u8]) -> Result<usize, Error> {
        let mut taken = 0;
        Error::check(unsafe {
            ffi::kalyubos_guest_take_output(
                &mut self.handle,
                into.as_mut_ptr(),
                into.len(),
                &mut taken,
            )
        })?;
        Ok(taken)
    }

    /// Which operations of the disk are in flight, by their tags.
    pub fn in_flight(&self) -> Result<Tags, Error> {
        let mut bits = 0;
        Error::check(unsafe { ffi::kalyubos_guest_in_flight(&self.handle, &mut bits) })?;
        Ok(Tags::of(bits))
    }

    /// What the disk is asked for with a tag, or nothing where nothing is in flight with this tag. It stays the same until
    /// [`complete`](RunningGuest::complete) or [`drop_operations`](RunningGuest::drop_operations), whatever the guest writes.
    pub fn operation(&self, tag: u8) -> Result<Option<Operation>, Error> {
        let mut told = ffi::Operation::default();
        let mut runs = [Run::default(); ffi::RUNS];
        let number = unsafe {
            ffi::kalyubos_guest_operation(
                &self.handle,
                tag,
                &mut told,
                runs.as_mut_ptr(),
                runs.len(),
            )
        };
        match Error::check(number) {
            Ok(()) => Ok(Some(Operation::of(&told, runs))),
            Err(Error::Idle) => Ok(None),
            Err(why) => Err(why),
        }
    }

    /// Says what came of the disk's operation with a tag, as [`Board::complete`](crate::Board::complete).
    pub fn complete(&mut self, tag: u8, outcome: Outcome) -> Result<Pending, Error> {
        let failed = outcome == Outcome::Failed;
        self.told(|handle, told| unsafe {
            ffi::kalyubos_guest_completed(handle, tag, failed, told)
        })
    }

    /// Gives up all that is in flight, as [`Board::drop_operations`](crate::Board::drop_operations): before it the host has
    /// ended each transfer.
    pub fn drop_operations(&mut self) -> Result<Pending, Error> {
        self.told(|handle, told| unsafe { ffi::kalyubos_guest_drop(handle, told) })
    }

    /// Puts the disk on hold until [`release`](RunningGuest::release), as [`Board::hold`](crate::Board::hold).
    pub fn hold(&mut self) -> Result<Pending, Error> {
        self.told(|handle, told| unsafe { ffi::kalyubos_guest_hold(handle, told) })
    }

    /// Ends a [hold](RunningGuest::hold): the queue is looked at. [`Error::Idle`]: the disk isn't on hold.
    pub fn release(&mut self) -> Result<Pending, Error> {
        self.told(|handle, told| unsafe { ffi::kalyubos_guest_release(handle, told) })
    }

    /// Where a queue of a window stands: the place of its next used entry. Of a split queue it is the used idx; of a packed one
    /// the position, and behind it the queue's size where the wrap counter is 0. [`Error::Idle`]: the window isn't live, or has
    /// no such queue that is ready.
    pub fn place(&self, window: Window, queue: u16) -> Result<u16, Error> {
        let mut place = 0;
        Error::check(unsafe {
            ffi::kalyubos_guest_place(&self.handle, window.number(), queue, &mut place)
        })?;
        Ok(place)
    }

    /// Puts a queue to the place where another device left it: from there on it is served, once it is notified.
    /// [`Error::Busy`]: an operation of it is in flight, or it is due. [`Error::Idle`]: as [`place`](RunningGuest::place), or the
    /// queue is packed and the place is twice its size or more.
    pub fn set_place(&mut self, window: Window, queue: u16, place: u16) -> Result<(), Error> {
        Error::check(unsafe {
            ffi::kalyubos_guest_set_place(&mut self.handle, window.number(), queue, place)
        })
    }

    /// Gives the guest these regions over words that the host lends, in the place of its [`memory`](RunningGuest::memory): memory was
    /// plugged in or out, or lies elsewhere. Its devices go on where they stand. No word is read or written. A clone of the memory
    /// before stays what it was.
    ///
    /// # Safety
    ///
    /// The words are as those of [`over_lent`](RunningGuest::over_lent). They share none with the guest's words before, too: memory
    /// that stays is mapped a second time.
    pub unsafe fn set_lent(
        &mut self,
        regions: &[Region],
        lent: &[NonNull<[AtomicU64]>],
    ) -> Result<(), MemoryError> {
        let memory = SharedMemory::lent(regions, lent);
        let mut words = memory.in_c();
        MemoryError::check(unsafe {
            ffi::kalyubos_guest_set_memory(
                &mut self.handle,
                regions.as_ptr(),
                regions.len(),
                words.as_mut_ptr(),
                words.len(),
            )
        })?;
        self.memory = memory;
        self.kept = Vec::new();
        Ok(())
    }

    /// Has it kept from now on which pages of the guest's memory its devices write to, as
    /// [`Board::keep_pages`](crate::Board::keep_pages). After [`set_lent`](RunningGuest::set_lent) none are kept.
    pub fn keep_pages(&mut self, pages: usize) -> Result<(), Error> {
        let mut bits = vec![0; pages.div_ceil(8)];
        let loan = ffi::Loan {
            bytes: bits.as_mut_ptr(),
            len: bits.len(),
        };
        // SAFETY: the bits stay in the guest until the drop, or until the library has others or none.
        Error::check(unsafe { ffi::kalyubos_guest_keep_pages(&mut self.handle, loan) })?;
        self.kept = bits;
        Ok(())
    }

    /// The bits of the guest's pages in place, to read and to clear between two of its calls: no call clears one. There are none where
    /// none are kept.
    pub fn pages(&mut self) -> &mut [u8] {
        &mut self.kept
    }

    /// The interrupt words of the disk and the console. Each call that may move them tells them; a read moves none.
    pub fn interrupts(&self) -> Result<Interrupts, Error> {
        let (mut block, mut console) = (0, 0);
        Error::check(unsafe {
            ffi::kalyubos_guest_interrupts(&self.handle, &mut block, &mut console)
        })?;
        Ok(Interrupts {
            block: block.into(),
            console: console.into(),
        })
    }

    /// Why a window asks for a reset, as [`Board::last_fault`](crate::Board::last_fault). Of a split queue no
    /// [`head`](DriverFault::head) is told: it may be another one by then.
    pub fn last_fault(&self, window: Window) -> Result<Option<DriverFault>, Error> {
        let mut told = ffi::Fault::default();
        Error::check(unsafe {
            ffi::kalyubos_guest_last_fault(&self.handle, window.number(), &mut told)
        })?;
        Ok(DriverFault::of(&told))
    }

    // Makes a call that tells what waits.
    fn told(
        &mut self,
        call: impl FnOnce(&mut ffi::GuestHandle, &mut ffi::Pending) -> u32,
    ) -> Result<Pending, Error> {
        let mut told = ffi::Pending::default();
        let number = call(&mut self.handle, &mut told);
        Pending::told(number, told)
    }
}

impl Drop for RunningGuest {
    fn drop(&mut self) {
        // It holds a guest, so the answer is 0. The words are kept until it is ended.
        unsafe { ffi::kalyubos_guest_destroy(&mut self.handle) };
    }
}
