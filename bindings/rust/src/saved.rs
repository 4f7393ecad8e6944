//! A guest's devices as bytes, and back.

use crate::board::{Board, Pending};
use crate::error::{Error, RestoreError};
use crate::ffi;

impl Board {
    /// How many bytes a slot's snapshot has, until the next call for the slot. [`Error::Busy`]: a service of the slot is
    /// paused, or something of it is in flight.
    pub fn saved_len(&self, slot: u8) -> Result<usize, Error> {
        let mut len = 0;
        Error::check(unsafe { ffi::kalyubos_saved_len(self.handle(), slot, &mut len) })?;
        Ok(len)
    }

    /// A slot's snapshot: what its devices keep, the pending input, what waits in further devices, and the description of the
    /// slot.
    ///
    /// It has neither memory nor disk, nor the output of the slot's own console that waits. Before it the host stops the guest's CPUs, brings a paused
    /// service to its end, puts the slot [on hold](Board::hold), completes what is in flight, and takes the output. Then,
    /// with no call for the slot between, it saves the devices, and copies the memory and the disk. [`Error::Busy`] as
    /// [`saved_len`](Board::saved_len).
    ///
    /// ```
    /// use kalyubos::{Board, Config, RestoreError, Slot};
    ///
    /// let slots = [Slot::new(0x8000_0000, 0x1_0000, 0..2)];
    /// let mut first = Board::create(&Config::new(&slots).with_image(&[0; 1024]))?;
    /// first.input(0, b"ls")?;
    /// let devices = first.save(0)?;
    /// let (memory, disk) = (first.memory(0, 0x8000_0000)?.to_vec(), first.image()?.to_vec());
    /// drop(first);
    ///
    /// let mut second = Board::create(&Config::new(&slots).with_image(&disk))?;
    /// second.memory(0, 0x8000_0000)?.copy_from_slice(&memory);
    /// let pending = second.restore(0, &devices)?;
    /// assert_eq!(pending.interrupts.console, 0);
    ///
    /// // A slot takes it whoever has its disk, where that has as many sectors. One of a slot on hold is for hosted ones.
    /// let hosted = [Slot::hosted(0x8000_0000, 0x1_0000, 2)];
    /// let pending = Board::create(&Config::new(&hosted))?.restore(0, &devices)?;
    /// assert!(!pending.io);
    ///
    /// // Another slot's snapshot is refused.
    /// let mut other = Board::create(&Config::new(&[Slot::hosted(0, 0x1000, 2)]))?;
    /// assert_eq!(other.restore(0, &devices), Err(RestoreError::OtherSlot));
    /// # Ok::<(), Box<dyn std::error::Error>>(())
    /// ```
    pub fn save(&self, slot: u8) -> Result<Vec<u8>, Error> {
        let mut bytes = vec![0; self.saved_len(slot)?];
        self.save_into(slot, &mut bytes)?;
        Ok(bytes)
    }

    /// Writes a slot's [snapshot](Board::save) to the front of a buffer, and tells how many bytes it has; those behind them
    /// stay. [`Error::ShortBuffer`]: it doesn't fit, and nothing is written.
    pub fn save_into(&self, slot: u8, into: &mut [u8]) -> Result<usize, Error> {
        let mut written = 0;
        Error::check(unsafe {
            ffi::kalyubos_save(
                self.handle(),
                slot,
                into.as_mut_ptr(),
                into.len(),
                &mut written,
            )
        })?;
        Ok(written)
    }

    /// Puts a slot's devices into the state of a [snapshot](Board::save) of a slot of the same description, of any
    /// board, and tells what then waits. Memory and disk stay. A disk that was on hold when it was saved is so behind it:
    /// [`release`](Board::release) begins there what stayed on offer. In further devices waits what waited then.
    ///
    /// Before it the host puts back the guest's memory and its disk. Behind it the host sets the lines of all windows by
    /// [`lines`](Board::lines), makes a write again that was [`Error::NoRoom`], and starts the guest's CPUs.
    pub fn restore(&mut self, slot: u8, from: &[u8]) -> Result<Pending, RestoreError> {
        let mut told = ffi::Pending::default();
        RestoreError::check(unsafe {
            ffi::kalyubos_restore(
                self.handle_mut(),
                slot,
                from.as_ptr(),
                from.len(),
                &mut told,
            )
        })?;
        Ok(Pending::of(told))
    }
}
