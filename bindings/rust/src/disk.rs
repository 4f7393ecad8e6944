//! A disk that the host serves: what is asked of it, and what came of that.

use crate::board::{Board, Pending, Window};
use crate::error::Error;
use crate::ffi;
use crate::operation::{Operation, Outcome, Run};
use crate::tags::Tags;

/// The calls of a disk that the host serves: with [`Window::Block`] of a slot's own, and with [`Window::Device`] of a further
/// one. [`Error::BadDevice`]: the window is no disk's. What a further disk's call tells of interrupts is of the slot's own disk and
/// console; [`device_pending`](Board::device_pending) tells the line of the further one.
impl Board {
    /// Which operations of a disk are in flight, by their tags: numbers below its depth ([`Slot::with_depth`](crate::Slot::with_depth),
    /// [`Device::Disk`](crate::Device::Disk)).
    ///
    /// An operation keeps its tag until it is completed or dropped; then the tag is free for another. A host remembers
    /// those that it has begun, begins the others after each call that tells [`Pending::io`], and forgets a tag once its
    /// completion is taken:
    ///
    /// ```
    /// use kalyubos::{Board, Config, Error, Kind, Operation, Outcome, Slot, Tags, Window};
    ///
    /// /// A read of a disk that is a list of bytes.
    /// fn read(board: &mut Board, asked: &Operation, disk: &[u8]) -> Result<(), Error> {
    ///     let mut rest = &disk[asked.start as usize..];
    ///     for run in &asked.runs {
    ///         let (part, behind) = rest.split_at(run.len as usize);
    ///         board.memory(0, run.at)?[..part.len()].copy_from_slice(part);
    ///         rest = behind;
    ///     }
    ///     Ok(())
    /// }
    ///
    /// let slot = Slot::hosted(0x8000_0000, 0x1_0000, 8).with_depth(16);
    /// let mut board = Board::create(&Config::new(&[slot]))?;
    /// let mut begun = Tags::default();
    /// for tag in board.in_flight(0, Window::Block)?.without(begun) {
    ///     begun.insert(tag);
    ///     match board.operation(0, Window::Block, tag)? {
    ///         Some(asked) if asked.kind == Kind::In => read(&mut board, &asked, &[0; 8 * 512])?,
    ///         asked => println!("{asked:?}"),
    ///     }
    /// }
    /// while let Some(tag) = begun.first() {
    ///     match board.complete(0, Window::Block, tag, Outcome::Done) {
    ///         Err(Error::Busy) => println!("{:?}", board.go_on(0)?), // a service of the slot is paused: again behind its end
    ///         told => {
    ///             begun.remove(tag);
    ///             println!("{:?}", told?);
    ///         }
    ///     }
    /// }
    /// # Ok::<(), Box<dyn std::error::Error>>(())
    /// ```
    pub fn in_flight(&self, slot: u8, window: Window) -> Result<Tags, Error> {
        let mut bits = 0;
        Error::check(unsafe {
            ffi::kalyubos_in_flight(self.handle(), slot, window.number(), &mut bits)
        })?;
        Ok(Tags::of(bits))
    }

    /// What a disk is asked for with a tag, or nothing where nothing of it is in flight with this tag. It may be
    /// asked for again and again, and stays the same until [`complete`](Board::complete) or
    /// [`drop_operations`](Board::drop_operations). The operation borrows no board, so its runs are read while guest memory
    /// is lent.
    pub fn operation(&self, slot: u8, window: Window, tag: u8) -> Result<Option<Operation>, Error> {
        let mut told = ffi::Operation::default();
        let mut runs = [Run::default(); ffi::RUNS];
        let number = unsafe {
            ffi::kalyubos_operation(
                self.handle(),
                slot,
                window.number(),
                tag,
                &mut told,
                runs.as_mut_ptr(),
                runs.len(),
            )
        };
        match Error::check(number) {
            Ok(()) => Ok(Some(Operation::of(&told, runs))),
            Err(Error::Idle) => Ok(None),
            Err(why) => Err(why),
        }
    }

    /// Says what came of a disk's operation with a tag. The guest's request is completed, the tag is free, and the queue
    /// is looked at again, unless the disk is [on hold](Board::hold). Operations are completed in any order.
    ///
    /// Of [`Outcome::Done`] the bytes of an IN stand in the runs, those of an OUT are found by each later IN, and after
    /// a flush, or where the operation is `stable`, they are on the medium. In a window that asks for a reset a completion
    /// only frees its tag. [`Error::Idle`]: nothing was in flight with this tag.
    ///
    /// [`Error::Busy`]: a service of the slot is paused, also one of its console. The operation is in flight as before: keep its
    /// outcome, and make this call again once [`go_on`](Board::go_on) tells no [`more`](Pending::more). Until then
    /// [`read_memory`](Board::read_memory) and [`write_memory`](Board::write_memory) are busy too.
    pub fn complete(
        &mut self,
        slot: u8,
        window: Window,
        tag: u8,
        outcome: Outcome,
    ) -> Result<Pending, Error> {
        let mut told = ffi::Pending::default();
        let number = unsafe {
            ffi::kalyubos_completed(
                self.handle_mut(),
                slot,
                window.number(),
                tag,
                outcome == Outcome::Failed,
                &mut told,
            )
        };
        Pending::told(number, told)
    }

    /// Gives up all that is in flight of a disk, where the host can't complete it. All tags are free, none of the requests is
    /// completed, and nothing is written into the guest's memory. The disk's window asks for a reset, as after a fault; nothing
    /// begins until the driver has reset it. A write of the window that was [`Error::Busy`] passes when it is made again.
    /// [`Error::Idle`]: nothing is in flight.
    ///
    /// Before this call the host has cancelled each transfer of the disk, or waited for its end: none touches the guest's memory any
    /// more. One that reached the disk later would overwrite what the guest writes behind its reset.
    pub fn drop_operations(&mut self, slot: u8, window: Window) -> Result<Pending, Error> {
        let mut told = ffi::Pending::default();
        let number =
            unsafe { ffi::kalyubos_drop(self.handle_mut(), slot, window.number(), &mut told) };
        Pending::told(number, told)
    }

    /// Puts a disk on hold: no further chain of its queue is taken until [`release`](Board::release). What is in flight is
    /// completed as ever, and the guest runs on. So a guest is [saved](Board::save) with requests on offer. Neither a reset
    /// nor [`drop_operations`](Board::drop_operations) ends a hold. [`Error::Idle`]: the disk is on hold already, or
    /// is of the image.
    pub fn hold(&mut self, slot: u8, window: Window) -> Result<Pending, Error> {
        let mut told = ffi::Pending::default();
        let number =
            unsafe { ffi::kalyubos_hold(self.handle_mut(), slot, window.number(), &mut told) };
        Pending::told(number, told)
    }

    /// Ends a [hold](Board::hold): the queue is looked at, as after a notification, and operations may begin with that
    /// ([`Pending::io`]). [`Error::Idle`]: the disk isn't on hold.
    pub fn release(&mut self, slot: u8, window: Window) -> Result<Pending, Error> {
        let mut told = ffi::Pending::default();
        let number =
            unsafe { ffi::kalyubos_release(self.handle_mut(), slot, window.number(), &mut told) };
        Pending::told(number, told)
    }
}
