//! Why a window asks for a reset.

use crate::board::{Board, Window};
use crate::error::Error;
use crate::ffi::{self, faults};
use std::fmt;

/// What is wrong with what a guest's driver wrote into a queue. The sections are of VIRTIO 1.2.
#[derive(Clone, Copy, Debug, PartialEq, Eq, Hash)]
#[non_exhaustive]
pub enum FaultKind {
    /// More chains are on offer than the queue has descriptors (2.7.13.3).
    Jump,
    /// An index of a descriptor is outside its table (2.7.5).
    Index,
    /// A list of descriptors goes on after as many as its table has (2.7.5.2).
    Loop,
    /// A chain has more than 256 buffers.
    TooMany,
    /// An indirect table has length 0, no multiple of 16 or more than 4096 (2.7.5.3).
    Table,
    /// An indirect table is inside an indirect table (2.7.5.3.1).
    Nested,
    /// An indirect table is joined to other descriptors (2.7.5.3.1).
    Joined,
    /// There is an indirect table, and its feature isn't negotiated (2.7.5.3.1).
    NoIndirect,
    /// A buffer or a table isn't inside one region of the guest's memory.
    Range,
    /// A chain has more than 2^32 - 1 bytes (2.7.5.2).
    TooLong,
    /// A number that this crate doesn't know, of a newer library.
    Other(u32),
}

/// The last fault of a window, and the chain on offer at which it was met. It displays as a line for a log.
#[derive(Clone, Copy, Debug, PartialEq, Eq, Hash)]
pub struct DriverFault {
    /// What is wrong.
    pub kind: FaultKind,
    /// The number of the queue, as a notification names it.
    pub queue: u32,
    /// The index of the chain's first descriptor; none of a [`FaultKind::Jump`], where none was read, or of a split queue of a
    /// [`RunningGuest`](crate::RunningGuest). In a packed queue it is the position where the list begins.
    pub head: Option<u32>,
    /// The place of that chain. In a split queue its idx, from 0 to 65535. In a packed one the position, and the
    /// queue's size more where the wrap counter is 0.
    pub place: u32,
}

impl Board {
    /// Why a window of a slot asks for a reset, if a fault ever came. It stays until the window's next fault, also
    /// through a reset and a restore, and may be asked in a pause. [`Error::BadDevice`] of a further device's window, whose
    /// faults aren't noted.
    ///
    /// ```
    /// # use kalyubos::{Board, Config, Slot, Window};
    /// let board = Board::create(&Config::new(&[Slot::hosted(0, 0x1000, 1)]))?;
    /// assert_eq!(board.last_fault(0, Window::Block)?, None);
    /// # Ok::<(), Box<dyn std::error::Error>>(())
    /// ```
    pub fn last_fault(&self, slot: u8, window: Window) -> Result<Option<DriverFault>, Error> {
        let mut told = ffi::Fault::default();
        Error::check(unsafe {
            ffi::kalyubos_last_fault(self.handle(), slot, window.number(), &mut told)
        })?;
        Ok(DriverFault::of(&told))
    }
}

impl DriverFault {
    // What C told, or none where it told that there is none.
    pub(crate) fn of(told: &ffi::Fault) -> Option<DriverFault> {
        FaultKind::of(told.kind).map(|kind| DriverFault {
            kind,
            queue: told.queue,
            head: (told.head != ffi::NO_HEAD).then_some(told.head),
            place: told.place,
        })
    }
}

impl FaultKind {
    // The fault of this number, or none of 0.
    fn of(number: u32) -> Option<FaultKind> {
        use FaultKind::*;
        Some(match number {
            faults::NO_FAULT => return None,
            faults::FAULT_JUMP => Jump,
            faults::FAULT_INDEX => Index,
            faults::FAULT_LOOP => Loop,
            faults::FAULT_TOO_MANY => TooMany,
            faults::FAULT_TABLE => Table,
            faults::FAULT_NESTED => Nested,
            faults::FAULT_JOINED => Joined,
            faults::FAULT_NO_INDIRECT => NoIndirect,
            faults::FAULT_RANGE => Range,
            faults::FAULT_TOO_LONG => TooLong,
            number => Other(number),
        })
    }
}

impl fmt::Display for FaultKind {
    fn fmt(&self, f: &mut fmt::Formatter<'_>) -> fmt::Result {
        use FaultKind::*;
        f.write_str(match self {
            Jump => "more chains on offer than descriptors",
            Index => "a descriptor's index outside its table",
            Loop => "a list of descriptors longer than its table",
            TooMany => "a chain of more than 256 buffers",
            Table => "an indirect table of a bad length",
            Nested => "an indirect table inside an indirect table",
            Joined => "an indirect table joined to other descriptors",
            NoIndirect => "an indirect table without its feature",
            Range => "a buffer or a table outside memory",
            TooLong => "a chain of more than 2^32 - 1 bytes",
            Other(number) => return write!(f, "fault {number} of a newer library"),
        })
    }
}

impl fmt::Display for DriverFault {
    fn fmt(&self, f: &mut fmt::Formatter<'_>) -> fmt::Result {
        write!(f, "queue {}, ", self.queue)?;
        if let Some(head) = self.head {
            write!(f, "head {head}, ")?;
        }
        write!(f, "place {}: {}", self.place, self.kind)
    }
}
