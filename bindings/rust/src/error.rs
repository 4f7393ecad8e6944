//! Why a call was refused.

use crate::board::Pending;
use crate::ffi::answers;
use std::error;
use std::fmt;

/// Why a call on a board, or on a guest that runs on, was refused. Where it says nothing else, nothing changed.
#[derive(Clone, Copy, Debug, PartialEq, Eq, Hash)]
#[non_exhaustive]
pub enum Error {
    /// The board has no such slot.
    BadSlot,
    /// Not all of the range lies in one region of the guest's memory, or in the image.
    BadRange,
    /// The slot has no such further device, or it takes no such thing.
    BadDevice,
    /// What the console puts out next doesn't fit behind what waits; see [`Board::write`](crate::Board::write). What came
    /// before it is served: this then waits for the slot.
    NoRoom(Pending),
    /// A service of the slot is paused; see [`Board::go_on`](crate::Board::go_on). Or the write waits for the slot's
    /// disk, which the host serves; see [`Board::write`](crate::Board::write). So do a save and a restore.
    Busy,
    /// There is nothing to complete, drop, hold or release; see [`Board::complete`](crate::Board::complete),
    /// [`Board::drop_operations`](crate::Board::drop_operations), [`Board::hold`](crate::Board::hold) and
    /// [`Board::release`](crate::Board::release). Or a queue isn't live, or has no such place; see
    /// [`RunningGuest::set_place`](crate::RunningGuest::set_place).
    Idle,
    /// The board has no image, or one of no bytes.
    NoImage,
    /// The snapshot or the frame doesn't fit into the buffer; see [`Board::save_into`](crate::Board::save_into) and
    /// [`Board::take_frame`](crate::Board::take_frame).
    ShortBuffer,
    /// The slot's memory has more pages than were to be kept; see [`Board::keep_pages`](crate::Board::keep_pages).
    TooFewPages,
    /// A number that this crate doesn't know, of a newer library.
    Other(u32),
}

/// Why a slot takes up no snapshot. Nothing changed.
#[derive(Clone, Copy, Debug, PartialEq, Eq, Hash)]
#[non_exhaustive]
pub enum RestoreError {
    /// The board has no such slot.
    BadSlot,
    /// A service of the slot is paused, or something of it is in flight.
    Busy,
    /// The bytes are no snapshot.
    BadSnapshot,
    /// The snapshot is of a slot with another memory, another disk or other features; or it was [on
    /// hold](crate::Board::hold), and this slot's disk is of the image.
    OtherSlot,
    /// The snapshot has other further devices than the slot.
    OtherDevices,
    /// The snapshot has a state that no driver can bring a window into.
    BadState,
    /// The snapshot has in a further device what can't wait there.
    BadWaiting,
    /// A number that this crate doesn't know, of a newer library.
    Other(u32),
}

/// Why no board, or no guest that runs on, was made.
#[derive(Clone, Copy, Debug, PartialEq, Eq, Hash)]
#[non_exhaustive]
pub enum CreateError {
    /// The heap has too little memory.
    NoMemory,
    /// The image isn't whole sectors of 512 bytes.
    BadImage,
    /// There is no slot.
    NoSlots,
    /// There are more than sixty-four slots.
    TooManySlots,
    /// A region's length is no multiple of 4096 from 4096 on, or the regions of a slot have more than 2^46 bytes.
    BadMemorySize,
    /// A region's base is no multiple of 4096, or the region passes 2^64.
    BadMemoryBase,
    /// A region doesn't begin behind a gap after the one before it.
    RegionsNotApart,
    /// A slot has more than eight regions.
    TooManyRegions,
    /// A slot's sectors pass the image's end, or a disk that the host serves passes 2^64 bytes.
    ExtentOutside,
    /// Two slots share a sector.
    ExtentsOverlap,
    /// The cache is asked to keep no sector, or more than 65536.
    BadCache,
    /// An outlet is asked to keep more than 2^24 bytes.
    BadOutlet,
    /// A disk that the host serves has a depth above 64.
    BadDepth,
    /// A network card has an MTU below 68, or a disk that the host serves 2^55 sectors or more or a depth above 64. Or a
    /// [guest that runs on](crate::RunningGuest) has a further device.
    BadDevice,
    /// A disk over the image has no sectors, one that isn't a spare one of its slot, or one that another disk has.
    BadExtent,
    /// A slot has more than six further devices.
    TooManyDevices,
    /// The lent bytes have another number or length than the regions; see [`Board::over_lent`](crate::Board::over_lent). So
    /// have the words of [`RunningGuest::over_lent`](crate::RunningGuest::over_lent).
    BadLoan,
    /// The disk of a [guest that runs on](crate::RunningGuest) is to be of an image: its slot isn't
    /// [`Slot::hosted`](crate::Slot::hosted).
    NotHosted,
    /// The library that is linked has a config or a slot of another size than the crate.
    BadSize,
    /// The library that is linked is of another version, this one, than the crate.
    WrongLibrary(u32),
    /// A number that this crate doesn't know, of a newer library.
    Other(u32),
}

/// Why a guest that runs on keeps its memory, as [`RunningGuest::set_lent`](crate::RunningGuest::set_lent) has it. Nothing changed.
#[derive(Clone, Copy, Debug, PartialEq, Eq, Hash)]
#[non_exhaustive]
pub enum MemoryError {
    /// An operation of the disk is in flight, or a queue is due.
    Busy,
    /// The lent words have another number or length than the regions, or there are more than eight regions.
    BadLoan,
    /// There is no region.
    NoRegions,
    /// A region's length is no multiple of 4096 from 4096 on, or the regions have more than 2^46 bytes.
    BadMemorySize,
    /// A region's base is no multiple of 4096, or the region passes 2^64.
    BadMemoryBase,
    /// A region doesn't begin behind a gap after the one before it.
    RegionsNotApart,
    /// The areas of a ready queue don't lie in these regions.
    QueueOutside,
    /// The heap has too little memory.
    NoMemory,
    /// A number that this crate doesn't know, of a newer library.
    Other(u32),
}

/// What is wrong with a [`Config`](crate::Config), and where.
#[derive(Clone, Copy, Debug, PartialEq, Eq, Hash)]
#[non_exhaustive]
pub struct Fault {
    /// What [`Board::create`](crate::Board::create) answers.
    pub why: CreateError,
    /// The place of the slot that it is about, where it is about one.
    pub slot: Option<usize>,
    /// The place of the region of that slot, where it is about one.
    pub region: Option<usize>,
}

impl Fault {
    // One that is about no slot.
    pub(crate) fn of(why: CreateError) -> Fault {
        Fault {
            why,
            slot: None,
            region: None,
        }
    }
}

impl Error {
    /// What the number of an answer says.
    pub(crate) fn check(number: u32) -> Result<(), Error> {
        match number {
            answers::DONE => Ok(()),
            answers::BAD_SLOT => Err(Error::BadSlot),
            answers::BAD_RANGE => Err(Error::BadRange),
            answers::BAD_WINDOW => Err(Error::BadDevice),
            answers::BUSY => Err(Error::Busy),
            answers::IDLE => Err(Error::Idle),
            answers::NO_IMAGE => Err(Error::NoImage),
            answers::SHORT_BUFFER => Err(Error::ShortBuffer),
            answers::BAD_LOAN => Err(Error::TooFewPages),
            number => Err(Error::Other(number)),
        }
    }
}

impl RestoreError {
    /// What the number of restore's answer says.
    pub(crate) fn check(number: u32) -> Result<(), RestoreError> {
        match number {
            answers::DONE => Ok(()),
            answers::BAD_SLOT => Err(RestoreError::BadSlot),
            answers::BUSY => Err(RestoreError::Busy),
            answers::BAD_SNAPSHOT => Err(RestoreError::BadSnapshot),
            answers::OTHER_SLOT => Err(RestoreError::OtherSlot),
            answers::BAD_STATE => Err(RestoreError::BadState),
            answers::OTHER_DEVICES => Err(RestoreError::OtherDevices),
            answers::BAD_WAITING => Err(RestoreError::BadWaiting),
            number => Err(RestoreError::Other(number)),
        }
    }
}

impl MemoryError {
    /// What the number of an answer about other memory says.
    pub(crate) fn check(number: u32) -> Result<(), MemoryError> {
        use MemoryError::*;
        Err(match number {
            answers::DONE => return Ok(()),
            answers::BUSY => Busy,
            answers::BAD_LOAN => BadLoan,
            answers::NO_REGIONS => NoRegions,
            answers::BAD_MEMORY_SIZE => BadMemorySize,
            answers::BAD_MEMORY_BASE => BadMemoryBase,
            answers::REGIONS_NOT_APART => RegionsNotApart,
            answers::BAD_RANGE => QueueOutside,
            answers::NO_MEMORY => NoMemory,
            number => Other(number),
        })
    }
}

impl CreateError {
    /// What the number of create's answer says.
    pub(crate) fn check(number: u32) -> Result<(), CreateError> {
        use CreateError::*;
        Err(match number {
            answers::DONE => return Ok(()),
            answers::NO_MEMORY => NoMemory,
            answers::BAD_IMAGE => BadImage,
            answers::NO_SLOTS => NoSlots,
            answers::TOO_MANY_SLOTS => TooManySlots,
            answers::BAD_MEMORY_SIZE => BadMemorySize,
            answers::BAD_MEMORY_BASE => BadMemoryBase,
            answers::EXTENT_OUTSIDE => ExtentOutside,
            answers::EXTENTS_OVERLAP => ExtentsOverlap,
            answers::BAD_CACHE => BadCache,
            answers::BAD_OUTLET => BadOutlet,
            answers::BAD_SIZE => BadSize,
            answers::REGIONS_NOT_APART => RegionsNotApart,
            answers::BAD_LOAN => BadLoan,
            answers::BAD_DEPTH => BadDepth,
            answers::BAD_DEVICE => BadDevice,
            answers::NOT_HOSTED => NotHosted,
            answers::BAD_EXTENT => BadExtent,
            number => Other(number),
        })
    }
}

impl fmt::Display for Error {
    fn fmt(&self, f: &mut fmt::Formatter<'_>) -> fmt::Result {
        match self {
            Error::BadSlot => f.write_str("the board has no such slot"),
            Error::BadRange => f.write_str("the range is not inside"),
            Error::BadDevice => {
                f.write_str("the slot has no such device, or it takes no such thing")
            }
            Error::NoRoom(_) => {
                f.write_str("the console's next output does not fit behind what waits")
            }
            Error::Busy => {
                f.write_str("a service of the slot is paused, or one of its disks is at work")
            }
            Error::Idle => f.write_str("there is nothing to complete, drop, hold or release, or the queue isn't live or has no such place"),
            Error::NoImage => f.write_str("the board has no image, or one of no bytes"),
            Error::ShortBuffer => {
                f.write_str("the buffer is shorter than the snapshot or the frame")
            }
            Error::TooFewPages => f.write_str("the slot's memory has more pages"),
            Error::Other(number) => write!(f, "the library answered {number}"),
        }
    }
}

impl fmt::Display for RestoreError {
    fn fmt(&self, f: &mut fmt::Formatter<'_>) -> fmt::Result {
        use RestoreError::*;
        f.write_str(match self {
            BadSlot => "the board has no such slot",
            Busy => "a service of the slot is paused, or one of its disks is at work",
            BadSnapshot => "the bytes are no snapshot",
            OtherSlot => "the slot has another memory, another disk or other features",
            OtherDevices => "the snapshot has other devices",
            BadState => "the snapshot has a state that no driver can bring a window into",
            BadWaiting => "the snapshot has in a further device what can't wait there",
            Other(number) => return write!(f, "the library answered {number}"),
        })
    }
}

impl fmt::Display for MemoryError {
    fn fmt(&self, f: &mut fmt::Formatter<'_>) -> fmt::Result {
        use MemoryError::*;
        f.write_str(match self {
            Busy => "an operation of the disk is in flight, or a queue is due",
            BadLoan => "each region needs lent words of its length, and there are eight at most",
            NoRegions => "a guest needs a region of memory",
            BadMemorySize => {
                "a region's length is a multiple of 4096, and a guest has 2^46 bytes at most"
            }
            BadMemoryBase => "a region begins at a multiple of 4096 and ends at 2^64 or before",
            RegionsNotApart => "regions stand in ascending order, with a gap between each two",
            QueueOutside => "a ready queue lies outside the memory",
            NoMemory => "out of memory",
            Other(number) => return write!(f, "the library answered {number}"),
        })
    }
}

impl fmt::Display for CreateError {
    fn fmt(&self, f: &mut fmt::Formatter<'_>) -> fmt::Result {
        use CreateError::*;
        f.write_str(match self {
            NoMemory => "out of memory",
            BadImage => "the image is not whole sectors of 512 bytes",
            NoSlots => "a board needs a slot",
            TooManySlots => "a board has sixty-four slots at most",
            BadMemorySize => {
                "a region's length is a multiple of 4096, and a guest has 2^46 bytes at most"
            }
            BadMemoryBase => "a region begins at a multiple of 4096 and ends at 2^64 or before",
            RegionsNotApart => "regions stand in ascending order, with a gap between each two",
            TooManyRegions => "a guest's memory has eight regions at most",
            ExtentOutside => "a slot's sectors pass the image's end, or its disk 2^64 bytes",
            ExtentsOverlap => "two slots share a sector",
            BadCache => "a cache keeps 1 to 65536 sectors",
            BadOutlet => "an outlet keeps 2^24 bytes at most",
            BadDepth => "a disk that the host serves has 1 to 64 operations in flight",
            BadDevice => {
                "a network card has an MTU of 68 or more, and a disk fewer than 2^55 sectors and a depth of 1 to 64; a guest that runs on has no further disk"
            }
            BadExtent => {
                "a disk over the image has one or more spare sectors of its slot, which no other disk has"
            }
            TooManyDevices => "a slot has six further devices at most",
            BadLoan => "each region of each slot needs lent bytes of its length",
            NotHosted => "the host serves the disk of a guest that runs on",
            BadSize => "the library's config or slot has another size than the crate's",
            WrongLibrary(version) => {
                return write!(
                    f,
                    "the library is of version {version}, another than the crate"
                )
            }
            Other(number) => return write!(f, "the library answered {number}"),
        })
    }
}

impl fmt::Display for Fault {
    fn fmt(&self, f: &mut fmt::Formatter<'_>) -> fmt::Result {
        if let Some(slot) = self.slot {
            write!(f, "slot {slot}: ")?;
        }
        if let Some(region) = self.region {
            write!(f, "region {region}: ")?;
        }
        self.why.fmt(f)
    }
}

impl error::Error for Error {}
impl error::Error for Fault {}
impl error::Error for RestoreError {}
impl error::Error for CreateError {}
impl error::Error for MemoryError {}
