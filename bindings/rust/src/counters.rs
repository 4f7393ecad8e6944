//! What the devices of a guest did.

/// What the devices of a slot did since its board was made, each number modulo 2^64. [`Board::restore`](crate::Board::restore)
/// keeps the numbers. They are counted beside the proof: tests compare them, and no promise speaks of them.
#[derive(Clone, Copy, Debug, Default, PartialEq, Eq, Hash)]
#[must_use = "to ask for the numbers changes nothing"]
#[repr(C)]
pub struct Counters {
    /// Writes to QueueNotify that named a ready queue of a live window.
    pub notifies: u64,
    /// Chains that were given back as used.
    pub chains: u64,
    /// Bytes that devices wrote into the guest's memory: the sum of the used lengths.
    pub bytes_in: u64,
    /// Bytes of the readable buffers of used chains, headers included.
    pub bytes_out: u64,
    /// Services that ended by a fault, so that a window asks for a reset.
    pub faults: u64,
    /// Calls that ended with [`Error::NoRoom`](crate::Error::NoRoom), and completions that said that an operation failed.
    pub refusals: u64,
    /// Calls that left a service paused: those whose [`Pending`](crate::Pending) says `more`.
    pub pauses: u64,
}
