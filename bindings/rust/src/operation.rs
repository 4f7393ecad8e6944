//! What a disk is asked for that the host serves, and what came of it.

use crate::ffi::{self, operations};
use std::fmt;
use std::ops::Deref;
use std::slice;

/// What is to be done.
#[derive(Clone, Copy, Debug, PartialEq, Eq, Hash)]
pub enum Kind {
    /// Bytes of the disk go into the runs.
    In,
    /// The bytes of the runs go to the disk.
    Out,
    /// What was written before reaches the medium, as by `File::sync_data`.
    Flush,
    /// The runs, which are of the disk, become zeros.
    Zeroes,
}

/// `len` bytes from `at` on: an address of guest memory, or of [`Kind::Zeroes`] a byte of the guest's disk.
#[derive(Clone, Copy, Debug, Default, PartialEq, Eq, Hash)]
#[repr(C)]
pub struct Run {
    /// The first byte.
    pub at: u64,
    /// How many there are, one at least.
    pub len: u64,
}

/// Where the bytes of an operation lie: a slice of 256 runs at most, in 4 KiB of its own.
///
/// ```
/// # use kalyubos::Runs;
/// fn bytes_of(runs: &Runs) -> u64 {
///     runs.iter().map(|run| run.len).sum()
/// }
/// ```
#[derive(Clone)]
pub struct Runs {
    len: usize,
    all: [Run; ffi::RUNS],
}

impl Deref for Runs {
    type Target = [Run];

    fn deref(&self) -> &[Run] {
        &self.all[..self.len]
    }
}

impl<'runs> IntoIterator for &'runs Runs {
    type Item = &'runs Run;
    type IntoIter = slice::Iter<'runs, Run>;

    fn into_iter(self) -> slice::Iter<'runs, Run> {
        self.iter()
    }
}

impl PartialEq for Runs {
    fn eq(&self, other: &Runs) -> bool {
        **self == **other
    }
}

impl Eq for Runs {}

impl fmt::Debug for Runs {
    fn fmt(&self, f: &mut fmt::Formatter<'_>) -> fmt::Result {
        (**self).fmt(f)
    }
}

/// One operation on a guest's disk, which lies inside the guest's memory and its disk. It stays the same until it is
/// completed, whatever the guest writes meanwhile. It is the host's own, and may go to another thread.
#[derive(Clone, Debug, PartialEq, Eq)]
#[must_use = "the slot's disk waits until the operation is done and completed"]
pub struct Operation {
    /// What is to be done.
    pub kind: Kind,
    /// The first byte on this guest's disk; 0 of a flush and of zeroes.
    pub start: u64,
    /// How many bytes the runs of [`Kind::In`] and [`Kind::Out`] have together; 0 of the others.
    pub len: u64,
    /// Whether what it writes is to be on the medium before it is completed, since the guest's driver can't flush.
    pub stable: bool,
    /// Where its bytes lie; none of a flush.
    pub runs: Runs,
}

/// What came of an operation.
#[derive(Clone, Copy, Debug, PartialEq, Eq, Hash)]
pub enum Outcome {
    /// All of it was done.
    Done,
    /// It failed: the guest is told an error.
    Failed,
}

impl Kind {
    // The kind of a number, where it has one.
    fn of(number: u32) -> Option<Kind> {
        Some(match number {
            operations::IN => Kind::In,
            operations::OUT => Kind::Out,
            operations::FLUSH => Kind::Flush,
            operations::ZEROES => Kind::Zeroes,
            _ => return None,
        })
    }
}

impl Operation {
    // What C told, with its runs.
    pub(crate) fn of(told: &ffi::Operation, all: [Run; ffi::RUNS]) -> Operation {
        Operation {
            kind: Kind::of(told.kind).expect("an operation has one of four kinds"),
            start: told.start,
            len: told.len,
            stable: told.stable,
            runs: Runs {
                len: told.runs as usize,
                all,
            },
        }
    }
}
