//! Which operations of a disk are in flight.

use std::fmt;

/// Tags of operations: a set of numbers from 0 to 63.
///
/// ```
/// use kalyubos::Tags;
///
/// let mut begun = Tags::default();
/// begun.insert(2);
/// begun.insert(5);
/// assert!(begun.contains(5) && !begun.contains(4));
///
/// let mut known = Tags::default();
/// known.insert(5);
/// assert_eq!(begun.without(known).first(), Some(2));
/// assert_eq!(begun.into_iter().collect::<Vec<_>>(), [2, 5]);
/// ```
#[derive(Clone, Copy, Default, PartialEq, Eq, Hash)]
pub struct Tags {
    // Bit n stands for tag n.
    bits: u64,
}

impl Tags {
    // Those of C's bits.
    pub(crate) fn of(bits: u64) -> Tags {
        Tags { bits }
    }

    /// Whether a tag is among them.
    #[must_use]
    pub fn contains(self, tag: u8) -> bool {
        self.bits & bit(tag) != 0
    }

    /// Adds a tag; of a number above 63 nothing.
    pub fn insert(&mut self, tag: u8) {
        self.bits |= bit(tag);
    }

    /// Takes a tag away.
    pub fn remove(&mut self, tag: u8) {
        self.bits &= !bit(tag);
    }

    /// Those that aren't among others.
    #[must_use]
    pub fn without(self, others: Tags) -> Tags {
        Tags::of(self.bits & !others.bits)
    }

    /// The lowest tag.
    #[must_use]
    pub fn first(self) -> Option<u8> {
        self.into_iter().next()
    }

    /// How many there are.
    #[must_use]
    pub fn len(self) -> usize {
        self.bits.count_ones() as usize
    }

    /// Whether there is none.
    #[must_use]
    pub fn is_empty(self) -> bool {
        self.bits == 0
    }
}

// The bit of a tag; none of a number that is no tag.
fn bit(tag: u8) -> u64 {
    1u64.checked_shl(tag.into()).unwrap_or(0)
}

/// The tags of a set, from the lowest on.
#[derive(Clone, Debug)]
pub struct IntoIter {
    left: Tags,
}

impl Iterator for IntoIter {
    type Item = u8;

    fn next(&mut self) -> Option<u8> {
        if self.left.is_empty() {
            return None;
        }
        let tag = self.left.bits.trailing_zeros() as u8;
        self.left.remove(tag);
        Some(tag)
    }
}

impl IntoIterator for Tags {
    type Item = u8;
    type IntoIter = IntoIter;

    fn into_iter(self) -> IntoIter {
        IntoIter { left: self }
    }
}

impl fmt::Debug for Tags {
    fn fmt(&self, f: &mut fmt::Formatter<'_>) -> fmt::Result {
        f.debug_set().entries(*self).finish()
    }
}
