//! What a disk answers to GET_ID.

use std::error;
use std::fmt;
use std::str::FromStr;

/// What a slot's disk answers to GET_ID: 20 bytes. A shorter text has NULs behind it. Linux shows it as the disk's
/// serial, in `/sys/block/vda/serial`.
///
/// ```
/// use kalyubos::{Identity, Slot};
///
/// let guest = Slot::new(0x8000_0000, 0x1_0000, 0..8).with_identity("disk-0".parse()?);
///
/// let numbered: Identity = format!("disk-{}", 1).parse()?;
/// assert_eq!(&numbered.bytes()[..8], b"disk-1\0\0");
/// assert_eq!(Identity::from(*b"twenty bytes, no NUL"), "twenty bytes, no NUL".parse()?);
/// assert!("twenty-one bytes long".parse::<Identity>().is_err());
/// # Ok::<(), kalyubos::IdentityTooLong>(())
/// ```
#[derive(Clone, Copy, Debug, Default, PartialEq, Eq, Hash)]
pub struct Identity([u8; 20]);

impl Identity {
    /// Its bytes.
    #[must_use]
    pub fn bytes(&self) -> &[u8; 20] {
        &self.0
    }
}

impl From<[u8; 20]> for Identity {
    fn from(bytes: [u8; 20]) -> Identity {
        Identity(bytes)
    }
}

impl FromStr for Identity {
    type Err = IdentityTooLong;

    fn from_str(text: &str) -> Result<Identity, IdentityTooLong> {
        let mut bytes = [0; 20];
        bytes
            .get_mut(..text.len())
            .ok_or(IdentityTooLong { len: text.len() })?
            .copy_from_slice(text.as_bytes());
        Ok(Identity(bytes))
    }
}

/// A text of more than 20 bytes is no identity.
#[derive(Clone, Copy, Debug, PartialEq, Eq, Hash)]
pub struct IdentityTooLong {
    /// How many bytes the text has.
    pub len: usize,
}

impl fmt::Display for IdentityTooLong {
    fn fmt(&self, f: &mut fmt::Formatter<'_>) -> fmt::Result {
        write!(
            f,
            "an identity has 20 bytes at most, and this text has {}",
            self.len
        )
    }
}

impl error::Error for IdentityTooLong {}
