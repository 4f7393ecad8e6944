//! The interrupt lines of a slot's windows.

use crate::board::{Board, Window};
use crate::error::Error;
use crate::ffi;

/// The interrupt lines of all windows of a slot.
#[derive(Clone, Copy, Debug, Default, PartialEq, Eq, Hash)]
#[must_use = "the slot's lines move by them"]
pub struct Lines {
    bits: u32,
}

impl Lines {
    /// Whether the line of a window is high. That of a window that the slot doesn't have is low.
    #[must_use]
    pub fn is_high(self, window: Window) -> bool {
        let shifted = self.bits.checked_shr(window.number().into());
        shifted.is_some_and(|bits| bits & 1 != 0)
    }
}

impl Board {
    /// The lines of all windows of a slot. It may be asked at any time, also in a pause.
    ///
    /// ```
    /// use kalyubos::{Board, Config, Device, Slot, Window};
    ///
    /// let board = Board::create(&Config::new(&[Slot::hosted(0, 0x1000, 1).with_device(Device::Entropy)]))?;
    /// let lines = board.lines(0)?;
    /// for window in [Window::Block, Window::Console, Window::Device(0)] {
    ///     assert!(!lines.is_high(window));
    /// }
    /// # Ok::<(), Box<dyn std::error::Error>>(())
    /// ```
    pub fn lines(&self, slot: u8) -> Result<Lines, Error> {
        let mut bits = 0;
        Error::check(unsafe { ffi::kalyubos_lines(self.handle(), slot, &mut bits) })?;
        Ok(Lines { bits })
    }
}
