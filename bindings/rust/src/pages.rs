//! Which pages of a guest's memory its devices write to.

use crate::board::Board;
use crate::error::Error;
use crate::ffi;

impl Board {
    /// Has it kept from now on which pages of a slot's memory its devices write to, for a host that moves the guest:
    /// KVM's dirty log doesn't see what the library writes. [`pages`](Board::pages) lends their bits: bit `k % 8` of
    /// byte `k / 8` stands for the page of 4096 bytes that begins `4096 * k` bytes behind the base of the first region.
    /// All begin clear. The pages go on through gaps: there is one for each 4096 addresses from the base of the first region to
    /// the end of the last, or it is [`Error::TooFewPages`], and what was kept is kept. Of 0 pages none are.
    ///
    /// A page whose bit stays clear is as it was, but for what the host wrote itself: by
    /// [`write_memory`](Board::write_memory), in place, by an operation of a disk that it serves, or by DMA.
    ///
    /// ```
    /// # use kalyubos::{Board, Config, Slot};
    /// let mut board = Board::create(&Config::new(&[Slot::hosted(0, 0x1_0000, 1)]))?;
    /// board.keep_pages(0, 16)?;
    /// // ... the guest runs on, and between two of its calls:
    /// assert_eq!(board.pages(0), [0, 0]);
    /// board.pages(0).fill(0);
    /// # Ok::<(), Box<dyn std::error::Error>>(())
    /// ```
    pub fn keep_pages(&mut self, slot: u8, pages: usize) -> Result<(), Error> {
        let mut bits = vec![0; pages.div_ceil(8)];
        let loan = ffi::Loan {
            bytes: bits.as_mut_ptr(),
            len: bits.len(),
        };
        // SAFETY: the bits stay in the board until the drop, or until the library has others.
        Error::check(unsafe { ffi::kalyubos_keep_pages(self.handle_mut(), slot, loan) })?;
        self.kept.insert(slot, bits);
        Ok(())
    }

    /// The bits of a slot's pages in place, to read and to clear: no call clears one. There are none where
    /// [`keep_pages`](Board::keep_pages) has none kept.
    pub fn pages(&mut self, slot: u8) -> &mut [u8] {
        self.kept.get_mut(&slot).map_or(&mut [], Vec::as_mut_slice)
    }
}
