//! What a board is made of.

use crate::board::Budget;
use crate::error::{CreateError, Fault};
use crate::ffi;
use crate::slot::Slot;
use std::mem;
use std::num::{NonZeroU32, NonZeroU64};

/// What a board is made of: its guests, and where some have their disks in an image, the image.
#[derive(Clone, Copy, Debug)]
#[must_use = "a config is there once a board is made of it"]
pub struct Config<'a> {
    slots: &'a [Slot],
    image: &'a [u8],
    cache: u32,
    budget: Budget,
}

impl<'a> Config<'a> {
    /// A board of these guests, without an image, with a cache of one sector, whose calls have no limit.
    ///
    /// ```
    /// use kalyubos::{Board, Config, Slot};
    ///
    /// // One guest's disk is the image, and the host serves the other's.
    /// let guests = [
    ///     Slot::new(0x8000_0000, 0x1_0000, 0..8),
    ///     Slot::hosted(0x8000_0000, 0x1_0000, 1 << 20),
    /// ];
    /// let disk = vec![0; 8 * 512];
    /// let board = Board::create(&Config::new(&guests).with_image(&disk))?;
    /// # Ok::<(), kalyubos::CreateError>(())
    /// ```
    pub fn new(slots: &'a [Slot]) -> Config<'a> {
        Config {
            slots,
            image: &[],
            cache: 1,
            budget: Budget::default(),
        }
    }

    /// An image, of which the board gets a copy.
    pub fn with_image(self, image: &'a [u8]) -> Config<'a> {
        Config { image, ..self }
    }

    /// How many sectors a cache before the image keeps, 1 to 65536. It is judged and changes nothing else, since an
    /// image in memory is read where it lies.
    pub fn with_cache(self, sectors: u32) -> Config<'a> {
        Config {
            cache: sectors,
            ..self
        }
    }

    /// How much one call serves, so that no guest holds the others up for long.
    pub fn with_budget(self, budget: Budget) -> Config<'a> {
        Config { budget, ..self }
    }

    /// Whether [`Board::create`](crate::Board::create) makes a board of it, want of memory aside. No board is made.
    ///
    /// ```
    /// use kalyubos::{Board, Config, CreateError, Slot};
    ///
    /// let guests = [0..8, 8..16, 16..17].map(|sectors| Slot::new(0x8000_0000, 0x1_0000, sectors));
    /// let disk = vec![0; 16 * 512];
    /// let config = Config::new(&guests).with_image(&disk);
    /// assert_eq!(Board::create(&config).unwrap_err(), CreateError::ExtentOutside);
    ///
    /// let fault = config.judge().unwrap_err();
    /// assert_eq!((fault.why, fault.slot), (CreateError::ExtentOutside, Some(2)));
    /// ```
    pub fn judge(&self) -> Result<(), Fault> {
        for (place, slot) in self.slots.iter().enumerate() {
            slot.in_c().map_err(|why| Fault {
                slot: Some(place),
                ..Fault::of(why)
            })?;
        }
        const UNTOLD: usize = usize::MAX;
        let (mut slot, mut region) = (UNTOLD, UNTOLD);
        let number = self
            .with_c(&mut [], |config| unsafe {
                ffi::kalyubos_judge(config, &mut slot, &mut region)
            })
            .map_err(Fault::of)?;
        CreateError::check(number).map_err(|why| Fault {
            slot: (slot != UNTOLD).then_some(slot),
            region: (region != UNTOLD).then_some(region),
            ..Fault::of(why)
        })
    }

    // Calls the library with the config as C has it, over these loans, or over memory of the library's where there are
    // none.
    pub(crate) fn with_c<T>(
        &self,
        loans: &mut [ffi::Loan],
        call: impl FnOnce(&mut ffi::Config) -> T,
    ) -> Result<T, CreateError> {
        check_version()?;
        let slots = self.slots.iter().map(Slot::in_c);
        let slots = slots.collect::<Result<Vec<_>, _>>()?;
        Ok(call(&mut ffi::Config {
            size: mem::size_of::<ffi::Config>(),
            slots: slots.as_ptr(),
            slots_len: slots.len(),
            loans: loans.as_mut_ptr(),
            loans_len: loans.len(),
            image: self.image.as_ptr(),
            image_len: self.image.len(),
            cache: self.cache,
            chains: self.budget.chains.map_or(0, NonZeroU32::get),
            bytes: self.budget.bytes.map_or(0, NonZeroU64::get),
        }))
    }
}

// Whether the library that is linked fits the header.
pub(crate) fn check_version() -> Result<(), CreateError> {
    let version = unsafe { ffi::kalyubos_version() };
    if version / 100 != ffi::VERSION / 100 {
        return Err(CreateError::WrongLibrary(version));
    }
    Ok(())
}
