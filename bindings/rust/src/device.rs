//! A slot's further devices: entropy devices, network cards, disks and consoles.

use crate::board::{Board, Window};
use crate::error::Error;
use crate::ffi::answers::MORE;
use crate::ffi::{self, device_kinds};
use crate::identity::Identity;
use crate::running::RunningGuest;
use crate::tags::Tags;

/// A further device, as a slot is made with it.
#[derive(Clone, Copy, Debug, PartialEq, Eq, Hash)]
#[non_exhaustive]
pub enum Device {
    /// An entropy device, which is supplied with random bytes.
    Entropy,
    /// A network card, whose link is up.
    Network {
        /// Its address.
        mac: [u8; 6],
        /// How many bytes a frame has behind its header of Ethernet at most, 68 or more.
        mtu: u16,
    },
    /// A disk that the host serves.
    Disk {
        /// How many sectors it has: fewer than 2^55.
        sectors: u64,
        /// Whether it refuses writes.
        read_only: bool,
        /// What it answers to GET_ID.
        identity: Identity,
        /// How many operations may be in flight, 1 to 64; 0 is 1.
        depth: u32,
    },
    /// A disk over some of the slot's [spare sectors](crate::Slot::with_spare) of the image.
    ImageDisk {
        /// Which of them is its first, from 0 on.
        start: u64,
        /// How many it has: one at least, and none that another disk has.
        sectors: u64,
        /// Whether it refuses writes.
        read_only: bool,
        /// What it answers to GET_ID.
        identity: Identity,
    },
    /// A console of this size in characters, beside the slot's own.
    Console {
        /// Its columns.
        cols: u16,
        /// Its rows.
        rows: u16,
    },
}

impl Device {
    // The device as C has it, with the standard's number of its kind; a disk over the image has one of its own.
    pub(crate) fn in_c(self) -> ffi::Device {
        match self {
            Device::Entropy => ffi::Device {
                kind: device_kinds::ENTROPY,
                ..ffi::Device::default()
            },
            Device::Network { mac, mtu } => ffi::Device {
                kind: device_kinds::NETWORK,
                mtu,
                mac,
                ..ffi::Device::default()
            },
            Device::Disk {
                sectors,
                read_only,
                identity,
                depth,
            } => ffi::Device {
                kind: device_kinds::DISK,
                depth,
                sectors,
                identity: *identity.bytes(),
                read_only,
                ..ffi::Device::default()
            },
            Device::ImageDisk {
                start,
                sectors,
                read_only,
                identity,
            } => ffi::Device {
                kind: device_kinds::IMAGE_DISK,
                sectors,
                start,
                identity: *identity.bytes(),
                read_only,
                ..ffi::Device::default()
            },
            Device::Console { cols, rows } => ffi::Device {
                kind: device_kinds::CONSOLE_DEVICE,
                cols,
                rows,
                ..ffi::Device::default()
            },
        }
    }
}

/// What waits for a further device's driver and for its host.
#[derive(Clone, Copy, Debug, Default, PartialEq, Eq, Hash)]
#[must_use = "the device's line moves by it"]
pub struct DevicePending {
    /// InterruptStatus of its window. The window's line is high while this isn't 0.
    pub interrupt: u32,
    /// Whether its driver waits for the host: a chain is on offer for bytes, a frame or input.
    pub starved: bool,
    /// How many bytes [`take_frame`](Board::take_frame) moves out, where anything waits.
    pub frame: Option<usize>,
    /// What is in flight of a disk; of another device nothing is.
    pub tags: Tags,
}

impl DevicePending {
    // What C told.
    fn of(told: &ffi::DevicePending) -> DevicePending {
        DevicePending {
            interrupt: told.interrupt,
            starved: told.starved,
            frame: (told.frame != 0).then_some(told.frame as usize),
            tags: Tags::of(told.tags),
        }
    }
}

/// What became of bytes or of a frame that a device was handed, or its host.
#[derive(Clone, Copy, Debug, Default, PartialEq, Eq, Hash)]
#[must_use = "nothing else tells how much was taken, and that the slot's service pauses"]
pub struct Handed<T> {
    /// How many bytes the device took, the first ones; or whether it took the frame, whole; or how many bytes the host took, if any.
    pub taken: T,
    /// Whether the slot's service pauses that brings them to the driver, or takes more from it: [`Board::go_on`] goes on with it. Of a
    /// guest that runs on, whether a queue of it is due: [`RunningGuest::go_on`] serves it.
    pub more: bool,
}

impl<T> Handed<T> {
    // What a call that answered this number told. A service that pauses is no error.
    fn told(number: u32, taken: T) -> Result<Handed<T>, Error> {
        let more = number == MORE;
        if !more {
            Error::check(number)?;
        }
        Ok(Handed { taken, more })
    }
}

// In C a device is named by its window.
fn window_of(device: u8) -> u8 {
    Window::Device(device).number()
}

/// The calls of a slot's further devices, which are named by their numbers, from 0 on. [`Error::BadDevice`]: the slot has no
/// such device, or it takes no such thing.
impl Board {
    /// What waits for a further device. Move its window's line by it after each [`write`](Board::write) to the window, after
    /// each other call for it, and where one of these pauses after the last [`go_on`](Board::go_on). It may be asked in a pause.
    pub fn device_pending(&self, slot: u8, device: u8) -> Result<DevicePending, Error> {
        let mut told = ffi::DevicePending::default();
        Error::check(unsafe {
            ffi::kalyubos_device_pending(self.handle(), slot, window_of(device), &mut told)
        })?;
        Ok(DevicePending::of(&told))
    }

    /// Supplies an entropy device with random bytes, or types to a console, and tells how many bytes it took, the first ones: it
    /// keeps 4096 until its driver takes them.
    ///
    /// ```
    /// # use kalyubos::{Board, Config, Device, Error, Slot};
    /// let slots = [Slot::hosted(0, 0x1000, 1).with_device(Device::Entropy)];
    /// let mut board = Board::create(&Config::new(&slots))?;
    /// assert_eq!(board.supply(0, 0, &[7; 5000])?.taken, 4096);
    /// assert_eq!(board.supply(0, 1, &[7; 5000]), Err(Error::BadDevice));
    /// # Ok::<(), Box<dyn std::error::Error>>(())
    /// ```
    pub fn supply(&mut self, slot: u8, device: u8, bytes: &[u8]) -> Result<Handed<usize>, Error> {
        let mut taken = 0;
        let number = unsafe {
            ffi::kalyubos_supply(
                self.handle_mut(),
                slot,
                window_of(device),
                bytes.as_ptr(),
                bytes.len(),
                &mut taken,
            )
        };
        Handed::told(number, taken)
    }

    /// Hands a network card a frame, which begins with the addresses of Ethernet and has no check sequence. Tells whether
    /// the card took it, whole: where there is no room it takes nothing, until its driver has taken others. It keeps 64
    /// frames, of 65536 bytes together. [`Error::BadDevice`] also of a frame without bytes, or of more than the card's MTU
    /// and 14.
    pub fn receive(&mut self, slot: u8, device: u8, frame: &[u8]) -> Result<Handed<bool>, Error> {
        let mut taken = false;
        let number = unsafe {
            ffi::kalyubos_receive(
                self.handle_mut(),
                slot,
                window_of(device),
                frame.as_ptr(),
                frame.len(),
                &mut taken,
            )
        };
        Handed::told(number, taken)
    }

    /// Moves out the oldest frame that a network card's driver sent, whole, to the front of a buffer, and tells how many bytes
    /// it has, where one waits. [`Error::ShortBuffer`]: it doesn't fit, and waits on; [`device_pending`](Board::device_pending)
    /// tells its length. None has more than 65536 bytes, or more than the MTU and 14 where the driver keeps to the MTU.
    ///
    /// Take frames after each [`write`](Board::write) to the window, until there is none: the card keeps as many as the other
    /// way, and the driver's next frame waits until the last one that is kept is taken: where its service pauses, that one was moved out
    /// already.
    ///
    /// From a console it moves out all output that waits, in place of a frame: a buffer of 65536 bytes takes all that there may be.
    /// Call it once after each write to the window. What finds no room waits with its driver for such a call, but the byte of an
    /// emergency write is lost then.
    ///
    /// ```
    /// # use kalyubos::{Board, Config, Device, Slot};
    /// let card = Device::Network { mac: [2, 0, 0, 0, 0, 1], mtu: 1500 };
    /// let mut board = Board::create(&Config::new(&[Slot::hosted(0, 0x1000, 1).with_device(card)]))?;
    /// assert!(board.receive(0, 0, &[7; 1514])?.taken);
    /// let mut frame = vec![0; 65536]; // as much as a driver may send, whatever the MTU
    /// assert_eq!(board.take_frame(0, 0, &mut frame)?.taken, None);
    /// # Ok::<(), Box<dyn std::error::Error>>(())
    /// ```
    pub fn take_frame(
        &mut self,
        slot: u8,
        device: u8,
        into: &mut [u8],
    ) -> Result<Handed<Option<usize>>, Error> {
        let mut len = 0;
        let number = unsafe {
            ffi::kalyubos_take_frame(
                self.handle_mut(),
                slot,
                window_of(device),
                into.as_mut_ptr(),
                into.len(),
                &mut len,
            )
        };
        Handed::told(number, (len != 0).then_some(len))
    }

    /// Sets whether a network card's link is up, and tells its driver.
    pub fn set_link(&mut self, slot: u8, device: u8, up: bool) -> Result<(), Error> {
        Error::check(unsafe {
            ffi::kalyubos_set_link(self.handle_mut(), slot, window_of(device), up)
        })
    }

    /// Gives a further console another size, and tells its driver.
    pub fn resize_device(
        &mut self,
        slot: u8,
        device: u8,
        cols: u16,
        rows: u16,
    ) -> Result<(), Error> {
        Error::check(unsafe {
            ffi::kalyubos_resize_device(self.handle_mut(), slot, window_of(device), cols, rows)
        })
    }
}

/// The calls of a guest's further devices, each that of a [`Board`] of the same name, without a slot. [`Error::BadDevice`]: the guest has
/// no such device, or it takes no such thing.
///
/// ```
/// # use kalyubos::{CreateError, Device, Error, GuestConfig, RunningGuest, Slot};
/// let card = Device::Network { mac: [2, 0, 0, 0, 0, 1], mtu: 1500 };
/// let slot = Slot::hosted(0, 0x1000, 1).with_device(Device::Entropy).with_device(card);
/// let mut guest = RunningGuest::create(&GuestConfig::new(&slot))?;
/// assert_eq!(guest.supply(0, &[7; 5000])?.taken, 4096);
/// assert!(guest.receive(1, &[7; 1514])?.taken);
/// assert_eq!(guest.take_frame(1, &mut [0; 65536])?.taken, None);
/// assert_eq!(guest.supply(2, &[7; 5000]), Err(Error::BadDevice));
///
/// let disk = Device::Disk { sectors: 8, read_only: false, identity: Default::default(), depth: 1 };
/// let refused = RunningGuest::create(&GuestConfig::new(&Slot::hosted(0, 0x1000, 1).with_device(disk)));
/// assert_eq!(refused.unwrap_err(), CreateError::BadDevice);
/// # Ok::<(), Box<dyn std::error::Error>>(())
/// ```
impl RunningGuest {
    /// What waits for a further device. Move its window's line by it after each [`write`](RunningGuest::write) to the window, after each
    /// other call for it, and after each [`go_on`](RunningGuest::go_on). It never tells [`starved`](DevicePending::starved): supply bytes
    /// until fewer are taken, and again after the guest's next write to the window.
    pub fn device_pending(&self, device: u8) -> Result<DevicePending, Error> {
        let mut told = ffi::DevicePending::default();
        Error::check(unsafe {
            ffi::kalyubos_guest_device_pending(self.handle(), window_of(device), &mut told)
        })?;
        Ok(DevicePending::of(&told))
    }

    /// Supplies an entropy device with random bytes, or types to a console, as [`Board::supply`].
    pub fn supply(&mut self, device: u8, bytes: &[u8]) -> Result<Handed<usize>, Error> {
        let mut taken = 0;
        let number = unsafe {
            ffi::kalyubos_guest_supply(
                self.handle_mut(),
                window_of(device),
                bytes.as_ptr(),
                bytes.len(),
                &mut taken,
            )
        };
        Handed::told(number, taken)
    }

    /// Hands a network card a frame, as [`Board::receive`].
    pub fn receive(&mut self, device: u8, frame: &[u8]) -> Result<Handed<bool>, Error> {
        let mut taken = false;
        let number = unsafe {
            ffi::kalyubos_guest_receive(
                self.handle_mut(),
                window_of(device),
                frame.as_ptr(),
                frame.len(),
                &mut taken,
            )
        };
        Handed::told(number, taken)
    }

    /// Moves out the oldest frame that a network card's driver sent, or all output of a console, as [`Board::take_frame`].
    pub fn take_frame(
        &mut self,
        device: u8,
        into: &mut [u8],
    ) -> Result<Handed<Option<usize>>, Error> {
        let mut len = 0;
        let number = unsafe {
            ffi::kalyubos_guest_take_frame(
                self.handle_mut(),
                window_of(device),
                into.as_mut_ptr(),
                into.len(),
                &mut len,
            )
        };
        Handed::told(number, (len != 0).then_some(len))
    }

    /// Sets whether a network card's link is up, and tells its driver.
    pub fn set_link(&mut self, device: u8, up: bool) -> Result<(), Error> {
        Error::check(unsafe {
            ffi::kalyubos_guest_set_link(self.handle_mut(), window_of(device), up)
        })
    }

    /// Gives a further console another size, and tells its driver.
    pub fn resize_device(&mut self, device: u8, cols: u16, rows: u16) -> Result<(), Error> {
        Error::check(unsafe {
            ffi::kalyubos_guest_resize_device(self.handle_mut(), window_of(device), cols, rows)
        })
    }
}
