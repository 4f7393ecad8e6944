//! A guest, as a board is made of them.

use crate::device::Device;
use crate::error::CreateError;
use crate::ffi;
use crate::identity::Identity;
use std::mem;
use std::ops::Range;

/// `len` bytes of a guest's memory, from address `base` on.
#[derive(Clone, Copy, Debug, Default, PartialEq, Eq, Hash)]
#[repr(C)]
pub struct Region {
    /// The first address.
    pub base: u64,
    /// How many bytes there are.
    pub len: u64,
}

/// One guest: its memory, its disk, its console and its further devices.
#[derive(Clone, Debug, PartialEq, Eq)]
#[must_use = "a slot is there once a board is made of it"]
pub struct Slot {
    regions: Vec<Region>,
    sectors: Range<u64>,
    spare: u64,
    cols: u16,
    rows: u16,
    outlet: u32,
    read_only: bool,
    hosted: bool,
    depth: u32,
    identity: Identity,
    devices: Vec<Device>,
}

impl Slot {
    /// A guest with one region of memory, of `len` bytes from `base` on, whose disk shows some sectors of the image:
    /// one that may be written and whose identity is 20 NULs, with a console of 80 by 25 and an outlet of 32 KiB.
    ///
    /// ```
    /// use kalyubos::Slot;
    ///
    /// let guest = Slot::new(0x8000_0000, 0x1_0000, 0..8).with_console(132, 43).with_read_only(true);
    /// assert_eq!(guest.console(), (132, 43));
    /// ```
    pub fn new(base: u64, len: u64, sectors: Range<u64>) -> Slot {
        Slot {
            regions: vec![Region { base, len }],
            sectors,
            spare: 0,
            cols: 80,
            rows: 25,
            outlet: 0x8000,
            read_only: false,
            hosted: false,
            depth: 1,
            identity: Identity::default(),
            devices: Vec::new(),
        }
    }

    /// A guest as [`new`](Slot::new) has it whose disk the host serves: one of so many sectors. The board says what it
    /// wants of the disk ([`Board::in_flight`](crate::Board::in_flight)), the host does it as it likes and says that it
    /// is done ([`Board::complete`](crate::Board::complete)), and meanwhile the guest runs on. One operation at a time is
    /// in flight, unless [`with_depth`](Slot::with_depth) allows more.
    pub fn hosted(base: u64, len: u64, sectors: u64) -> Slot {
        Slot {
            hosted: true,
            ..Slot::new(base, len, 0..sectors)
        }
    }

    /// One more region of memory, behind those that it has and a gap; eight at most. An x86 guest of 6 GiB:
    ///
    /// ```
    /// use kalyubos::{Region, Slot};
    ///
    /// const GIB: u64 = 1 << 30;
    /// let guest = Slot::new(0, 3 * GIB, 0..8).with_region(4 * GIB, 3 * GIB);
    /// assert_eq!(guest.regions()[1], Region { base: 4 * GIB, len: 3 * GIB });
    /// ```
    pub fn with_region(mut self, base: u64, len: u64) -> Slot {
        self.regions.push(Region { base, len });
        self
    }

    /// The size of its console.
    pub fn with_console(mut self, cols: u16, rows: u16) -> Slot {
        (self.cols, self.rows) = (cols, rows);
        self
    }

    /// How many bytes of its console's output may wait to be taken. A chain that is longer is never put out, so give it
    /// the longest that the guest's driver sends. Linux's console sends up to 32 KiB at once.
    pub fn with_outlet(mut self, bytes: u32) -> Slot {
        self.outlet = bytes;
        self
    }

    /// Whether its disk refuses writes.
    pub fn with_read_only(mut self, refuses: bool) -> Slot {
        self.read_only = refuses;
        self
    }

    /// How many sectors of the image behind those of its disk are its too, for further disks
    /// ([`Device::ImageDisk`](crate::Device::ImageDisk)). Where the host serves its disk there are none.
    ///
    /// ```
    /// use kalyubos::{Board, Config, Device, Identity, Slot, Window};
    ///
    /// let log = Device::ImageDisk { start: 0, sectors: 2, read_only: false, identity: Identity::default() };
    /// let guest = Slot::new(0x8000_0000, 0x1_0000, 0..8).with_spare(2).with_device(log);
    /// let board = Board::create(&Config::new(&[guest]).with_image(&[0; 10 * 512]))?;
    /// assert_eq!(board.read(0, Window::Device(0), 0x100, 4)?, 2); // its capacity
    /// # Ok::<(), Box<dyn std::error::Error>>(())
    /// ```
    pub fn with_spare(mut self, sectors: u64) -> Slot {
        self.spare = sectors;
        self
    }

    /// How many operations of its disk may be in flight where the host serves it, 1 to 64; 0 is 1. Of a disk of the image it
    /// says nothing.
    pub fn with_depth(mut self, operations: u32) -> Slot {
        self.depth = operations;
        self
    }

    /// What its disk answers to GET_ID.
    pub fn with_identity(mut self, identity: Identity) -> Slot {
        self.identity = identity;
        self
    }

    /// One more further device, behind those that it has; six at most. Its number is how many there were, from 0 on.
    ///
    /// ```
    /// use kalyubos::{Board, Config, Device, Slot, Window};
    ///
    /// let card = Device::Network { mac: [2, 0, 0, 0, 0, 1], mtu: 1500 };
    /// let guest = Slot::hosted(0x8000_0000, 0x1_0000, 8).with_device(Device::Entropy).with_device(card);
    /// let board = Board::create(&Config::new(&[guest]))?;
    /// assert_eq!(board.read(0, Window::Device(1), 0x008, 4)?, 1); // DeviceID
    /// # Ok::<(), Box<dyn std::error::Error>>(())
    /// ```
    pub fn with_device(mut self, device: Device) -> Slot {
        self.devices.push(device);
        self
    }

    /// The regions of its memory.
    #[must_use]
    pub fn regions(&self) -> &[Region] {
        &self.regions
    }

    /// The sectors of the image that its disk shows, or all of a disk that the host serves.
    #[must_use]
    pub fn sectors(&self) -> Range<u64> {
        self.sectors.clone()
    }

    /// How many sectors of the image behind them are its too.
    #[must_use]
    pub fn spare(&self) -> u64 {
        self.spare
    }

    /// Whether the host serves its disk.
    #[must_use]
    pub fn is_hosted(&self) -> bool {
        self.hosted
    }

    /// How many operations of its disk may be in flight.
    #[must_use]
    pub fn depth(&self) -> u32 {
        self.depth
    }

    /// The columns and rows of its console.
    #[must_use]
    pub fn console(&self) -> (u16, u16) {
        (self.cols, self.rows)
    }

    /// How many bytes of its console's output may wait.
    #[must_use]
    pub fn outlet(&self) -> u32 {
        self.outlet
    }

    /// Whether its disk refuses writes.
    #[must_use]
    pub fn is_read_only(&self) -> bool {
        self.read_only
    }

    /// Its further devices.
    #[must_use]
    pub fn devices(&self) -> &[Device] {
        &self.devices
    }

    /// What its disk answers to GET_ID.
    #[must_use]
    pub fn identity(&self) -> Identity {
        self.identity
    }

    /// The slot as C has it. A range that ends before it begins shows no sector. In C a region of no bytes would end the others.
    pub(crate) fn in_c(&self) -> Result<ffi::Slot, CreateError> {
        let mut regions = [Region::default(); ffi::REGIONS];
        let own = regions.get_mut(..self.regions.len());
        own.ok_or(CreateError::TooManyRegions)?
            .copy_from_slice(&self.regions);
        if self.regions.iter().any(|region| region.len == 0) {
            return Err(CreateError::BadMemorySize);
        }
        let mut devices = [ffi::Device::default(); ffi::DEVICES];
        let places = devices.get_mut(..self.devices.len());
        for (place, device) in places
            .ok_or(CreateError::TooManyDevices)?
            .iter_mut()
            .zip(&self.devices)
        {
            *place = device.in_c();
        }
        Ok(ffi::Slot {
            size: mem::size_of::<ffi::Slot>(),
            regions,
            start: self.sectors.start,
            count: self.sectors.end.saturating_sub(self.sectors.start),
            spare: self.spare,
            cols: self.cols,
            rows: self.rows,
            outlet: self.outlet,
            read_only: self.read_only,
            hosted: self.hosted,
            runs: false,
            identity: *self.identity.bytes(),
            depth: self.depth,
            devices,
        })
    }
}
