//! Virtqueues: chains, places, used entries and event suppression of split and of packed rings.
use crate::device::{Device, Used};
use crate::memory::Memory;
use crate::window::{EVENT_IDX, INDIRECT_DESC, RING_PACKED};

/// The largest size of a queue, and the most buffers of a chain.
pub const MOST: u32 = 256;
const MOST_TABLE: u32 = 4096;

/// Flags of a descriptor.
const NEXT: u16 = 1;
const WRITE: u16 = 2;
const INDIRECT: u16 = 4;
const AVAIL: u16 = 0x80;
const USED: u16 = 0x8000;

/// What a driver does wrong in a ring.
pub enum Fault {
    Jump,
    Index,
    Loop,
    TooMany,
    Table,
    Nested,
    Joined,
    NoIndirect,
    Range,
    TooLong,
}

struct Descriptor {
    addr: u64,
    len: u32,
    flags: u16,
    /// The next of a split descriptor, or the id of a packed one.
    link: u16,
}

impl Descriptor {
    #[inline]
    fn split(memory: &Memory, at: usize) -> Descriptor {
        let bits = u128::from_le_bytes(memory.get(at));
        Descriptor { addr: bits as u64, len: (bits >> 64) as u32, flags: (bits >> 96) as u16, link: (bits >> 112) as u16 }
    }

    #[inline]
    fn packed(memory: &Memory, at: usize) -> Descriptor {
        let Descriptor { addr, len, flags: link, link: flags } = Descriptor::split(memory, at);
        Descriptor { addr, len, flags, link }
    }

    fn is(&self, flag: u16) -> bool {
        self.flags & flag != 0
    }
}

#[derive(Clone, Copy)]
struct Part {
    at: usize,
    len: usize,
}

/// The bytes of a chain that the device reads, or those that it writes. No part is empty.
#[derive(Default)]
pub struct Buffers {
    parts: Vec<Part>,
    pub len: usize,
}

impl Buffers {
    fn clear(&mut self) {
        self.parts.clear();
        self.len = 0;
    }

    #[inline]
    fn push(&mut self, at: usize, len: usize) {
        if len > 0 {
            self.parts.push(Part { at, len });
            self.len += len;
        }
    }

    /// Where the last byte stands, and how many come before it.
    pub fn last(&self) -> Option<(usize, usize)> {
        self.parts.last().map(|part| (part.at + part.len - 1, self.len - 1))
    }

    pub fn parts<'a>(&'a self, memory: &'a Memory) -> impl Iterator<Item = &'a [u8]> {
        self.parts.iter().map(|part| memory.part(part.at, part.len))
    }

    /// The first bytes.
    #[inline]
    pub fn front<const N: usize>(&self, memory: &Memory) -> [u8; N] {
        match self.parts.first() {
            Some(part) if part.len >= N => memory.get(part.at),
            _ => {
                let mut bytes = [0; N];
                self.read(0, &mut bytes, memory);
                bytes
            }
        }
    }

    /// Reads the bytes from a place on.
    pub fn read(&self, mut place: usize, mut bytes: &mut [u8], memory: &Memory) {
        for part in &self.parts {
            if part.len <= place {
                place -= part.len;
                continue;
            }
            let (front, rest) = bytes.split_at_mut(bytes.len().min(part.len - place));
            front.copy_from_slice(memory.part(part.at + place, front.len()));
            (bytes, place) = (rest, 0);
        }
    }

    /// Writes over the first bytes.
    pub fn write(&self, mut bytes: &[u8], memory: &mut Memory) {
        for part in &self.parts {
            let (front, rest) = bytes.split_at(bytes.len().min(part.len));
            memory.part_mut(part.at, front.len()).copy_from_slice(front);
            bytes = rest;
        }
    }
}

/// A chain as it was resolved.
#[derive(Default)]
pub struct Chain {
    pub readable: Buffers,
    pub writable: Buffers,
    buffers: u32,
    /// The head in a split ring, the buffer id in a packed one.
    id: u16,
    /// How many descriptors of a packed ring it takes.
    members: u32,
}

impl Chain {
    fn clear(&mut self) {
        self.readable.clear();
        self.writable.clear();
        (self.buffers, self.members) = (0, 0);
    }

    #[inline]
    fn append(&mut self, descriptor: &Descriptor, memory: &Memory) -> Result<(), Fault> {
        let len = descriptor.len as usize;
        let at = memory.place(descriptor.addr, len as u64).ok_or(Fault::Range)?;
        if self.buffers == MOST {
            return Err(Fault::TooMany);
        }
        if self.readable.len + self.writable.len + len > u32::MAX as usize {
            return Err(Fault::TooLong);
        }
        self.buffers += 1;
        let buffers = if descriptor.is(WRITE) { &mut self.writable } else { &mut self.readable };
        buffers.push(at, len);
        Ok(())
    }
}

/// What a service needs of a ring.
trait Ring {
    fn open(&mut self, memory: &Memory) -> Result<(), Fault>;
    /// Resolves the next chain, if one is on offer.
    fn take(&mut self, chain: &mut Chain, memory: &Memory) -> Result<bool, Fault>;
    fn give(&mut self, chain: &Chain, used: Used, memory: &mut Memory);
    /// Does the closing writes, and says whether a notification is wanted.
    fn close(&mut self, memory: &mut Memory) -> bool;
}

/// What came of a service.
pub struct Served {
    pub notify: bool,
    pub is_faulty: bool,
}

fn serve(ring: &mut impl Ring, device: &mut impl Device, chain: &mut Chain, memory: &mut Memory) -> Served {
    let is_faulty = serve_chains(ring, device, chain, memory).is_err();
    Served { notify: ring.close(memory), is_faulty }
}

fn serve_chains(ring: &mut impl Ring, device: &mut impl Device, chain: &mut Chain, memory: &mut Memory) -> Result<(), Fault> {
    ring.open(memory)?;
    while device.wants() && ring.take(chain, memory)? {
        let used = device.serve(chain, memory);
        ring.give(chain, used, memory);
    }
    Ok(())
}

/// A ready queue: its size, where its areas stand, and which features it serves.
struct Layout {
    size: u32,
    descriptors: usize,
    driver: usize,
    device: usize,
    has_indirect: bool,
    has_event_idx: bool,
}

impl Layout {
    /// Where the table that a descriptor names stands, and its number of entries.
    fn table(&self, descriptor: &Descriptor, is_joined: bool, memory: &Memory) -> Result<(usize, u32), Fault> {
        if !self.has_indirect {
            return Err(Fault::NoIndirect);
        }
        if is_joined || descriptor.is(NEXT) {
            return Err(Fault::Joined);
        }
        if descriptor.len == 0 || descriptor.len % 16 != 0 || descriptor.len > MOST_TABLE {
            return Err(Fault::Table);
        }
        let at = memory.place(descriptor.addr, descriptor.len.into()).ok_or(Fault::Range)?;
        Ok((at, descriptor.len / 16))
    }
}

struct Split {
    layout: Layout,
    place: u16,
    /// The place at which the service began, and how many chains are left of it.
    begin: u16,
    left: u16,
}

impl Split {
    /// Where the entry of the place stands in a ring of such entries.
    fn entry(&self, size: usize) -> usize {
        4 + size * (u32::from(self.place) & (self.layout.size - 1)) as usize
    }

    /// Walks a table of descriptors from one of them on.
    fn walk(&self, table: (usize, u32), first: u16, in_table: bool, chain: &mut Chain, memory: &Memory) -> Result<(), Fault> {
        let (at, count) = table;
        let mut index = u32::from(first);
        for members in 1.. {
            if index >= count {
                return Err(Fault::Index);
            }
            let descriptor = Descriptor::split(memory, at + 16 * index as usize);
            if descriptor.is(INDIRECT) {
                if in_table {
                    return Err(Fault::Nested);
                }
                let table = self.layout.table(&descriptor, false, memory)?;
                return self.walk(table, 0, true, chain, memory);
            }
            chain.append(&descriptor, memory)?;
            if !descriptor.is(NEXT) {
                break;
            }
            if members == count {
                return Err(Fault::Loop);
            }
            index = descriptor.link.into();
        }
        Ok(())
    }
}

impl Ring for Split {
    fn open(&mut self, memory: &Memory) -> Result<(), Fault> {
        let offered = memory.short(self.layout.driver + 2).wrapping_sub(self.place);
        (self.begin, self.left) = (self.place, 0);
        if u32::from(offered) > self.layout.size {
            return Err(Fault::Jump);
        }
        self.left = offered;
        Ok(())
    }

    fn take(&mut self, chain: &mut Chain, memory: &Memory) -> Result<bool, Fault> {
        if self.left == 0 {
            return Ok(false);
        }
        chain.clear();
        chain.id = memory.short(self.layout.driver + self.entry(2));
        self.walk((self.layout.descriptors, self.layout.size), chain.id, false, chain, memory)?;
        Ok(true)
    }

    fn give(&mut self, chain: &Chain, used: Used, memory: &mut Memory) {
        let entry = u64::from(used.len) << 32 | u64::from(chain.id);
        memory.put(self.layout.device + self.entry(8), entry.to_le_bytes());
        self.place = self.place.wrapping_add(1);
        self.left -= 1;
        memory.put(self.layout.device + 2, self.place.to_le_bytes());
    }

    fn close(&mut self, memory: &mut Memory) -> bool {
        let Layout { size, driver, device, has_event_idx, .. } = self.layout;
        let size = size as usize;
        memory.put(device, [0; 2]);
        let passed = self.place.wrapping_sub(self.begin);
        if has_event_idx {
            memory.put(device + 4 + 8 * size, self.place.to_le_bytes());
            let used_event = memory.short(driver + 4 + 2 * size);
            return used_event.wrapping_sub(self.begin) < passed;
        }
        passed > 0 && memory.short(driver) & 1 == 0
    }
}

struct Packed {
    layout: Layout,
    /// A number modulo twice the size.
    place: u32,
    /// The place at which the service began, and how many places it passed.
    begin: u32,
    passed: u32,
}

impl Packed {
    /// Where the descriptor so far behind the place stands.
    fn descriptor(&self, behind: u32) -> usize {
        let position = self.place + behind;
        let laps = position / self.layout.size;
        self.layout.descriptors + 16 * (position - laps * self.layout.size) as usize
    }

    fn wrap(&self) -> bool {
        self.place < self.layout.size
    }

    fn list(&self, chain: &mut Chain, memory: &Memory) -> Result<(), Fault> {
        loop {
            let descriptor = Descriptor::packed(memory, self.descriptor(chain.members));
            chain.members += 1;
            chain.id = descriptor.link;
            if descriptor.is(INDIRECT) {
                let (table, count) = self.layout.table(&descriptor, chain.members > 1, memory)?;
                let mut entries = (0..count as usize).map(|entry| Descriptor::packed(memory, table + 16 * entry));
                return entries.try_for_each(|entry| chain.append(&entry, memory));
            }
            chain.append(&descriptor, memory)?;
            if !descriptor.is(NEXT) {
                return Ok(());
            }
            if chain.members == self.layout.size {
                return Err(Fault::Loop);
            }
        }
    }
}

impl Ring for Packed {
    fn open(&mut self, _: &Memory) -> Result<(), Fault> {
        (self.begin, self.passed) = (self.place, 0);
        Ok(())
    }

    fn take(&mut self, chain: &mut Chain, memory: &Memory) -> Result<bool, Fault> {
        let offered = if self.wrap() { AVAIL } else { USED };
        let flags = memory.short(self.descriptor(0) + 14);
        if self.passed >= self.layout.size || flags & (AVAIL | USED) != offered {
            return Ok(false);
        }
        chain.clear();
        self.list(chain, memory)?;
        Ok(true)
    }

    fn give(&mut self, chain: &Chain, used: Used, memory: &mut Memory) {
        let flags = if self.wrap() { AVAIL | USED } else { 0 } | if used.wrote { WRITE } else { 0 };
        let entry = u64::from(flags) << 48 | u64::from(chain.id) << 32 | u64::from(used.len);
        memory.put(self.descriptor(0) + 8, entry.to_le_bytes());
        self.place = (self.place + chain.members) % (2 * self.layout.size);
        self.passed += chain.members;
    }

    fn close(&mut self, memory: &mut Memory) -> bool {
        let Layout { size, driver, device, has_event_idx, .. } = self.layout;
        memory.put(device, [0; 4]);
        let (named, flags) = (memory.short(driver), memory.short(driver + 2) & 3);
        match flags {
            _ if self.passed == 0 => false,
            1 => false,
            2 if has_event_idx => {
                let offset = u32::from(named & 0x7fff);
                let place = if named >> 15 == 1 { offset } else { size + offset };
                offset < size && (place + 2 * size - self.begin) % (2 * size) < self.passed
            }
            _ => true,
        }
    }
}

enum Kind {
    Split(Split),
    Packed(Packed),
}

/// A queue: what the driver wrote, and its ring while it is ready.
#[derive(Default)]
pub struct Queue {
    number: u32,
    areas: [u64; 3],
    ring: Option<Kind>,
}

impl Queue {
    pub fn is_ready(&self) -> bool {
        self.ring.is_some()
    }

    pub fn set_number(&mut self, number: u32) {
        if !self.is_ready() {
            self.number = number;
        }
    }

    /// Sets the low or the high half of an area's address.
    pub fn set_area(&mut self, area: usize, is_high: bool, half: u32) {
        if !self.is_ready() {
            let shift = if is_high { 32 } else { 0 };
            self.areas[area] = self.areas[area] & !(0xffff_ffff << shift) | u64::from(half) << shift;
        }
    }

    pub fn stop(&mut self) {
        self.ring = None;
    }

    /// Makes the queue ready with these features, if it can be.
    pub fn start(&mut self, features: u64, memory: &Memory) {
        let is_packed = features & RING_PACKED != 0;
        let size = u64::from(self.number);
        if self.is_ready() || !(1..=MOST).contains(&self.number) || !is_packed && !size.is_power_of_two() {
            return;
        }
        let driver = if is_packed { (4, 4) } else { (6 + 2 * size, 2) };
        let device = if is_packed { (4, 4) } else { (6 + 8 * size, 4) };
        let place = |area: usize, (len, alignment): (u64, u64)| {
            memory.place(self.areas[area], len).filter(|_| self.areas[area] % alignment == 0)
        };
        let (Some(descriptors), Some(driver), Some(device)) = (place(0, (16 * size, 16)), place(1, driver), place(2, device))
        else {
            return;
        };
        let (has_indirect, has_event_idx) = (features & INDIRECT_DESC != 0, features & EVENT_IDX != 0);
        let layout = Layout { size: self.number, descriptors, driver, device, has_indirect, has_event_idx };
        self.ring = Some(if is_packed {
            Kind::Packed(Packed { layout, place: 0, begin: 0, passed: 0 })
        } else {
            Kind::Split(Split { layout, place: 0, begin: 0, left: 0 })
        });
    }

    /// Has a device serve the chains on offer, if the queue is ready.
    pub fn serve(&mut self, device: &mut impl Device, chain: &mut Chain, memory: &mut Memory) -> Option<Served> {
        match self.ring.as_mut()? {
            Kind::Split(ring) => Some(serve(ring, device, chain, memory)),
            Kind::Packed(ring) => Some(serve(ring, device, chain, memory)),
        }
    }
}
