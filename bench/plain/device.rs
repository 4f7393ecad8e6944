//! What the devices do with a chain: requests of a disk, input and output of a console.
use crate::memory::Memory;
use crate::queue::Chain;

pub const SECTOR: usize = 512;

/// Types of block requests.
const IN: u32 = 0;
const OUT: u32 = 1;
const FLUSH: u32 = 4;
const GET_ID: u32 = 8;
const WRITE_ZEROES: u32 = 13;

const HEADER: usize = 16;
const SEGMENT: usize = 16;
pub const MOST_SEGMENTS: usize = 32;
pub const MOST_ZEROES: u32 = 65536;
const UNMAP: u32 = 1;

/// How a chain came out.
pub struct Used {
    pub len: u32,
    pub wrote: bool,
}

pub trait Device {
    /// Whether it takes one more chain.
    fn wants(&self) -> bool {
        true
    }

    fn serve(&mut self, chain: &Chain, memory: &mut Memory) -> Used;
}

/// A slot's disk: its sectors of the image.
pub struct Disk {
    pub start: usize,
    pub sectors: u64,
    pub read_only: bool,
    pub identity: [u8; 20],
}

/// The disk at work on the bytes of the image.
pub struct Requests<'a> {
    pub disk: &'a Disk,
    pub image: &'a mut [u8],
}

/// A request that is refused.
enum Refused {
    IoErr = 1,
    Unsupp = 2,
}

impl Device for Requests<'_> {
    fn serve(&mut self, chain: &Chain, memory: &mut Memory) -> Used {
        let Some((status, room)) = chain.writable.last() else {
            return Used { len: 0, wrote: false };
        };
        let (byte, written) = match self.perform(chain, room, memory) {
            Ok(written) => (0, written),
            Err(refused) => (refused as u8, 0),
        };
        memory.put(status, [byte]);
        let len = if written == room { room + 1 } else { written };
        Used { len: len as u32, wrote: true }
    }
}

impl Requests<'_> {
    /// Does a request with so much room before its status, and says how much of it was written from the front on.
    fn perform(&mut self, chain: &Chain, room: usize, memory: &mut Memory) -> Result<usize, Refused> {
        let data = chain.readable.len.checked_sub(HEADER).ok_or(Refused::IoErr)?;
        let header = u128::from_le_bytes(chain.readable.front(memory));
        let (kind, sector) = (header as u32, (header >> 64) as u64);
        match kind {
            OUT | WRITE_ZEROES if self.disk.read_only => Err(Refused::IoErr),
            IN => {
                let sectors = self.sectors(sector, room)?;
                chain.writable.write(&self.image[sectors..][..room], memory);
                Ok(room)
            }
            OUT => {
                let sectors = self.sectors(sector, data)?;
                chain.readable.read(HEADER, &mut self.image[sectors..][..data], memory);
                Ok(0)
            }
            FLUSH => Ok(0),
            GET_ID if room < self.disk.identity.len() => Err(Refused::IoErr),
            GET_ID => {
                chain.writable.write(&self.disk.identity, memory);
                Ok(self.disk.identity.len())
            }
            WRITE_ZEROES => self.write_zeroes(chain, data, memory).map(|()| 0),
            _ => Err(Refused::Unsupp),
        }
    }

    /// Where so many bytes from a sector on stand in the image.
    fn sectors(&self, sector: u64, len: usize) -> Result<usize, Refused> {
        let end = sector.checked_add((len / SECTOR) as u64).filter(|&end| end <= self.disk.sectors);
        if len % SECTOR != 0 || end.is_none() {
            return Err(Refused::IoErr);
        }
        Ok(self.disk.start + SECTOR * sector as usize)
    }

    fn write_zeroes(&mut self, chain: &Chain, len: usize, memory: &Memory) -> Result<(), Refused> {
        if len == 0 || len % SEGMENT != 0 || len > MOST_SEGMENTS * SEGMENT {
            return Err(Refused::IoErr);
        }
        let mut data = [0; MOST_SEGMENTS * SEGMENT];
        chain.readable.read(HEADER, &mut data[..len], memory);
        let (segments, _) = data[..len].as_chunks();
        let segments = segments.iter().map(|&segment| u128::from_le_bytes(segment));
        let segments = segments.map(|segment| (segment as u64, (segment >> 64) as u32, (segment >> 96) as u32));
        if segments.clone().any(|(_, _, flags)| flags & !UNMAP != 0) {
            return Err(Refused::Unsupp);
        }
        let range = |(sector, count, _): (u64, u32, u32)| {
            let len = SECTOR * count as usize;
            let start = self.sectors(sector, len)?;
            if count <= MOST_ZEROES {
                Ok(start..start + len)
            } else {
                Err(Refused::IoErr)
            }
        };
        let ranges = segments.map(range).collect::<Result<Vec<_>, _>>()?;
        ranges.into_iter().for_each(|range| self.image[range].fill(0));
        Ok(())
    }
}

/// A console's receive queue, with what was typed.
pub struct Receive<'a> {
    pub pending: &'a mut Vec<u8>,
}

impl Device for Receive<'_> {
    fn wants(&self) -> bool {
        !self.pending.is_empty()
    }

    fn serve(&mut self, chain: &Chain, memory: &mut Memory) -> Used {
        let len = chain.writable.len.min(self.pending.len());
        chain.writable.write(&self.pending[..len], memory);
        self.pending.drain(..len);
        Used { len: len as u32, wrote: len > 0 }
    }
}

/// A console's transmit queue, with what it puts out.
pub struct Transmit<'a> {
    pub output: &'a mut Vec<u8>,
}

impl Device for Transmit<'_> {
    fn serve(&mut self, chain: &Chain, memory: &mut Memory) -> Used {
        chain.readable.parts(memory).for_each(|part| self.output.extend_from_slice(part));
        Used { len: 0, wrote: false }
    }
}
