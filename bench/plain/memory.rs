//! A guest's memory.

pub struct Memory {
    base: u64,
    bytes: Vec<u8>,
}

impl Memory {
    pub fn new(base: u64, len: usize) -> Memory {
        Memory { base, bytes: vec![0; len] }
    }

    /// Where a range stands among the bytes, if it is inside the memory.
    #[inline]
    pub fn place(&self, addr: u64, len: u64) -> Option<usize> {
        let at = addr.checked_sub(self.base)?;
        let left = (self.bytes.len() as u64).checked_sub(at)?;
        (len <= left).then_some(at as usize)
    }

    #[inline]
    pub fn part(&self, at: usize, len: usize) -> &[u8] {
        &self.bytes[at..][..len]
    }

    #[inline]
    pub fn part_mut(&mut self, at: usize, len: usize) -> &mut [u8] {
        &mut self.bytes[at..][..len]
    }

    #[inline]
    pub fn get<const N: usize>(&self, at: usize) -> [u8; N] {
        *self.bytes[at..].first_chunk().expect("N bytes inside the memory")
    }

    #[inline]
    pub fn put<const N: usize>(&mut self, at: usize, bytes: [u8; N]) {
        *self.bytes[at..].first_chunk_mut().expect("N bytes inside the memory") = bytes;
    }

    /// A number of two bytes.
    #[inline]
    pub fn short(&self, at: usize) -> u16 {
        u16::from_le_bytes(self.get(at))
    }
}
