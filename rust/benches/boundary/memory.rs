//! Memory that starts at a page, or at a chosen distance from one.

pub const PAGE: usize = 4096;

/// Zeroed anonymous memory, every page of it touched.
pub struct Memory {
    bytes: Vec<u8>,
    start: usize,
    size: usize,
}

impl Memory {
    /// So many bytes, the first of them `distance` past the start of a page.
    pub fn new(size: usize, distance: usize) -> Memory {
        let mut bytes = vec![0; PAGE + distance + size];
        bytes.iter_mut().step_by(PAGE).for_each(|byte| *byte = 1);
        let start = bytes.as_ptr().align_offset(PAGE) + distance;
        Memory { bytes, start, size }
    }

    pub fn bytes(&self) -> &[u8] {
        &self.bytes[self.start..self.start + self.size]
    }

    pub fn bytes_mut(&mut self) -> &mut [u8] {
        &mut self.bytes[self.start..self.start + self.size]
    }
}
