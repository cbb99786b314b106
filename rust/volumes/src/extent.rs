//! The sectors that a command copies.

use std::fmt;

use ondristela::{MAX_COUNT, SECTOR_SIZE};

use crate::thousands::thousands;

/// A number of a volume's sectors, from a first one on.
#[derive(Clone, Copy)]
pub struct Extent {
    pub first: u64,
    pub count: u64,
}

impl Extent {
    /// The sector past the last. A sum past 2^64-1 stays there, past every volume's end.
    pub fn end(self) -> u64 {
        self.first.saturating_add(self.count)
    }

    /// The least extent around it whose first sector and count are multiples of a number, as far as numbers go.
    pub fn widened(self, multiple: u64) -> Extent {
        let first = self.first - self.first % multiple;
        let behind = (multiple - self.end() % multiple) % multiple;
        Extent { first, count: self.end().saturating_add(behind) - first }
    }

    /// The same sectors in parts that one call takes each. Where the extent is of whole sectors of the disk, each part
    /// is: the most that a call takes, 128 sectors, are whole ones of any disk.
    pub fn calls(self) -> impl Iterator<Item = Extent> {
        (self.first..self.end())
            .step_by(MAX_COUNT as usize)
            .map(move |first| Extent { first, count: MAX_COUNT.min(self.end() - first) })
    }

    /// The sectors' bytes.
    pub fn size(self) -> u64 {
        self.count.saturating_mul(SECTOR_SIZE as u64)
    }

    /// A buffer for the sectors of one call.
    pub fn buffer(self) -> Vec<u8> {
        vec![0; self.size() as usize]
    }
}

impl fmt::Display for Extent {
    fn fmt(&self, formatter: &mut fmt::Formatter<'_>) -> fmt::Result {
        write!(formatter, "sector {}, count {}", thousands(self.first), thousands(self.count))
    }
}

#[cfg(test)]
mod tests {
    use super::Extent;

    #[test]
    fn whole_ones_are_called_for() {
        let calls = Extent { first: 16, count: 304 }.calls();
        let numbers: Vec<_> = calls.map(|call| (call.first, call.count)).collect();
        assert_eq!(numbers, [(16, 128), (144, 128), (272, 48)]);
    }

    #[test]
    fn an_extent_is_widened_to_whole_ones() {
        let extents = [
            (0, 0, 8, (0, 0)),
            (8, 16, 8, (8, 16)),
            (3, 0, 8, (0, 8)),
            (3, 10, 8, (0, 16)),
            (7, 2, 4, (4, 8)),
            (15, 1, 2, (14, 2)),
            (5, 9, 1, (5, 9)),
            (u64::MAX - 1, 1, 8, (u64::MAX - 7, 7)),
        ];
        for (first, count, multiple, widened) in extents {
            let extent = Extent { first, count }.widened(multiple);
            assert_eq!((extent.first, extent.count), widened, "{count} from {first} on");
        }
    }
}
