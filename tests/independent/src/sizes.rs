//! kf, F, k and q, their ranges, and the lengths that follow from them.

use crate::layout::{BITS_PER_BLOCK, BLOCK_BYTES, CELLS_PER_BLOCK, CELL_BYTES, PAYLOAD_BYTES};
use crate::refusal::Refusal;

#[derive(Clone, Copy, PartialEq, Eq, Debug)]
pub struct Sizes {
    pub kf: u8,
    pub f: u8,
    pub k: u8,
    pub q: u8,
}

impl Sizes {
    pub const SMALLEST: Sizes = Sizes { kf: 1, f: 1, k: 2, q: 1 };
    pub const LARGEST: Sizes = Sizes { kf: 8, f: 16, k: 4, q: 16 };

    pub fn from_bytes(bytes: &[u8]) -> Self {
        Sizes { kf: bytes[0], f: bytes[1], k: bytes[2], q: bytes[3] }
    }

    pub fn to_bytes(self) -> [u8; 4] {
        [self.kf, self.f, self.k, self.q]
    }

    pub fn check(self) -> Result<(), Refusal> {
        let within = |value, low, high, refusal| {
            if (low..=high).contains(&value) {
                Ok(())
            } else {
                Err(refusal)
            }
        };
        within(self.kf, 1, 8, Refusal::Kf)?;
        within(self.f, 1, 16, Refusal::F)?;
        within(self.k, 2, 4, Refusal::K)?;
        within(self.q, 1, 16, Refusal::Q)
    }

    /// s, the cells of one part.
    pub fn part(self) -> usize {
        CELLS_PER_BLOCK * usize::from(self.q)
    }

    /// N, the cells of the table.
    pub fn cells(self) -> usize {
        usize::from(self.k) * self.part()
    }

    pub fn filter_bits(self) -> usize {
        BITS_PER_BLOCK * usize::from(self.f)
    }

    pub fn filter_bytes(self) -> usize {
        PAYLOAD_BYTES * usize::from(self.f)
    }

    pub fn cells_bytes(self) -> usize {
        CELL_BYTES * self.cells()
    }

    pub fn blocks(self) -> usize {
        usize::from(self.f) + usize::from(self.k) * usize::from(self.q)
    }

    pub fn image_bytes(self) -> usize {
        BLOCK_BYTES * self.blocks()
    }
}
