//! The filter bits and the cells of a flow. The sizes are in range here.

use crate::encoder::is_set;
use crate::hash::{place, Fnv};
use crate::sizes::Sizes;

const ROLE_FILTER: u8 = 0x46;
const ROLE_CELLS: u8 = 0x43;

fn start(salt: u32, role: u8, index: u8) -> Fnv {
    Fnv::new().bytes(&salt.to_be_bytes()).byte(role).byte(index)
}

/// The state of cell hash `index` before the key.
pub fn cell_start(salt: u32, index: u8) -> Fnv {
    start(salt, ROLE_CELLS, index)
}

fn filter_bit(sizes: Sizes, salt: u32, index: u8, key: &[u8]) -> usize {
    place(start(salt, ROLE_FILTER, index).bytes(key).value(), sizes.filter_bits())
}

pub fn filter_bits(sizes: Sizes, salt: u32, key: &[u8]) -> Vec<usize> {
    (0..sizes.kf).map(|i| filter_bit(sizes, salt, i, key)).collect()
}

/// Whether the filter has all of the flow's bits.
pub fn passes(sizes: Sizes, salt: u32, filter: &[u8], key: &[u8]) -> bool {
    (0..sizes.kf).all(|i| is_set(filter, filter_bit(sizes, salt, i, key)))
}

/// Hash i chooses in part i, so the cells of a flow always differ.
pub fn cells(sizes: Sizes, salt: u32, key: &[u8]) -> Vec<usize> {
    let part = sizes.part();
    (0..sizes.k).map(|i| usize::from(i) * part + place(cell_start(salt, i).bytes(key).value(), part)).collect()
}

const MOST_BITS: usize = 8;
const MOST_CELLS: usize = 4;

/// All of a flow's bits and cells at once: one pass over the key steps every hash, so that their multiplications overlap.
pub struct Chosen {
    bits: [usize; MOST_BITS],
    cells: [usize; MOST_CELLS],
    sizes: Sizes,
}

impl Chosen {
    pub fn of(sizes: Sizes, salt: u32, key: &[u8]) -> Self {
        let salted = Fnv::new().bytes(&salt.to_be_bytes());
        let (filter, table) = (salted.byte(ROLE_FILTER), salted.byte(ROLE_CELLS));
        let mut states: [Fnv; MOST_BITS + MOST_CELLS] =
            std::array::from_fn(|number| match number.checked_sub(MOST_BITS) {
                None => filter.byte(number as u8),
                Some(index) => table.byte(index as u8),
            });
        for &byte in key {
            states.iter_mut().for_each(|state| *state = state.byte(byte));
        }
        let part = sizes.part();
        Chosen {
            bits: std::array::from_fn(|i| place(states[i].value(), sizes.filter_bits())),
            cells: std::array::from_fn(|i| i * part + place(states[MOST_BITS + i].value(), part)),
            sizes,
        }
    }

    pub fn bits(&self) -> &[usize] {
        &self.bits[..usize::from(self.sizes.kf)]
    }

    pub fn cells(&self) -> &[usize] {
        &self.cells[..usize::from(self.sizes.k)]
    }
}
