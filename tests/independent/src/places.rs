//! Where a key's cells are. Peeling asks no more of a placement than this, so it runs over any.

use crate::flow::cell_start;
use crate::hash::{place, Fnv};
use crate::key::KeyBytes;
use crate::sizes::Sizes;

const MOST_PLACES: usize = 4;

/// The k cells of one key.
#[derive(Clone, Copy, PartialEq, Eq, Debug, Default)]
pub struct Places {
    cells: [u16; MOST_PLACES],
    k: u8,
}

impl Places {
    pub fn new(cells: &[usize]) -> Self {
        let mut places = Places { k: cells.len() as u8, ..Places::default() };
        places.cells.iter_mut().zip(cells).for_each(|(place, &cell)| *place = cell as u16);
        places
    }

    pub fn iter(&self) -> impl Iterator<Item = usize> + '_ {
        self.cells[..usize::from(self.k)].iter().map(|&cell| usize::from(cell))
    }

    pub fn contains(&self, cell: usize) -> bool {
        self.iter().any(|place| place == cell)
    }
}

/// Gives every key its k cells: always the same ones, all different, all below N.
pub trait Placement {
    /// N.
    fn cells(&self) -> usize;

    fn places(&self, key: &KeyBytes) -> Places;

    fn has(&self, key: &KeyBytes, cell: usize) -> bool {
        self.places(key).contains(cell)
    }
}

/// The placement of a flowset, by hash.
pub struct Hashed {
    /// Salt, role and index are taken in once, not for every key.
    starts: [Fnv; MOST_PLACES],
    k: u8,
    part: usize,
}

impl Hashed {
    pub fn new(sizes: Sizes, salt: u32) -> Self {
        let starts = std::array::from_fn(|index| cell_start(salt, index as u8));
        Hashed { starts, k: sizes.k, part: sizes.part() }
    }

    fn cell(&self, index: usize, state: Fnv) -> usize {
        index * self.part + place(state.value(), self.part)
    }
}

impl Placement for Hashed {
    fn cells(&self) -> usize {
        usize::from(self.k) * self.part
    }

    /// One pass over the key steps all states, so that their multiplications overlap.
    fn places(&self, key: &KeyBytes) -> Places {
        let mut states = self.starts;
        for &byte in key {
            states.iter_mut().for_each(|state| *state = state.byte(byte));
        }
        let cells = std::array::from_fn(|index| self.cell(index, states[index]) as u16);
        Places { cells, k: self.k }
    }

    /// Only the hash of the cell's own part can choose it.
    fn has(&self, key: &KeyBytes, cell: usize) -> bool {
        let index = cell / self.part;
        self.cell(index, self.starts[index].bytes(key)) == cell
    }
}
