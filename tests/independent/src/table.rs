//! What every engine keeps: the cells as they stand, and the flows found so far.

use crate::bytes::{u16_at, u32_at};
use crate::key::KeyBytes;
use crate::layout::{FLOW_COUNT, KEY_BYTES, PACKET_COUNT};
use crate::places::Places;
use crate::refusal::Refusal;

#[derive(Clone, Copy, PartialEq, Eq, Debug, Default)]
pub struct Cell {
    pub flow_xor: KeyBytes,
    pub flow_count: u16,
    pub packet_count: u32,
}

impl Cell {
    pub fn from_bytes(bytes: &[u8]) -> Self {
        Cell {
            flow_xor: bytes[..KEY_BYTES].try_into().expect("a cell holds a key"),
            flow_count: u16_at(bytes, FLOW_COUNT.start),
            packet_count: u32_at(bytes, PACKET_COUNT.start),
        }
    }

    pub fn is_open(&self) -> bool {
        self.flow_count > 0
    }

    /// A byte of FlowXOR or packets, whatever the FlowCount.
    pub fn has_rest(&self) -> bool {
        self.flow_xor.iter().any(|&byte| byte != 0) || self.packet_count != 0
    }

    /// PacketCount stays: the flow's packets leave with its count.
    pub fn take_out(&mut self, key: &KeyBytes) {
        self.flow_xor.iter_mut().zip(key).for_each(|(mixed, byte)| *mixed ^= byte);
        self.flow_count -= 1;
    }
}

#[derive(Clone, Copy, PartialEq, Eq, PartialOrd, Ord, Debug)]
pub struct Record {
    pub key: KeyBytes,
    /// Stored as 0 while unknown.
    pub count: u32,
    pub known: bool,
    pub handed: bool,
}

impl Record {
    pub fn unknown(key: KeyBytes, handed: bool) -> Self {
        Record { key, count: 0, known: false, handed }
    }
}

#[derive(Clone, PartialEq, Eq, Debug)]
pub struct Table {
    pub cells: Vec<Cell>,
    pub list: Vec<Record>,
}

impl Table {
    pub fn new(cells: Vec<Cell>) -> Self {
        Table { list: Vec::with_capacity(2 * cells.len()), cells }
    }

    pub fn open_cells(&self) -> usize {
        self.cells.iter().filter(|cell| cell.is_open()).count()
    }

    pub fn has_rest(&self) -> bool {
        self.cells.iter().any(Cell::has_rest)
    }

    pub fn handed(&self) -> usize {
        self.list.iter().filter(|record| record.handed).count()
    }

    pub fn all_open(&self, places: &Places) -> bool {
        places.iter().all(|cell| self.cells[cell].is_open())
    }

    /// Before a peel. The test of 8 gives it: at most N flows are handed, and the cell that the peel starts from is open,
    /// so fewer than N are peeled.
    pub fn assert_room(&self) {
        assert!(self.list.len() < 2 * self.cells.len(), "a peel asks for room in the list");
    }

    /// The part of the test of 8 that asks neither places nor equal keys.
    pub fn check(&self) -> Result<(), Refusal> {
        let n = self.cells.len();
        let handed = self.handed();
        if self.list.len() > 2 * n {
            Err(Refusal::OverListed)
        } else if self.list.iter().any(|record| record.known && record.count == 0) {
            Err(Refusal::KnownZero)
        } else if handed > n {
            Err(Refusal::OverHanded)
        } else if self.list.len() - handed + self.open_cells() > n {
            Err(Refusal::OverPeeled)
        } else {
            Ok(())
        }
    }
}
