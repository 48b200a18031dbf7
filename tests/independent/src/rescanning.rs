//! The plain engine: it keeps nothing but cells and list, and looks through them anew at every step. Being close to the
//! words of 01, it is what the marked engine is held against; it shares no step with it.

use std::collections::BTreeSet;

use crate::engine::{Damage, Engine};
use crate::key::KeyBytes;
use crate::places::Placement;
use crate::refusal::Refusal;
use crate::table::{Cell, Record, Table};

#[derive(Clone, PartialEq, Eq, Debug)]
pub struct Rescanning {
    pub table: Table,
}

impl Rescanning {
    fn is_listed(&self, key: &KeyBytes) -> bool {
        self.table.list.iter().any(|record| record.key == *key)
    }

    pub fn pure_cells<'a, P: Placement>(&'a self, placement: &'a P) -> impl Iterator<Item = usize> + 'a {
        let is_pure = |cell: &Cell, number| cell.flow_count == 1 && placement.places(&cell.flow_xor).contains(number);
        let cells = self.table.cells.iter().enumerate();
        cells.filter(move |(number, cell)| is_pure(cell, *number)).map(|(number, _)| number)
    }

    /// For each cell, the list positions of its flows without a count.
    pub fn unknown_flows<P: Placement>(&self, placement: &P) -> Vec<Vec<usize>> {
        let mut flows = vec![Vec::new(); self.table.cells.len()];
        for (position, record) in self.table.list.iter().enumerate().filter(|(_, record)| !record.known) {
            placement.places(&record.key).iter().for_each(|cell| flows[cell].push(position));
        }
        flows
    }

    /// The lowest ready cell and its flow's list position.
    fn lowest_ready<P: Placement>(&self, placement: &P) -> Option<(usize, usize)> {
        let unknown = self.unknown_flows(placement);
        self.table.cells.iter().zip(unknown).enumerate().find_map(|(number, (cell, flows))| match flows[..] {
            [position] if cell.flow_count == 0 => Some((number, position)),
            _ => None,
        })
    }

    fn take_out<P: Placement>(&mut self, placement: &P, key: KeyBytes, handed: bool) {
        for place in placement.places(&key).iter() {
            self.table.cells[place].take_out(&key);
        }
        self.table.list.push(Record::unknown(key, handed));
    }

    fn has_empty_cell<P: Placement>(&self, placement: &P, key: &KeyBytes) -> bool {
        placement.places(key).iter().any(|place| self.table.cells[place].flow_count == 0)
    }

    fn peel<P: Placement>(&mut self, placement: &P, cell: usize) -> Result<(), Damage> {
        self.table.assert_room();
        let key = self.table.cells[cell].flow_xor;
        if self.is_listed(&key) {
            Err(Damage { refusal: Refusal::PeelListed, cell })
        } else if self.has_empty_cell(placement, &key) {
            Err(Damage { refusal: Refusal::PeelEmptyCell, cell })
        } else {
            self.take_out(placement, key, false);
            Ok(())
        }
    }

    fn count<P: Placement>(&mut self, placement: &P, cell: usize, position: usize) -> Result<(), Damage> {
        let places = placement.places(&self.table.list[position].key);
        let count = self.table.cells[cell].packet_count;
        if count == 0 {
            return Err(Damage { refusal: Refusal::CountZero, cell });
        }
        if places.iter().any(|place| count > self.table.cells[place].packet_count) {
            return Err(Damage { refusal: Refusal::CountOver, cell });
        }
        places.iter().for_each(|place| self.table.cells[place].packet_count -= count);
        self.table.list[position].count = count;
        self.table.list[position].known = true;
        Ok(())
    }
}

impl Engine for Rescanning {
    type Aid = ();

    fn new<P: Placement>(_: &P, cells: Vec<Cell>) -> Self {
        Rescanning { table: Table::new(cells) }
    }

    fn table(&self) -> &Table {
        &self.table
    }

    fn check_room(&self, n: usize) -> Result<(), Refusal> {
        if self.table.cells.len() == n {
            Ok(())
        } else {
            Err(Refusal::CellsRoom)
        }
    }

    /// With no marks and no numbers, there are none to differ.
    fn check<P: Placement>(&self, _: &P) -> Result<(), Refusal> {
        self.table.check()?;
        let keys: BTreeSet<&KeyBytes> = self.table.list.iter().map(|record| &record.key).collect();
        if keys.len() == self.table.list.len() {
            Ok(())
        } else {
            Err(Refusal::Repeated)
        }
    }

    fn hand_over<P: Placement>(&mut self, placement: &P, _: &mut (), key: &KeyBytes) -> Result<(), Refusal> {
        if self.is_listed(key) {
            Err(Refusal::Listed)
        } else if self.has_empty_cell(placement, key) {
            Err(Refusal::EmptyCell)
        } else if self.table.handed() == self.table.cells.len() {
            Err(Refusal::HandedFull)
        } else {
            self.take_out(placement, *key, true);
            Ok(())
        }
    }

    fn settle<P: Placement>(&mut self, placement: &P, _: &mut ()) -> Result<(), Damage> {
        loop {
            let lowest = self.pure_cells(placement).next();
            let Some(cell) = lowest else { break };
            self.peel(placement, cell)?;
        }
        while let Some((cell, position)) = self.lowest_ready(placement) {
            self.count(placement, cell, position)?;
        }
        Ok(())
    }
}
