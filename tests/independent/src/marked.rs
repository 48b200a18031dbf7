//! The fast engine: marks and per-cell numbers, renewed only at a flow's cells.

use crate::engine::{Damage, Engine};
use crate::index::Index;
use crate::key::KeyBytes;
use crate::places::{Placement, Places};
use crate::refusal::Refusal;
use crate::table::{Cell, Record, Table};
use crate::words::Words;

/// Of one cell: its listed flows without a count.
#[derive(Clone, Copy, PartialEq, Eq, Debug, Default)]
pub struct Unknown {
    pub number: u16,
    /// The XOR of their list positions: with one flow left, it is that flow's.
    pub positions: u16,
}

impl Unknown {
    pub fn add(&mut self, position: usize) {
        self.number += 1;
        self.positions ^= position as u16;
    }

    pub fn remove(&mut self, position: usize) {
        self.number -= 1;
        self.positions ^= position as u16;
    }
}

#[derive(Clone, PartialEq, Eq, Debug)]
pub struct Marked {
    pub table: Table,
    pub marks: Words,
    pub unknown: Vec<Unknown>,
}

pub struct Aid {
    index: Index,
    /// Of each listed flow without a count; a known one's are not asked again and left out.
    places: Vec<Places>,
    handed: usize,
}

impl Aid {
    fn of<P: Placement>(table: &Table, placement: &P) -> Result<Aid, Refusal> {
        let mut index = Index::with_room(2 * table.cells.len());
        if !(0..table.list.len()).all(|position| index.insert(&table.list, position)) {
            return Err(Refusal::Repeated);
        }
        let places_of = |record: &Record| if record.known { Places::default() } else { placement.places(&record.key) };
        let mut places = Vec::with_capacity(2 * table.cells.len());
        places.extend(table.list.iter().map(places_of));
        Ok(Aid { index, places, handed: table.handed() })
    }

    pub fn lists(&self, table: &Table, key: &KeyBytes) -> bool {
        self.index.contains(&table.list, key)
    }

    pub fn places(&self, position: usize) -> Places {
        self.places[position]
    }

    /// The list's last record is new.
    fn append(&mut self, table: &Table, places: Places) {
        self.index.insert(&table.list, self.places.len());
        self.places.push(places);
        self.handed += usize::from(table.list[self.places.len() - 1].handed);
    }

    fn unknown(&self, table: &Table) -> Vec<Unknown> {
        let mut unknown = vec![Unknown::default(); table.cells.len()];
        for (position, places) in self.places.iter().enumerate() {
            places.iter().for_each(|cell| unknown[cell].add(position));
        }
        unknown
    }
}

pub fn is_pure<P: Placement>(placement: &P, cells: &[Cell], cell: usize) -> bool {
    cells[cell].flow_count == 1 && placement.has(&cells[cell].flow_xor, cell)
}

fn pure_cells<P: Placement>(placement: &P, cells: &[Cell]) -> Words {
    Words::of(cells.len(), |cell| is_pure(placement, cells, cell))
}

impl Marked {
    pub fn take_out<P: Placement>(&mut self, placement: &P, aid: &mut Aid, places: Places, record: Record) {
        let position = self.table.list.len();
        for cell in places.iter() {
            self.table.cells[cell].take_out(&record.key);
            self.unknown[cell].add(position);
            self.marks.put(cell, is_pure(placement, &self.table.cells, cell));
        }
        self.table.list.push(record);
        aid.append(&self.table, places);
    }
}

impl Engine for Marked {
    type Aid = Aid;

    fn new<P: Placement>(placement: &P, cells: Vec<Cell>) -> Self {
        let marks = pure_cells(placement, &cells);
        Marked { unknown: vec![Unknown::default(); cells.len()], table: Table::new(cells), marks }
    }

    fn table(&self) -> &Table {
        &self.table
    }

    fn check_room(&self, n: usize) -> Result<(), Refusal> {
        if self.table.cells.len() != n {
            Err(Refusal::CellsRoom)
        } else if self.marks.0.len() != Words::words_for(n) {
            Err(Refusal::MarksRoom)
        } else if self.unknown.len() != n {
            Err(Refusal::NumbersRoom)
        } else {
            Ok(())
        }
    }

    fn check<P: Placement>(&self, placement: &P) -> Result<Aid, Refusal> {
        self.table.check()?;
        let aid = Aid::of(&self.table, placement)?;
        // Whole words are compared, and with them the bits past N.
        if self.marks != pure_cells(placement, &self.table.cells) {
            Err(Refusal::WrongMark)
        } else if self.unknown != aid.unknown(&self.table) {
            Err(Refusal::WrongNumber)
        } else {
            Ok(aid)
        }
    }

    fn hand_over<P: Placement>(&mut self, placement: &P, aid: &mut Aid, key: &KeyBytes) -> Result<(), Refusal> {
        if aid.lists(&self.table, key) {
            return Err(Refusal::Listed);
        }
        let places = placement.places(key);
        if !self.table.all_open(&places) {
            Err(Refusal::EmptyCell)
        } else if aid.handed >= self.table.cells.len() {
            Err(Refusal::HandedFull)
        } else {
            self.take_out(placement, aid, places, Record::unknown(*key, true));
            Ok(())
        }
    }

    fn settle<P: Placement>(&mut self, placement: &P, aid: &mut Aid) -> Result<(), Damage> {
        self.peel_all(placement, aid)?;
        self.count_all(aid)
    }
}
