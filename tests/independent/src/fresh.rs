//! The plain engine with marks and per-cell numbers beside it, as lent memory has them: compared with a fresh look at
//! cells and list before a call, and taken from one after it. The marked engine is held against it in requests.

use std::collections::BTreeSet;

use crate::engine::{Damage, Engine};
use crate::key::KeyBytes;
use crate::marked::Unknown;
use crate::places::Placement;
use crate::refusal::Refusal::{self, *};
use crate::rescanning::Rescanning;
use crate::table::{Cell, Table};
use crate::words::Words;

#[derive(Clone, PartialEq, Eq, Debug)]
pub struct Fresh {
    pub plain: Rescanning,
    pub marks: Words,
    pub unknown: Vec<Unknown>,
}

impl Fresh {
    /// With the marks and numbers that cells and list give.
    pub fn look<P: Placement>(placement: &P, plain: Rescanning) -> Self {
        let mut marks = Words::with_bits(placement.cells());
        plain.pure_cells(placement).for_each(|cell| marks.put(cell, true));
        let unknown_of = |flows: Vec<usize>| Unknown {
            number: flows.len() as u16,
            positions: flows.iter().fold(0, |mixed, &position| mixed ^ position as u16),
        };
        let unknown = plain.unknown_flows(placement).into_iter().map(unknown_of).collect();
        Fresh { plain, marks, unknown }
    }

    fn renew<P: Placement>(&mut self, placement: &P) {
        *self = Fresh::look(placement, self.plain.clone());
    }

    /// All of 01's reasons for 8 that hold, but for wrong sizes.
    pub fn reasons<P: Placement>(&self, placement: &P) -> Vec<Refusal> {
        let Table { cells, list } = &self.plain.table;
        let n = cells.len();
        let handed = list.iter().filter(|record| record.handed).count();
        let open = cells.iter().filter(|cell| cell.flow_count > 0).count();
        let keys: BTreeSet<&KeyBytes> = list.iter().map(|record| &record.key).collect();
        let right = Fresh::look(placement, self.plain.clone());
        let clauses = [
            (OverListed, list.len() > 2 * n),
            (Repeated, keys.len() < list.len()),
            (KnownZero, list.iter().any(|record| record.known && record.count == 0)),
            (OverHanded, handed > n),
            (OverPeeled, list.len() - handed + open > n),
            (WrongMark, self.marks != right.marks),
            (WrongNumber, self.unknown != right.unknown),
        ];
        clauses.into_iter().filter(|(_, holds)| *holds).map(|(reason, _)| reason).collect()
    }
}

impl Engine for Fresh {
    type Aid = ();

    fn new<P: Placement>(placement: &P, cells: Vec<Cell>) -> Self {
        Fresh::look(placement, Rescanning::new(placement, cells))
    }

    fn table(&self) -> &Table {
        self.plain.table()
    }

    fn check_room(&self, n: usize) -> Result<(), Refusal> {
        self.plain.check_room(n)
    }

    fn check<P: Placement>(&self, placement: &P) -> Result<(), Refusal> {
        self.reasons(placement).first().map_or(Ok(()), |&reason| Err(reason))
    }

    fn hand_over<P: Placement>(&mut self, placement: &P, aid: &mut (), key: &KeyBytes) -> Result<(), Refusal> {
        self.plain.hand_over(placement, aid, key)?;
        self.renew(placement);
        Ok(())
    }

    fn settle<P: Placement>(&mut self, placement: &P, aid: &mut ()) -> Result<(), Damage> {
        let answer = self.plain.settle(placement, aid);
        self.renew(placement);
        answer
    }
}
