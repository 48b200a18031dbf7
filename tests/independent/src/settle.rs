//! The steps of settling, for the marked engine.

use crate::engine::{Damage, Step};
use crate::marked::{Aid, Marked};
use crate::places::{Placement, Places};
use crate::refusal::Refusal;
use crate::table::Record;
use crate::words::Words;

impl Marked {
    pub fn peel_all<P: Placement>(&mut self, placement: &P, aid: &mut Aid) -> Result<(), Damage> {
        while self.peel(placement, aid)? == Step::Done {}
        Ok(())
    }

    /// One peel. It trusts the marks, right or wrong, and changes none but those of the flow's cells. Where a cell is
    /// marked, it asks for room in the list.
    pub fn peel<P: Placement>(&mut self, placement: &P, aid: &mut Aid) -> Result<Step, Damage> {
        let Some(cell) = self.marks.lowest() else {
            return Ok(Step::NothingToDo);
        };
        self.table.assert_room();
        let damage = |refusal| Err(Damage { refusal, cell });
        let key = self.table.cells[cell].flow_xor;
        let places = placement.places(&key);
        if aid.lists(&self.table, &key) {
            damage(Refusal::PeelListed)
        } else if !self.table.all_open(&places) {
            damage(Refusal::PeelEmptyCell)
        } else {
            self.take_out(placement, aid, places, Record::unknown(key, false));
            Ok(Step::Done)
        }
    }

    /// FlowCounts no longer change here, so a cell turns ready or not only by a flow counted in it.
    pub fn count_all(&mut self, aid: &Aid) -> Result<(), Damage> {
        let mut ready = Words::of(self.table.cells.len(), |cell| self.is_ready(cell));
        while self.count_one(aid, &mut ready)? == Step::Done {}
        Ok(())
    }

    fn is_ready(&self, cell: usize) -> bool {
        !self.table.cells[cell].is_open() && self.unknown[cell].number == 1
    }

    fn count_one(&mut self, aid: &Aid, ready: &mut Words) -> Result<Step, Damage> {
        let Some(cell) = ready.lowest() else {
            return Ok(Step::NothingToDo);
        };
        let position = usize::from(self.unknown[cell].positions);
        let places = aid.places(position);
        let count = self.table.cells[cell].packet_count;
        self.check_count(&places, count).map_err(|refusal| Damage { refusal, cell })?;
        for place in places.iter() {
            self.table.cells[place].packet_count -= count;
            self.unknown[place].remove(position);
            ready.put(place, self.is_ready(place));
        }
        let record = &mut self.table.list[position];
        (record.count, record.known) = (count, true);
        Ok(Step::Done)
    }

    fn check_count(&self, places: &Places, count: u32) -> Result<(), Refusal> {
        if count == 0 {
            Err(Refusal::CountZero)
        } else if places.iter().any(|place| self.table.cells[place].packet_count < count) {
            Err(Refusal::CountOver)
        } else {
            Ok(())
        }
    }
}
