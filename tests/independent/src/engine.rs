//! What a session asks of an engine. An engine knows no filter, sizes or slot.

use crate::key::KeyBytes;
use crate::places::Placement;
use crate::refusal::Refusal;
use crate::table::{Cell, Table};

/// 14, and the cell the step started from.
#[derive(Clone, Copy, PartialEq, Eq, Debug)]
pub struct Damage {
    pub refusal: Refusal,
    pub cell: usize,
}

#[derive(Clone, Copy, PartialEq, Eq, Debug)]
pub enum Step {
    Done,
    NothingToDo,
}

pub trait Engine: Sized {
    /// Found by the test of 8 and kept true by the call's steps, so that no step need look through the list.
    type Aid;

    fn new<P: Placement>(placement: &P, cells: Vec<Cell>) -> Self;

    fn table(&self) -> &Table;

    /// 16, for a table of `n` cells.
    fn check_room(&self, n: usize) -> Result<(), Refusal>;

    /// 8, where the lengths are right.
    fn check<P: Placement>(&self, placement: &P) -> Result<Self::Aid, Refusal>;

    /// 10 to 12.
    fn hand_over<P: Placement>(&mut self, placement: &P, aid: &mut Self::Aid, key: &KeyBytes) -> Result<(), Refusal>;

    fn settle<P: Placement>(&mut self, placement: &P, aid: &mut Self::Aid) -> Result<(), Damage>;
}
