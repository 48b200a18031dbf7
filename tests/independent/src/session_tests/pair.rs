//! Both engines side by side: every call is made on both, and all that shows is compared.

use crate::answer::refused_kind;
use crate::engine::{Damage, Engine};
use crate::fresh::Fresh;
use crate::key::KeyBytes;
use crate::marked::Marked;
use crate::places::Placement;
use crate::refusal::Refusal;
use crate::report::{Report, State};
use crate::rescanning::Rescanning;
use crate::selftest::Tally;
use crate::table::Cell;

pub struct Pair<'p, P> {
    placement: &'p P,
    pub marked: Marked,
    rescanning: Rescanning,
}

impl<'p, P: Placement> Pair<'p, P> {
    pub fn new(placement: &'p P, cells: Vec<Cell>) -> Self {
        let marked = Marked::new(placement, cells.clone());
        Pair { placement, marked, rescanning: Rescanning::new(placement, cells) }
    }

    pub fn hand_over(&mut self, tally: &mut Tally, name: &str, key: &KeyBytes) -> Result<(), Refusal> {
        let before = self.marked.clone();
        let answer = hand_over(&mut self.marked, self.placement, key);
        tally.equal(name, hand_over(&mut self.rescanning, self.placement, key), answer);
        tally.holds_in(name, "a refusal keeps all", answer.is_ok() || self.marked == before);
        meet_hand_over(tally, answer);
        agree(tally, name, self.placement, &self.marked, &self.rescanning);
        answer
    }

    pub fn settle(&mut self, tally: &mut Tally, name: &str) -> Result<(), Damage> {
        let answer = settle(&mut self.marked, self.placement);
        tally.equal(name, settle(&mut self.rescanning, self.placement), answer);
        meet_settle(tally, answer);
        agree(tally, name, self.placement, &self.marked, &self.rescanning);
        meet_state(tally, Report::of(&self.marked.table));
        let mut again = self.marked.clone();
        tally.equal(name, settle(&mut again, self.placement), answer);
        tally.holds_in(name, "a second settling changes nothing", again == self.marked);
        answer
    }
}

fn hand_over<E: Engine, P: Placement>(engine: &mut E, placement: &P, key: &KeyBytes) -> Result<(), Refusal> {
    let mut aid = engine.check(placement).expect("a session");
    engine.hand_over(placement, &mut aid, key)
}

fn settle<E: Engine, P: Placement>(engine: &mut E, placement: &P) -> Result<(), Damage> {
    let mut aid = engine.check(placement).expect("a session");
    engine.settle(placement, &mut aid)
}

/// Cells and list are equal, and the marks and numbers are what a fresh look at them gives.
pub fn agree<P: Placement>(tally: &mut Tally, name: &str, placement: &P, marked: &Marked, plain: &Rescanning) {
    tally.holds_in(name, "cells and list", marked.table == plain.table);
    let fresh = Fresh::look(placement, plain.clone());
    tally.holds_in(name, "marks", marked.marks == fresh.marks);
    tally.holds_in(name, "numbers", marked.unknown == fresh.unknown);
}

pub fn meet_hand_over(tally: &mut Tally, answer: Result<(), Refusal>) {
    tally.met(answer.map_or_else(|refusal| refused_kind("hand-over", refusal), |()| "hand-over ok".into()));
}

pub fn meet_settle(tally: &mut Tally, answer: Result<(), Damage>) {
    tally.met(answer.map_or_else(|damage| refused_kind("settle", damage.refusal), |()| "settle ok".into()));
}

/// What listed, counted and open say by themselves.
pub fn state_of_figures(report: Report) -> State {
    if report.open > 0 {
        State::Stuck
    } else if report.counted < report.listed {
        State::Short
    } else {
        State::Whole
    }
}

pub fn meet_state(tally: &mut Tally, report: Report) {
    tally.met(format!("state {}", report.state));
}
