//! How far a session has come, worked out anew from list and cells.

use std::fmt;

use crate::table::Table;

#[derive(Clone, Copy, PartialEq, Eq, Debug)]
pub enum State {
    Stuck,
    Short,
    Stray,
    Whole,
}

impl fmt::Display for State {
    fn fmt(&self, out: &mut fmt::Formatter) -> fmt::Result {
        out.write_str(match self {
            State::Stuck => "stuck",
            State::Short => "short",
            State::Stray => "stray",
            State::Whole => "whole",
        })
    }
}

#[derive(Clone, Copy, PartialEq, Eq, Debug)]
pub struct Report {
    pub listed: usize,
    pub counted: usize,
    pub open: usize,
    pub state: State,
}

impl Report {
    pub fn of(table: &Table) -> Self {
        let listed = table.list.len();
        let counted = table.list.iter().filter(|record| record.known).count();
        let open = table.open_cells();
        let state = if open > 0 {
            State::Stuck
        } else if counted < listed {
            State::Short
        } else if table.has_rest() {
            State::Stray
        } else {
            State::Whole
        };
        Report { listed, counted, open, state }
    }
}
