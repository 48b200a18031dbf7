//! The ten cases of 01, their results written by hand.

use crate::engine::Engine;
use crate::key::KeyBytes;
use crate::layout::KEY_BYTES;
use crate::marked::Marked;
use crate::places::{Placement, Places};
use crate::report::{Report, State};
use crate::rescanning::Rescanning;
use crate::selftest::Tally;
use crate::table::{Cell, Record};

pub fn key(last: u8) -> KeyBytes {
    let mut key = [0; KEY_BYTES];
    key[KEY_BYTES - 1] = last;
    key
}

const A: u8 = 1;
const B: u8 = 2;
const C: u8 = 4;

/// Four cells in two parts. A key that is not named is at 0,2.
struct Four {
    named: &'static [(u8, [usize; 2])],
}

impl Placement for Four {
    fn cells(&self) -> usize {
        4
    }

    fn places(&self, key: &KeyBytes) -> Places {
        let named = self.named.iter().find(|(last, _)| *last == key[KEY_BYTES - 1]);
        Places::new(&named.map_or([0, 2], |&(_, cells)| cells))
    }
}

#[derive(Clone, Copy)]
enum Call {
    Settle,
    Hand(u8),
}
use Call::*;

struct Case {
    number: usize,
    named: &'static [(u8, [usize; 2])],
    /// FlowXOR's last byte, FlowCount and PacketCount.
    start: [(u8, u16, u32); 4],
    /// Each call, its number and, for 14, the cell.
    calls: &'static [(Call, u8, Option<usize>)],
    flows: &'static str,
    open: usize,
    state: &'static str,
}

const APART: &[(u8, [usize; 2])] = &[(A, [0, 2]), (B, [0, 3]), (C, [1, 3])];
const SAME: &[(u8, [usize; 2])] = &[(A, [0, 2]), (B, [0, 2])];

const NONE: (u8, u16, u32) = (0, 0, 0);
const ONLY_A: [(u8, u16, u32); 4] = [(1, 1, 5), NONE, (1, 1, 5), NONE];
const A_AND_B: [(u8, u16, u32); 4] = [(3, 2, 12), NONE, (1, 1, 5), (2, 1, 7)];
const TOGETHER: [(u8, u16, u32); 4] = [(3, 2, 12), NONE, (3, 2, 12), NONE];

#[rustfmt::skip]
const CASES: [Case; 10] = [
    Case { number: 1, named: APART, start: [NONE; 4], calls: &[(Settle, 0, None)], flows: "", open: 0, state: "whole" },
    Case { number: 2, named: APART, start: ONLY_A, calls: &[(Settle, 0, None)], flows: "a 5", open: 0, state: "whole" },
    Case { number: 3, named: APART, start: A_AND_B, calls: &[(Settle, 0, None)],
        flows: "a 5, b 7", open: 0, state: "whole" },
    Case { number: 4, named: SAME, start: TOGETHER, calls: &[(Settle, 0, None)], flows: "", open: 2, state: "stuck" },
    Case { number: 5, named: SAME, start: TOGETHER, calls: &[(Settle, 0, None), (Hand(B), 0, None), (Settle, 0, None)],
        flows: "b ?, a ?", open: 0, state: "short" },
    Case { number: 6, named: APART, start: A_AND_B, calls: &[(Hand(B), 0, None), (Settle, 0, None)],
        flows: "b 7, a 5", open: 0, state: "whole" },
    Case { number: 7, named: APART, start: ONLY_A, calls: &[(Settle, 0, None), (Hand(A), 10, None)],
        flows: "a 5", open: 0, state: "whole" },
    Case { number: 8, named: APART, start: ONLY_A, calls: &[(Hand(C), 11, None)], flows: "", open: 2, state: "stuck" },
    Case { number: 9, named: APART, start: [(1, 1, 5), NONE, NONE, NONE], calls: &[(Settle, 14, Some(0))],
        flows: "", open: 1, state: "stuck" },
    Case { number: 10, named: APART, start: [NONE, (1, 1, 5), NONE, NONE], calls: &[(Settle, 0, None)],
        flows: "", open: 1, state: "stuck" },
];

pub fn ten_cases(tally: &mut Tally) {
    for case in &CASES {
        run_case::<Marked>(tally, case, "marked");
        run_case::<Rescanning>(tally, case, "rescanning");
    }
}

/// Off clean flowsets, when a flow is handed over does matter, though no 14 occurs and all that is listed has its count.
/// Either way bytes of FlowXOR are left over.
pub fn off_clean(tally: &mut Tally) {
    const NAMED: &[(u8, [usize; 2])] = &[(1, [0, 2]), (6, [0, 2]), (2, [0, 3]), (5, [1, 2])];
    let placement = Four { named: NAMED };
    let start = [(4, 2, 3), NONE, (1, 1, 1), (5, 1, 2)].map(cell);
    let listed = |calls: &[Call]| {
        let mut engine = Marked::new(&placement, start.to_vec());
        let answers: Vec<_> = calls.iter().map(|&call| answer(&mut engine, &placement, call).0).collect();
        let keys: Vec<u8> = engine.table.list.iter().map(|record| record.key[KEY_BYTES - 1]).collect();
        (answers, keys, Report::of(&engine.table).state)
    };
    let later = listed(&[Settle, Hand(2), Settle]);
    tally.equal("off clean, handed later", later, (vec![0, 0, 0], vec![1, 2], State::Stray));
    let first = listed(&[Hand(2), Settle]);
    tally.equal("off clean, handed first", first, (vec![0, 0], vec![2, 6], State::Stray));
}

fn cell((last, flow_count, packet_count): (u8, u16, u32)) -> Cell {
    Cell { flow_xor: key(last), flow_count, packet_count }
}

fn run_case<E: Engine>(tally: &mut Tally, case: &Case, engine_name: &str) {
    let name = format!("case {}, {engine_name}", case.number);
    let placement = Four { named: case.named };
    let mut engine = E::new(&placement, case.start.map(cell).to_vec());
    for &(call, number, cell) in case.calls {
        tally.equal(&name, answer(&mut engine, &placement, call), (number, cell));
    }
    let report = Report::of(engine.table());
    tally.equal(&name, show(&engine.table().list), case.flows.into());
    tally.equal(&name, (report.open, report.state.to_string()), (case.open, case.state.into()));
    tally.equal(&name, report.listed, case.flows.split(", ").filter(|flow| !flow.is_empty()).count());
    tally.equal(&name, report.counted, case.flows.split(", ").filter(|flow| flow.ends_with(['5', '7'])).count());
}

fn answer<E: Engine>(engine: &mut E, placement: &Four, call: Call) -> (u8, Option<usize>) {
    let mut aid = engine.check(placement).expect("a session");
    match call {
        Settle => match engine.settle(placement, &mut aid) {
            Ok(()) => (0, None),
            Err(damage) => (damage.refusal.number(), Some(damage.cell)),
        },
        Hand(last) => match engine.hand_over(placement, &mut aid, &key(last)) {
            Ok(()) => (0, None),
            Err(refusal) => (refusal.number(), None),
        },
    }
}

fn show(list: &[Record]) -> String {
    let name = |record: &Record| match record.key[KEY_BYTES - 1] {
        A => 'a',
        B => 'b',
        _ => '-',
    };
    let count = |record: &Record| if record.known { record.count.to_string() } else { "?".into() };
    list.iter().map(|record| format!("{} {}", name(record), count(record))).collect::<Vec<_>>().join(", ")
}
