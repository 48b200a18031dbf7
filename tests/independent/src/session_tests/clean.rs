//! Clean flowsets: what is found is the truth, hand-overs add no count, their time does not matter, and nothing is ever left
//! over.

use std::collections::BTreeMap;

use crate::counters::key_of;
use crate::flow;
use crate::flowsets::{encode, flows_at, good_filter, random_flow, random_flows, random_header, shuffle, Flowset};
use crate::image::Header;
use crate::key::KeyBytes;
use crate::marked::Marked;
use crate::random::Random;
use crate::refusal::Refusal;
use crate::report::State;
use crate::selftest::Tally;
use crate::session::Session;
use crate::sizes::Sizes;
use crate::table::{Cell, Record};

use super::pair::{meet_hand_over, meet_settle, meet_state, state_of_figures};

pub fn clean_sessions(tally: &mut Tally) {
    let mut checked = 0;
    for percent in (10..=130).step_by(10) {
        for seed in 0..60 {
            let random = &mut Random::new(1_000 * percent as u64 + seed);
            let header = size_of_run(random, seed);
            let flows = random_flows(random, flows_at(header, percent));
            let flowset = encode(random, header, &flows);
            if flowset.clean {
                checked += 1;
                clean_session(tally, random, &flowset, &format!("clean {percent}% {seed}"));
            }
        }
    }
    println!("clean sessions checked: {checked} of {}", 13 * 60);
    tally.holds("most flowsets are clean", checked > 13 * 60 / 2);
}

/// Mostly small; some of the largest; some with a poor filter, which strangers pass.
fn size_of_run(random: &mut Random, seed: u64) -> Header {
    let header = random_header(random, 6);
    match seed % 10 {
        0 => good_filter(Header { sizes: Sizes { q: 16, ..header.sizes }, ..header }),
        1 => Header { sizes: Sizes { kf: 1, f: 4, q: 1, ..header.sizes }, ..header },
        _ => good_filter(header),
    }
}

fn clean_session(tally: &mut Tally, random: &mut Random, flowset: &Flowset, name: &str) {
    let alone = settled_alone(tally, flowset, name);
    let (helped, accepted) = with_hand_overs(tally, random, flowset, name);
    tally.holds_in(name, "counts with and without hand-overs", known(helped.list()) == known(alone.list()));
    let first = handed_first(tally, flowset, &accepted, name);
    tally.holds_in(name, "handed first", end_state(&first) == end_state(&helped));
}

fn open(tally: &mut Tally, flowset: &Flowset, name: &str) -> Session<Marked> {
    let session = Session::open(&flowset.sealed(), flowset.header().slot).expect("a sealed image");
    never_stray(tally, &session, name);
    session
}

/// Whatever calls were made: the figures alone give the state.
pub fn never_stray(tally: &mut Tally, session: &Session<Marked>, name: &str) {
    let report = session.report().expect("a session");
    tally.holds_in(name, "the figures give the state", report.state == state_of_figures(report));
}

fn settle(tally: &mut Tally, session: &mut Session<Marked>, name: &str) {
    let answer = session.settle().expect("a session");
    tally.equal(name, answer, Ok(()));
    meet_settle(tally, answer);
    meet_state(tally, session.report().expect("a session"));
    never_stray(tally, session, name);
}

fn settled_alone(tally: &mut Tally, flowset: &Flowset, name: &str) -> Session<Marked> {
    let mut session = open(tally, flowset, name);
    settle(tally, &mut session, name);
    tell_truth(tally, &session, flowset, name);
    let report = session.report().expect("a session");
    let counted = report.state != State::Short && report.counted == report.listed;
    tally.holds_in(name, "every peeled flow is counted", counted);
    let complete = report.listed == flowset.packets.len();
    tally.holds_in(name, "whole when all are listed", (report.state == State::Whole) == complete);
    session
}

/// Random hand-overs and settlings, the last call a settling; with the keys accepted.
fn with_hand_overs(
    tally: &mut Tally,
    random: &mut Random,
    flowset: &Flowset,
    name: &str,
) -> (Session<Marked>, Vec<KeyBytes>) {
    let mut session = open(tally, flowset, name);
    let mut accepted = Vec::new();
    let mut keys = flowset.keys();
    shuffle(random, &mut keys);
    keys.truncate(random.below(keys.len() + 1));
    for key in keys {
        if random.once_in(8) {
            settle(tally, &mut session, name);
            tell_truth(tally, &session, flowset, name);
        }
        if random.once_in(4) {
            offer_stranger(tally, random, &mut session, name);
        }
        let answer = session.hand_over(&key);
        meet_hand_over(tally, answer);
        never_stray(tally, &session, name);
        let expected = matches!(answer, Ok(()) | Err(Refusal::Listed | Refusal::HandedFull));
        tally.holds_in(name, "a counted flow", expected);
        if answer.is_ok() {
            accepted.push(key);
        }
    }
    settle(tally, &mut session, name);
    tell_truth(tally, &session, flowset, name);
    (session, accepted)
}

/// A flow that was not counted here: 9 or 11. One that would be accepted is left out, as the promises ask.
fn offer_stranger(tally: &mut Tally, random: &mut Random, session: &mut Session<Marked>, name: &str) {
    let key = key_of(&random_flow(random));
    let Header { sizes, salt, .. } = session.header;
    let places = flow::cells(sizes, salt, &key);
    let open = places.iter().all(|&cell| session.engine.table.cells[cell].is_open());
    let passes = flow::passes(sizes, salt, &session.filter, &key);
    if !(passes && open) {
        let answer = session.hand_over(&key);
        tally.equal(name, answer, Err(if passes { Refusal::EmptyCell } else { Refusal::NotInFilter }));
        meet_hand_over(tally, answer);
    }
}

fn handed_first(tally: &mut Tally, flowset: &Flowset, accepted: &[KeyBytes], name: &str) -> Session<Marked> {
    let mut session = open(tally, flowset, name);
    for key in accepted {
        tally.equal(name, session.hand_over(key), Ok(()));
        never_stray(tally, &session, name);
    }
    settle(tally, &mut session, name);
    session
}

/// Every listed flow was counted, and every known count is its packets taken.
pub fn tell_truth(tally: &mut Tally, session: &Session<Marked>, flowset: &Flowset, name: &str) {
    let true_record = |record: &Record| match flowset.packets.get(&record.key) {
        Some(&packets) => !record.known || record.count == packets,
        None => false,
    };
    tally.holds_in(name, "truth", session.list().iter().all(true_record));
}

pub fn known(list: &[Record]) -> BTreeMap<KeyBytes, u32> {
    list.iter().filter(|record| record.known).map(|record| (record.key, record.count)).collect()
}

/// Cells and records; the order of the list depends on when a flow was handed over.
fn end_state(session: &Session<Marked>) -> (&[Cell], Vec<Record>) {
    let mut records = session.list().to_vec();
    records.sort();
    (&session.engine.table.cells, records)
}
