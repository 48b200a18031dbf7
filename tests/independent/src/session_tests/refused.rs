//! Refusals 8, 15 and 16: both sides of each edge, and nothing changed.

use crate::answer::refused_kind;
use crate::exchange::exchange;
use crate::flowsets::{encode, flows_at, good_filter, random_flows};
use crate::image::Header;
use crate::marked::{Marked, Unknown};
use crate::random::Random;
use crate::refusal::Refusal::{self, *};
use crate::selftest::{Tally, MIDDLE};
use crate::session::Session;
use crate::sizes::Sizes;
use crate::working::Encoder;

use super::cases::key;
use super::peels::full_records;

/// N of `MIDDLE`: the last of its three mark words has 48 bits past it.
const N: usize = 144;

fn empty() -> Session<Marked> {
    Session::open(&Encoder::new(MIDDLE).sealed(), MIDDLE.slot).expect("a sealed image")
}

/// Stuck, with known and unknown, peeled and handed flows, and with marks.
fn busy() -> Session<Marked> {
    let random = &mut Random::new(11);
    let header = good_filter(MIDDLE);
    let flows = random_flows(random, flows_at(header, 100));
    let flowset = encode(random, header, &flows);
    let mut session = Session::<Marked>::open(&flowset.sealed(), header.slot).expect("a sealed image");
    session.settle().expect("a session").expect("a clean flowset");
    for key in flowset.keys().iter().take(60) {
        let _ = session.hand_over(key);
    }
    session
}

/// Every call gives the refusal and keeps all memory.
fn refuses(tally: &mut Tally, name: &str, session: &Session<Marked>, refusal: Refusal) {
    let mut tried = session.clone();
    tally.met(refused_kind("session", refusal));
    tally.equal(name, tried.report(), Err(refusal));
    tally.equal(name, tried.settle(), Err(refusal));
    tally.equal(name, tried.hand_over(&key(1)), Err(refusal));
    let mut other = Session { header: Header { slot: 1, ..MIDDLE }, ..empty() };
    tally.equal(name, exchange(&mut tried, &mut other), Err(refusal));
    tally.equal(name, exchange(&mut other, &mut tried), Err(refusal));
    tally.holds(name, tried == *session);
    tally.holds(name, other == Session { header: Header { slot: 1, ..MIDDLE }, ..empty() });
}

fn accepts(tally: &mut Tally, name: &str, session: &Session<Marked>) {
    tally.holds(name, session.report().is_ok());
}

pub fn edges_of_eight(tally: &mut Tally) {
    let mut session = empty();
    session.engine.table.list = full_records(2 * N, N);
    accepts(tally, "2 N flows", &session);
    session.engine.table.list = full_records(2 * N + 1, N);
    refuses(tally, "2 N + 1 flows", &session, OverListed);

    session.engine.table.list = full_records(N + 1, N);
    accepts(tally, "N handed", &session);
    session.engine.table.list = full_records(N + 1, N + 1);
    refuses(tally, "N + 1 handed", &session, OverHanded);

    session.engine.table.list = full_records(N, 0);
    accepts(tally, "N peeled", &session);
    session.engine.table.cells[N - 1].flow_count = 2;
    refuses(tally, "N peeled and one open", &session, OverPeeled);
    session.engine.table.list = full_records(N, 1);
    accepts(tally, "N - 1 peeled and one open", &session);

    session.engine.table.list[5].count = 0;
    refuses(tally, "known count 0", &session, KnownZero);
    session.engine.table.list[5].count = u32::MAX;
    accepts(tally, "largest known count", &session);
    session.engine.table.list[N - 1].key = session.engine.table.list[0].key;
    refuses(tally, "first and last key equal", &session, Repeated);
}

pub fn marks_and_numbers(tally: &mut Tally) {
    let good = busy();
    let engine = &good.engine;
    let known = engine.table.list.iter().filter(|record| record.known).count();
    tally.holds("busy has known flows", known > 0 && known < engine.table.list.len());
    tally.holds("busy has marks", engine.marks.lowest().is_some());
    tally.holds("busy has two unknown flows in a cell", engine.unknown.iter().any(|unknown| unknown.number > 1));
    accepts(tally, "busy", &good);
    for bit in 0..3 * 64 {
        let mut session = good.clone();
        session.engine.marks.0[bit / 64] ^= 1 << (bit % 64);
        refuses(tally, &format!("mark {bit}"), &session, WrongMark);
    }
    for cell in 0..N {
        let right = good.engine.unknown[cell];
        let wrong_number = Unknown { number: right.number + 1, ..right };
        let wrong_positions = Unknown { positions: right.positions ^ 0x8000, ..right };
        for wrong in [wrong_number, wrong_positions] {
            let mut session = good.clone();
            session.engine.unknown[cell] = wrong;
            refuses(tally, &format!("numbers of cell {cell}"), &session, WrongNumber);
        }
    }
    // Not in the list of reasons: the stored count of an unknown flow.
    let mut session = good.clone();
    let unknown = session.engine.table.list.iter_mut().find(|record| !record.known).expect("busy has one");
    unknown.count = 3;
    accepts(tally, "stored count of an unknown flow", &session);
}

pub fn rooms(tally: &mut Tally) {
    let good = busy();
    for longer in [false, true] {
        let mut session = good.clone();
        resize(&mut session.filter, longer);
        refuses(tally, "filter room", &session, FilterRoom);
        let mut session = good.clone();
        resize(&mut session.engine.table.cells, longer);
        refuses(tally, "cells room", &session, CellsRoom);
        let mut session = good.clone();
        resize(&mut session.engine.marks.0, longer);
        refuses(tally, "marks room", &session, MarksRoom);
        let mut session = good.clone();
        resize(&mut session.engine.unknown, longer);
        refuses(tally, "numbers room", &session, NumbersRoom);
        session.engine.table.list[0].count = 0;
        refuses(tally, "16 before the rest of 8", &session, NumbersRoom);
        session.header.sizes.q = 17;
        refuses(tally, "8 for sizes before 16", &session, SessionSizes);
    }
    let sizes = good.header.sizes.to_bytes();
    for (at, wrong) in [(0, 0), (0, 9), (1, 0), (1, 17), (2, 1), (2, 5), (3, 0), (3, 17)] {
        let mut bytes = sizes;
        bytes[at] = wrong;
        let mut session = good.clone();
        session.header.sizes = Sizes::from_bytes(&bytes);
        refuses(tally, "sizes", &session, SessionSizes);
    }
}

fn resize<T: Copy>(items: &mut Vec<T>, longer: bool) {
    if longer {
        items.push(items[0]);
    } else {
        items.pop();
    }
}

pub fn order_in_exchange(tally: &mut Tally) {
    let (mut a, mut b) = (busy(), empty());
    b.header.slot += 1;
    let before = (a.clone(), b.clone());
    tally.equal("two slots", exchange(&mut a, &mut b), Err(OtherSlot));
    tally.met(refused_kind("exchange", OtherSlot));
    tally.holds("two slots, both kept", before == (a.clone(), b.clone()));
    b.header.slot -= 1;
    tally.holds("one slot", exchange(&mut a, &mut b).is_ok());

    let mut not_session = empty();
    not_session.engine.marks.0[0] = 1;
    let mut cramped = empty();
    cramped.filter.pop();
    let mut wrong_sizes = empty();
    wrong_sizes.header.sizes.kf = 0;
    for (a, b, refusal) in [
        (&not_session, &cramped, FilterRoom),
        (&cramped, &not_session, FilterRoom),
        (&cramped, &wrong_sizes, SessionSizes),
        (&wrong_sizes, &cramped, SessionSizes),
    ] {
        tally.equal("either's sizes, then either's room", exchange(&mut a.clone(), &mut b.clone()), Err(refusal));
    }
}
