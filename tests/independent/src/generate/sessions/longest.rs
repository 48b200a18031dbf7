//! Lists as long as they get, and what lies on either side. The test of 8 lets 2 N listed flows pass: N handed, N peeled,
//! and no cell open. No call makes such a list: a flow is taken out of k open cells, beside which at most N - k flows are
//! peeled. So a hand-over ends with 2 N - k listed at most, and a peel with 2 N - k + 1.

use super::faults::dress;
use super::samples::{stranger, Family, Sample};
use super::tables;
use crate::counters::key_of;
use crate::flowsets::{random_flow, random_flows, shuffle};
use crate::fresh::Fresh;
use crate::generate::images::some_place;
use crate::image::Header;
use crate::key::KeyBytes;
use crate::lent_session::LentSession;
use crate::marked::Marked;
use crate::places::Hashed;
use crate::random::Random;
use crate::request::{Request, EXCHANGE, HAND_OVER};
use crate::rescanning::Rescanning;
use crate::sequence::{sequence_request, Step};
use crate::session_request::{exchange_request, hand_over_request, request_on};
use crate::sizes::Sizes;
use crate::table::Record;

/// Of report, settle, hand-over or exchange: eight of each, by turns.
pub fn request(random: &mut Random, op: u8, turn: usize) -> Request {
    match op {
        HAND_OVER => {
            let (sample, key) = handing(random, turn);
            hand_over_request(&dressed(random, &sample), &key)
        }
        EXCHANGE => {
            let [a, b] = exchanging(random, turn).map(|sample| dressed(random, &sample));
            exchange_request(&a, &b)
        }
        _ => {
            let sample = settling(random, turn);
            request_on(op, &dressed(random, &sample))
        }
    }
}

fn dressed(random: &mut Random, sample: &Sample) -> LentSession {
    let mut session = sample.lent();
    dress(random, &mut session);
    session
}

/// With 2 N listed; with one more of anything; and where a settling meets damage beside the last record, or peels as many
/// as it can.
fn settling(random: &mut Random, turn: usize) -> Sample {
    match turn % 8 {
        0 => counted(random),
        1 => last_unknown(random),
        2 => one_more_handed(random),
        3 => one_more_peeled(random),
        4 => one_more_open(random),
        5 => last_record(random),
        6 => one_flow(random).padded(random, 0),
        _ => handed_all(random, 0).0,
    }
}

/// 9, 10 and 11 with 2 N listed, where 11 goes before 12; 8; hand-over N and the one after it, beside as many peeled flows
/// as there can be, and in a session that calls alone have made.
fn handing(random: &mut Random, turn: usize) -> (Sample, KeyBytes) {
    match turn % 8 {
        0 => {
            let sample = listed_2n(random);
            let key = stranger(random, &own_key(&sample, 0));
            (sample, key)
        }
        1 => {
            let mut sample = listed_2n(random);
            sample.session.filter.fill(255);
            let list = sample.session.list();
            let key = list[some_place(list.len(), random)].key;
            (sample, key)
        }
        2 => {
            let mut sample = listed_2n(random);
            sample.session.filter.fill(255);
            let key = stranger(random, &own_key(&sample, 0));
            (sample, key)
        }
        3 => keyed(one_more_handed(random)),
        4 if random.once_in(2) => keyed(one_more_peeled(random)),
        4 => keyed(one_more_open(random)),
        5 => keyed(sharing_cells(random).padded(random, 1)),
        6 => keyed(sharing_cells(random).padded(random, 0)),
        _ => {
            let left = random.below(2);
            handed_all(random, left)
        }
    }
}

/// On either side; where the answer is 8, the slots may differ.
fn exchanging(random: &mut Random, turn: usize) -> [Sample; 2] {
    let mut samples = match turn % 8 {
        0 => [listed_2n(random), light(random)],
        1 => [counted(random), last_unknown(random)],
        2 => [one_more_handed(random), light(random)],
        3 if random.once_in(2) => [one_more_peeled(random), light(random)],
        3 => [one_more_open(random), light(random)],
        4 => [one_flow(random).padded(random, 0), light(random)],
        5 => with_knowing(random, 0),
        6 => with_knowing(random, 1),
        _ => [last_record(random), counted(random)],
    };
    samples[1].session.header.slot = samples[0].session.header.slot;
    if matches!(turn % 8, 2 | 3) && random.once_in(4) {
        samples[1].session.header.slot ^= 1;
    }
    if random.once_in(2) {
        samples.swap(0, 1);
    }
    samples
}

fn light(random: &mut Random) -> Sample {
    Sample::of(Family::Light, random)
}

/// A crowded one, and a neighbour that finds its first N flows and so many of the others.
fn with_knowing(random: &mut Random, others: usize) -> [Sample; 2] {
    let sample = crowded(random);
    let mut flows = sample.flows[..sample.n() + others].to_vec();
    shuffle(random, &mut flows);
    loop {
        let header = Header { sizes: Sizes { kf: 5, f: 4, k: 4, q: 2 }, salt: random.u32(), ..sample.session.header };
        let other = Sample::open(tables::of_flows(random, header, flows.clone()));
        let mut settled = other.session.clone();
        if settled.settle() == Ok(Ok(())) && settled.list().len() == flows.len() {
            return [sample, other];
        }
    }
}

/// Of three, one begins with an image and comes to its longest list by calls alone, one stands just before N handed, and
/// one has 2 N listed.
pub fn sequence(random: &mut Random, turn: usize) -> Request {
    let (sample, steps) = match turn % 3 {
        0 => from_image(random),
        1 => {
            let sample = sharing_cells(random).padded(random, 1);
            let [first, second] = [0, 1].map(|number| Step::HandOver(own_key(&sample, number)));
            let steps = [Step::Settle, first, second.clone(), Step::Report, Step::Settle, Step::Report, second];
            (sample, steps.to_vec())
        }
        _ => {
            let mut sample = listed_2n(random);
            sample.session.filter.fill(255);
            let listed = Step::HandOver(sample.session.list()[2 * sample.n() - 1].key);
            let [outside, passed] = [0, 1].map(|_| key_of(&random_flow(random)));
            let sample = sample.without_bit(random, &outside);
            let [outside, passed] = [outside, passed].map(Step::HandOver);
            (sample, vec![Step::Report, outside, listed, passed, Step::Settle, Step::Report])
        }
    };
    sequence_request(&dressed(random, &sample), &steps)
}

fn from_image(random: &mut Random) -> (Sample, Vec<Step>) {
    let sample = crowded(random);
    let keys: Vec<KeyBytes> = sample.flows.iter().map(key_of).collect();
    let (handed, others) = keys.split_at(sample.n());
    let other = Step::HandOver(random.pick(others));
    let mut steps = vec![Step::Settle];
    steps.extend(handed.iter().copied().map(Step::HandOver));
    steps.extend([other.clone(), Step::Report, Step::Settle, Step::Report, other, Step::Settle]);
    (sample, steps)
}

fn header(random: &mut Random, f: u8) -> Header {
    let sizes = Sizes { kf: 5, f, k: random.between(2, 4) as u8, q: 1 };
    Header { sizes, salt: random.u32(), slot: random.pick(&[0, 7, 0x8000_0001]) }
}

/// Opened, with one flow; seldom the largest.
fn one_flow(random: &mut Random) -> Sample {
    let mut header = header(random, 1);
    if random.once_in(12) {
        header.sizes = Sizes { f: 1, ..Sizes::LARGEST };
    }
    let flows = random_flows(random, 1);
    Sample::open(tables::of_flows(random, header, flows))
}

/// Opened, with 2 N - k + 1 flows: once the first N are handed over, the others peel.
fn crowded(random: &mut Random) -> Sample {
    let header = header(random, 4);
    Sample::open(tables::longest(random, header))
}

/// Opened, with two flows that have the same cells.
fn sharing_cells(random: &mut Random) -> Sample {
    let header = header(random, 1);
    let flows = tables::sharing_cells(random, header);
    Sample::open(tables::of_flows(random, header, flows))
}

fn own_key(sample: &Sample, number: usize) -> KeyBytes {
    key_of(&sample.flows[number])
}

/// With its first flow, to be handed over.
fn keyed(sample: Sample) -> (Sample, KeyBytes) {
    let key = own_key(&sample, 0);
    (sample, key)
}

/// A crowded one with N flows handed but for `left`, and the flow to be handed over next.
fn handed_all(random: &mut Random, left: usize) -> (Sample, KeyBytes) {
    let mut sample = crowded(random);
    let handed = sample.n() - left;
    for number in 0..handed {
        sample.session.hand_over(&own_key(&sample, number)).expect("a counted flow");
    }
    let key = own_key(&sample, handed);
    (sample, key)
}

fn listed_2n(random: &mut Random) -> Sample {
    if random.once_in(2) {
        counted(random)
    } else {
        last_unknown(random)
    }
}

/// 2 N listed, with all counts.
fn counted(random: &mut Random) -> Sample {
    one_flow(random).settled().padded(random, 0)
}

/// 2 N listed; the last one has no count yet, and its cells have its packets.
fn last_unknown(random: &mut Random) -> Sample {
    let mut sample = one_flow(random);
    sample.session.hand_over(&own_key(&sample, 0)).expect("a counted flow");
    let mut sample = sample.padded(random, 0);
    sample.session.engine.table.list.reverse();
    renewed(sample)
}

/// With the marks and per-cell numbers that cells and list give.
fn renewed(mut sample: Sample) -> Sample {
    let Header { sizes, salt, .. } = sample.session.header;
    let table = sample.session.engine.table;
    let Fresh { plain, marks, unknown } = Fresh::look(&Hashed::new(sizes, salt), Rescanning { table });
    sample.session.engine = Marked { table: plain.table, marks, unknown };
    sample
}

/// 2 N listed, of which N + 1 are handed; no cell is open, or one.
fn one_more_handed(random: &mut Random) -> Sample {
    if random.once_in(2) {
        turned(random, true)
    } else {
        no_room(random, true)
    }
}

/// 2 N listed, of which N + 1 are peeled.
fn one_more_peeled(random: &mut Random) -> Sample {
    turned(random, false)
}

fn turned(random: &mut Random, handed: bool) -> Sample {
    let mut sample = listed_2n(random);
    let list = &mut sample.session.engine.table.list;
    let others: Vec<usize> = (0..list.len()).filter(|&position| list[position].handed != handed).collect();
    list[others[some_place(others.len(), random)]].handed = handed;
    sample
}

/// 2 N listed, of which N are peeled, beside an open cell.
fn one_more_open(random: &mut Random) -> Sample {
    no_room(random, false)
}

/// 2 N listed and a cell marked: were it not for the test of 8, a peel would find no room.
fn no_room(random: &mut Random, handed: bool) -> Sample {
    let mut sample = last_record(random);
    let key = std::array::from_fn(|_| random.byte());
    sample.session.engine.table.list.push(Record { key, count: 1, known: true, handed });
    sample
}

/// 2 N - 1 listed, and one open cell, which is pure: its flow's other cells are empty, so it is damage and no peel.
fn last_record(random: &mut Random) -> Sample {
    let mut sample = one_flow(random);
    let cells = &mut sample.session.engine.table.cells;
    let open: Vec<usize> = (0..cells.len()).filter(|&cell| cells[cell].is_open()).collect();
    let left = random.pick(&open);
    open.into_iter().filter(|&cell| cell != left).for_each(|cell| cells[cell].flow_count = 0);
    renewed(sample).padded(random, 0)
}
