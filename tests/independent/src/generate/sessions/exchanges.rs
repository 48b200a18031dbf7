//! Exchanges of two switches that share all, half or none of their flows, sound or not on either side.

use super::faults::{dress, fault_of_turn, faulty, two_ranked, with_fault};
use super::samples::{Family, Sample};
use super::tables::{self, Spoiled, Table};
use crate::bytes::{put_u16, u16_at};
use crate::exchange::exchange;
use crate::flowsets::{damage, random_flows};
use crate::image::Header;
use crate::ipv4::Ipv4;
use crate::layout::FLOW_COUNT;
use crate::lent_session::LentSession;
use crate::random::Random;
use crate::request::Request;
use crate::session_request::exchange_request;
use crate::sizes::Sizes;
use crate::working::Encoder;

/// Faults go by turns as in the other calls, and each is on the other side than the one before.
pub fn request(random: &mut Random, turn: usize) -> Request {
    let [a, b] = match (turn % 2, turn / 2 % 16) {
        (1, _) => one_fault(random, turn / 2),
        (_, choice @ 0..12) => sound(random, choice),
        (_, choice) => two_faults(random, choice),
    };
    exchange_request(&a, &b)
}

fn one_fault(random: &mut Random, turn: usize) -> [LentSession; 2] {
    let sample = Sample::busy(random);
    let key = sample.acceptable(random).expect("a busy session has one");
    let mut other = Sample::open(partner(random, &sample, 50)).worked(random).lent();
    if random.once_in(4) {
        other.header.slot ^= 1;
    }
    let faulty = with_fault(random, sample, fault_of_turn(turn), &key);
    in_order([faulty, other], turn)
}

/// One on each side, and the slots may differ: the earlier test goes first wherever its fault is.
fn two_faults(random: &mut Random, choice: usize) -> [LentSession; 2] {
    let sessions = two_ranked(random, choice / 2).map(|fault| faulty(random, fault).0);
    in_order(sessions, choice)
}

fn sound(random: &mut Random, choice: usize) -> [LentSession; 2] {
    let samples = match choice {
        0 => fresh(random, 100),
        1 => fresh(random, 50),
        2 => fresh(random, 0),
        3 => crowded(random, false),
        4 => crowded_and_damaged(random),
        5 | 6 => spoiled(random),
        7 | 8 => fresh(random, 70).map(|sample| sample.worked(random)),
        9 => missed(random),
        10 => fresh(random, 50).map(|sample| sample.padded(random, 2)),
        _ => damaged(random),
    };
    let mut sessions = samples.map(|sample| sample.lent());
    sessions.iter_mut().for_each(|session| dress(random, session));
    if choice == 7 {
        sessions[1].header.slot ^= 1 << random.below(32);
    }
    // What is spoiled is met at A and at B.
    in_order(sessions, choice)
}

fn in_order<T>([a, b]: [T; 2], turn: usize) -> [T; 2] {
    if turn.is_multiple_of(2) {
        [a, b]
    } else {
        [b, a]
    }
}

fn fresh(random: &mut Random, shared: usize) -> [Sample; 2] {
    let a = Sample::open(tables::clean(random, (5, 130)));
    let b = Sample::open(partner(random, &a, shared));
    [a, b]
}

/// Of the same slot, mostly with other sizes and another salt; so many hundredths of its flows are shared.
fn partner(random: &mut Random, of: &Sample, shared: usize) -> Table {
    let header = partner_header(random, of);
    let mut flows = tables::flows_for(random, header, (5, 130));
    let shared = (flows.len() * shared / 100).min(of.flows.len());
    flows[..shared].clone_from_slice(&of.flows[..shared]);
    tables::of_flows(random, header, flows)
}

fn partner_header(random: &mut Random, of: &Sample) -> Header {
    if random.once_in(4) {
        of.session.header
    } else {
        Header { slot: of.session.header.slot, ..tables::header(random) }
    }
}

/// The small table has twice as many flows as cells, and the large one finds them all: more than N are offered.
fn crowded(random: &mut Random, damaged: bool) -> [Sample; 2] {
    let small = Header { sizes: Sizes { kf: 5, f: 2, k: 2, q: 1 }, salt: random.u32(), slot: 7 };
    let large = Header { sizes: Sizes { k: 4, q: 2, ..small.sizes }, salt: random.u32(), slot: 7 };
    let count = random.between(96, 110);
    let flows: Vec<Ipv4> = random_flows(random, count);
    let mut small = tables::of_flows(random, small, flows.clone());
    if damaged {
        lose_flows(&mut small.flowset.encoder);
    }
    [small, tables::of_flows(random, large, flows)].map(Sample::open)
}

/// The damage is met after answers of 12.
fn crowded_and_damaged(random: &mut Random) -> [Sample; 2] {
    loop {
        let samples = crowded(random, true);
        let [mut a, mut b] = samples.each_ref().map(|sample| sample.session.clone());
        if exchange(&mut a, &mut b).is_ok_and(|ended| ended.damage.is_some() && ended.handed_full > 0) {
            return samples;
        }
    }
}

/// Every second cell that is full enough to hide it counts one flow too few: it shows only after hand-overs.
fn lose_flows(encoder: &mut Encoder) {
    for number in (0..encoder.header.sizes.cells()).step_by(2) {
        let flows = &mut encoder.cell(number)[FLOW_COUNT];
        let count = u16_at(flows, 0);
        if count > 2 {
            put_u16(flows, 0, count - 1);
        }
    }
}

fn spoiled(random: &mut Random) -> [Sample; 2] {
    use Spoiled::*;
    let spoiled = [PeelListed, PeelEmptyCell, CountZero, CountOver].map(Family::Spoiled);
    let family = if random.once_in(5) { Family::Twice } else { random.pick(&spoiled) };
    let a = Sample::of(family, random);
    let b = Sample::open(partner(random, &a, 50));
    [a, b]
}

fn missed(random: &mut Random) -> [Sample; 2] {
    let a = Sample::open(tables::missed(random));
    let b = Sample::open(partner(random, &a, 60));
    [a, b]
}

fn damaged(random: &mut Random) -> [Sample; 2] {
    let a = Sample::open(tables::damaged(random));
    let mut other = partner(random, &a, 60);
    if random.once_in(2) {
        damage(random, &mut other.flowset.encoder);
    }
    [a, Sample::open(other)]
}
