//! Exchanges of two switches, against the joint closure worked out from the flows themselves.

use std::collections::BTreeSet;

use crate::exchange::{exchange, Exchanged, Switch};
use crate::flow;
use crate::flowsets::{damage, encode, flows_at, good_filter, random_flows, random_header, Flowset};
use crate::image::Header;
use crate::ipv4::Ipv4;
use crate::key::KeyBytes;
use crate::marked::Marked;
use crate::random::Random;
use crate::selftest::Tally;
use crate::session::Session;
use crate::sizes::Sizes;

use super::clean::{known, never_stray, tell_truth};
use super::pair::meet_state;
use super::sequences::Both;

type Keys = BTreeSet<KeyBytes>;

pub fn clean_exchanges(tally: &mut Tally) {
    let (mut checked, mut helped) = (0, 0);
    for seed in 0..400 {
        let random = &mut Random::new(seed);
        let [a, b] = two_flowsets(random, seed, 3);
        if !(a.clean && b.clean) {
            continue;
        }
        let name = format!("exchange {seed}");
        let (after, exchanged) = exchange_both(tally, &a, &b, &name);
        let [listed_a, listed_b] = [&after[0], &after[1]].map(listed);
        // A stranger may pass filter and cells; then the promises do not hold.
        let strangers = !listed_a.is_subset(&counted(&a)) || !listed_b.is_subset(&counted(&b));
        if strangers {
            continue;
        }
        after.iter().for_each(|session| never_stray(tally, session, &name));
        if exchanged.handed_full > 0 {
            continue;
        }
        checked += 1;
        tally.equal(&name, exchanged.damage, None);
        let alone = [&a, &b].map(settled_alone);
        helped += usize::from(listed_a.len() > alone[0].list().len() || listed_b.len() > alone[1].list().len());
        tally.holds_in(&name, "joint closure", [listed_a, listed_b] == joint_closure(&a, &b));
        for ((session, alone), flowset) in after.iter().zip(&alone).zip([&a, &b]) {
            tell_truth(tally, session, flowset, &name);
            tally.holds_in(&name, "counts", known(session.list()) == known(alone.list()));
        }
    }
    println!("clean exchanges checked: {checked} of 400; {helped} of them found more than the switches alone");
    tally.holds("exchanges checked", checked > 200 && helped > 50);
}

pub fn damaged_exchanges(tally: &mut Tally) {
    for seed in 0..400 {
        let random = &mut Random::new(10_000 + seed);
        let [mut a, mut b] = two_flowsets(random, seed, 1);
        if random.once_in(2) {
            damage(random, &mut a.encoder);
        }
        if random.once_in(2) {
            damage(random, &mut b.encoder);
        }
        exchange_both(tally, &a, &b, &format!("damaged exchange {seed}"));
    }
}

/// A small table may be handed 48 of its 100 flows. The first round offers it those it has not peeled by itself, the
/// second those that it has not peeled even with the 48.
pub fn crowded_exchange(tally: &mut Tally) {
    let random = &mut Random::new(3);
    let small = Header { sizes: Sizes { kf: 5, f: 16, k: 2, q: 1 }, salt: 1, slot: 7 };
    let large = Header { sizes: Sizes { k: 4, q: 16, ..small.sizes }, ..small };
    let flows = random_flows(random, 100);
    let (a, b) = (encode(random, small, &flows), encode(random, large, &flows));
    let alone = settled_alone(&a).list().len();
    let (after, exchanged) = exchange_both(tally, &a, &b, "crowded exchange");
    tally.equal("crowded, listed", after[1].list().len(), 100);
    let peeled = after[0].list().len() - 48;
    tally.holds("crowded, some are peeled", peeled > alone);
    tally.equal("crowded, answers 12", exchanged.handed_full, (52 - alone) + (52 - peeled));
    tally.equal("crowded, no damage", exchanged.damage, None);
}

/// Two switches that share all, half or none of their flows.
fn two_flowsets(random: &mut Random, seed: u64, most_q: usize) -> [Flowset; 2] {
    let header = good_filter(random_header(random, most_q));
    let other = good_filter(Header { slot: header.slot, ..random_header(random, most_q) });
    let most = flows_at(header, random.between(10, 130));
    let flows = random_flows(random, 2 * most);
    let (own, others) = (&flows[..most], &flows[most..]);
    let of_other: Vec<Ipv4> = match seed % 3 {
        0 => own.to_vec(),
        1 => [&own[most / 2..], &others[..most / 2]].concat(),
        _ => others.to_vec(),
    };
    [encode(random, header, own), encode(random, other, &of_other)]
}

fn settled_alone(flowset: &Flowset) -> Session<Marked> {
    let mut session = Session::open(&flowset.sealed(), flowset.header().slot).expect("a sealed image");
    session.settle().expect("a session").expect("a clean flowset");
    session
}

fn listed(session: &Session<Marked>) -> Keys {
    session.list().iter().map(|record| record.key).collect()
}

fn counted(flowset: &Flowset) -> Keys {
    flowset.packets.keys().copied().collect()
}

/// With both engines, which must agree in everything.
fn exchange_both(tally: &mut Tally, a: &Flowset, b: &Flowset, name: &str) -> ([Session<Marked>; 2], Exchanged) {
    let mut a = Both::open(a, format!("{name} A"));
    let mut b = Both::open(b, format!("{name} B"));
    let exchanged = exchange(&mut a.marked, &mut b.marked).expect("two sessions");
    tally.equal(name, exchange(&mut a.rescanning, &mut b.rescanning), Ok(exchanged));
    for both in [&mut a, &mut b] {
        both.agree(tally);
        meet_state(tally, both.marked.report().expect("still a session"));
    }
    meet_exchange(tally, exchanged);
    ([a.marked, b.marked], exchanged)
}

fn meet_exchange(tally: &mut Tally, exchanged: Exchanged) {
    tally.met(match exchanged.damage {
        None => "exchange ok",
        Some((Switch::A, _)) => "exchange 14 at A",
        Some((Switch::B, _)) => "exchange 14 at B",
    });
    if exchanged.handed_full > 0 {
        tally.met("exchange with answers 12");
    }
}

/// Of fresh sessions: what peels, and the other's flows that were counted here, until nothing is added.
fn joint_closure(a: &Flowset, b: &Flowset) -> [Keys; 2] {
    let (counted_a, counted_b) = (counted(a), counted(b));
    let (mut at_a, mut at_b) = (Keys::new(), Keys::new());
    loop {
        let before = at_a.len() + at_b.len();
        peel_flows(a, &mut at_a);
        peel_flows(b, &mut at_b);
        at_b.extend(at_a.intersection(&counted_b).copied().collect::<Keys>());
        at_a.extend(at_b.intersection(&counted_a).copied().collect::<Keys>());
        if at_a.len() + at_b.len() == before {
            return [at_a, at_b];
        }
    }
}

/// Adds every flow that stands alone in a cell among those not yet listed.
fn peel_flows(flowset: &Flowset, listed: &mut Keys) {
    let Header { sizes, salt, .. } = flowset.header();
    loop {
        let mut flows_in = vec![Vec::new(); sizes.cells()];
        for key in flowset.packets.keys().filter(|key| !listed.contains(*key)) {
            flow::cells(sizes, salt, key).into_iter().for_each(|cell| flows_in[cell].push(*key));
        }
        let alone: Keys = flows_in.into_iter().filter(|flows| flows.len() == 1).flatten().collect();
        if alone.is_empty() {
            return;
        }
        listed.extend(alone);
    }
}
