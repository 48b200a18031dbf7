//! Hand-overs: each answer, and at N handed those that go before 12.

use super::faults::{dress, fault_of_turn, faulty, two_faults};
use super::samples::{stranger, Family, Sample};
use crate::key::KeyBytes;
use crate::layout::KEY_BYTES;
use crate::lent_session::LentSession;
use crate::random::Random;
use crate::request::Request;
use crate::session_request::hand_over_request;

pub fn request(random: &mut Random, turn: usize) -> Request {
    let (session, key) = match (turn % 2, turn / 2 % 15) {
        (1, _) => faulty(random, fault_of_turn(turn / 2)),
        (_, 14) => two_faults(random, turn / 30),
        (_, choice) => sound(random, choice),
    };
    hand_over_request(&session, &key)
}

fn sound(random: &mut Random, choice: usize) -> (LentSession, KeyBytes) {
    let (sample, key) = match choice {
        0 => unlisted(random, Family::Light),
        1 => unlisted(random, Family::Heavy),
        2 => unlisted(random, Family::Worked),
        3 => listed(random, Family::Settled),
        4 => foreign(random, Family::Worked),
        5 => passed(random, Family::Light),
        6 => passed(random, Family::Settled),
        7 => unlisted(random, Family::Driven),
        8 => match random.below(3) {
            0 => listed(random, Family::Driven),
            1 => foreign(random, Family::Driven),
            _ => passed(random, Family::Driven),
        },
        9 => at_edge(random, 1),
        10 => at_edge(random, 0),
        11 => {
            let sample = Sample::busy(random);
            let key = sample.acceptable(random).expect("a busy session has one");
            (sample.without_bit(random, &key), key)
        }
        12 => {
            let (sample, key) = listed(random, Family::Short);
            (sample.without_bit(random, &key), key)
        }
        _ => {
            let family = random.pick(&[Family::Full, Family::Padded, Family::Damaged, Family::Missed]);
            unlisted(random, family)
        }
    };
    let mut session = sample.lent();
    dress(random, &mut session);
    (session, key)
}

/// One of its own flows. Where all are listed, the key of zeros stands for it.
fn unlisted(random: &mut Random, family: Family) -> (Sample, KeyBytes) {
    let sample = Sample::of(family, random);
    let key = sample.unlisted(random).unwrap_or([0; KEY_BYTES]);
    (sample, key)
}

fn listed(random: &mut Random, family: Family) -> (Sample, KeyBytes) {
    let sample = Sample::of(family, random);
    let key = sample.listed(random).unwrap_or([0; KEY_BYTES]);
    (sample, key)
}

fn foreign(random: &mut Random, family: Family) -> (Sample, KeyBytes) {
    let (sample, own) = unlisted(random, family);
    (sample, stranger(random, &own))
}

/// A foreign flow where the filter passes all, so that the cells decide.
fn passed(random: &mut Random, family: Family) -> (Sample, KeyBytes) {
    let (mut sample, key) = foreign(random, family);
    sample.session.filter.fill(255);
    (sample, key)
}

/// A good flow where so many may still be handed over.
fn at_edge(random: &mut Random, left: usize) -> (Sample, KeyBytes) {
    let sample = Sample::busy(random);
    let key = sample.acceptable(random).expect("a busy session has one");
    (sample.padded(random, left), key)
}
