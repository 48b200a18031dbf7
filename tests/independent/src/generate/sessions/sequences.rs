//! Hand-overs, settlings and reports in any order on one session.

use super::faults::{dress, fault_of_turn, faulty};
use super::longest;
use super::samples::{stranger, Family, Sample};
use super::tables::{Left, Spoiled, Which};
use crate::counters::key_of;
use crate::flowsets::shuffle;
use crate::key::KeyBytes;
use crate::lent_session::LentSession;
use crate::random::Random;
use crate::request::Request;
use crate::sequence::{sequence_request, Step};

/// Their number has no factor in common with ten, so that every family has its turn.
const FAMILIES: [Family; 11] = [
    Family::Light,
    Family::Heavy,
    Family::Worked,
    Family::Driven,
    Family::Missed,
    Family::Damaged,
    Family::Spoiled(Spoiled::CountOver),
    Family::Twice,
    Family::Settled,
    Family::Overlooked,
    Family::Stray(Which::Middle, Left::LastByte),
];

/// Of ten, one has a list as long as it gets, one is no session, one has room for one hand-over only, one has steps that
/// do not fit the protocol.
pub fn request(random: &mut Random, turn: usize) -> Request {
    match turn % 10 {
        1 => longest::sequence(random, turn / 10),
        3 => {
            let (session, key) = faulty(random, fault_of_turn(turn / 10));
            sequence_request(&session, &[Step::Settle, Step::HandOver(key), Step::Report])
        }
        6 => {
            let sample = Sample::busy(random);
            let keys = keys_of(random, &sample);
            sequence_request(&sample.padded(random, 1).lent(), &steps(random, &keys))
        }
        9 => {
            let mut request = sequence_request(&Sample::of(Family::Light, random).lent(), &[Step::Report]);
            let last = request.payload.len() - 1;
            request.payload[last] = random.pick(&[1, 3, 255]);
            request
        }
        _ => {
            let (session, keys) = sound(random, FAMILIES[turn % FAMILIES.len()]);
            sequence_request(&session, &steps(random, &keys))
        }
    }
}

fn sound(random: &mut Random, family: Family) -> (LentSession, Vec<KeyBytes>) {
    let sample = Sample::of(family, random);
    let keys = keys_of(random, &sample);
    let mut session = sample.lent();
    dress(random, &mut session);
    (session, keys)
}

/// Its own flows, some twice, and some strangers.
fn keys_of(random: &mut Random, sample: &Sample) -> Vec<KeyBytes> {
    let mut keys: Vec<KeyBytes> = sample.flows.iter().map(key_of).collect();
    shuffle(random, &mut keys);
    let more: Vec<KeyBytes> = keys.iter().take(6).map(|key| stranger(random, key)).collect();
    let again: Vec<KeyBytes> = keys.iter().take(3).copied().collect();
    keys.truncate(12);
    keys.extend(more.into_iter().chain(again));
    shuffle(random, &mut keys);
    keys
}

fn steps(random: &mut Random, keys: &[KeyBytes]) -> Vec<Step> {
    let mut steps: Vec<Step> = Vec::new();
    for key in keys {
        match random.below(5) {
            0 => steps.push(Step::Settle),
            1 => steps.push(Step::Report),
            _ => steps.push(Step::HandOver(*key)),
        }
    }
    steps.extend([Step::Settle, Step::Report]);
    steps
}
