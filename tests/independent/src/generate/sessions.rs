//! Requests on sessions, each call in turn. Every call goes through the sound sessions and through the faults by its
//! own turns, so that a stream of moderate length misses no answer.

mod exchanges;
mod faults;
mod hands;
mod longest;
pub mod opens;
mod samples;
pub mod sequences;
mod tables;

use crate::layout::KEY_BYTES;
use crate::lent::SLICES;
use crate::lent_session::LentSession;
use crate::random::Random;
use crate::request::{Request, EXCHANGE, HAND_OVER, OPEN, REPORT, SETTLE};
use crate::session_request::{exchange_request, hand_over_request, request_on, SESSION_HEAD};
use faults::{dress, fault_of_turn, faulty, two_faults};
use samples::{Family, Sample};
use tables::{Left, Spoiled, Which};

const CALLS: [u8; 5] = [OPEN, REPORT, SETTLE, HAND_OVER, EXCHANGE];

const REPORTED: [Family; 18] = [
    Family::Light,
    Family::Stray(Which::First, Left::FirstByte),
    Family::Settled,
    Family::Stray(Which::First, Left::LastByte),
    Family::Short,
    Family::Stray(Which::First, Left::Packets),
    Family::Heavy,
    Family::Stray(Which::Middle, Left::FirstByte),
    Family::Worked,
    Family::Stray(Which::Middle, Left::LastByte),
    Family::Full,
    Family::Stray(Which::Middle, Left::Packets),
    Family::Driven,
    Family::Stray(Which::Last, Left::FirstByte),
    Family::Padded,
    Family::Stray(Which::Last, Left::LastByte),
    Family::Damaged,
    Family::Stray(Which::Last, Left::Packets),
];

const SETTLED: [Family; 17] = [
    Family::Light,
    Family::Heavy,
    Family::Spoiled(Spoiled::PeelListed),
    Family::Worked,
    Family::Spoiled(Spoiled::PeelEmptyCell),
    Family::Driven,
    Family::Twice,
    Family::Spoiled(Spoiled::CountZero),
    Family::Missed,
    Family::Spoiled(Spoiled::CountOver),
    Family::Damaged,
    Family::Settled,
    Family::Short,
    Family::Padded,
    Family::Full,
    Family::Overlooked,
    Family::Stray(Which::Middle, Left::Packets),
];

/// Of ten on a session, one has a list as long as it gets; the others count their turns without these.
pub fn request(random: &mut Random, number: usize) -> Request {
    let (op, turn) = (CALLS[number % CALLS.len()], number / CALLS.len());
    if op != OPEN && turn % 10 == 9 {
        return longest::request(random, op, turn / 10);
    }
    let turn = if op == OPEN { turn } else { turn - turn / 10 };
    match op {
        _ if turn % 40 == 38 => wrong_length(random, op),
        OPEN => opens::request(random, turn),
        REPORT => on_session(random, op, turn, &REPORTED),
        SETTLE => on_session(random, op, turn, &SETTLED),
        HAND_OVER => hands::request(random, turn),
        _ => exchanges::request(random, turn),
    }
}

/// Sound and faulty by turns; now and then with two faults.
fn on_session(random: &mut Random, op: u8, turn: usize, families: &[Family]) -> Request {
    let choice = turn / 2;
    let session = if !turn.is_multiple_of(2) {
        faulty(random, fault_of_turn(choice)).0
    } else if choice % (families.len() + 1) == families.len() {
        two_faults(random, choice / (families.len() + 1)).0
    } else {
        let mut session = Sample::of(families[choice % (families.len() + 1)], random).lent();
        dress(random, &mut session);
        session
    };
    request_on(op, &session)
}

/// A payload that is not as long as it says, or says more than there is room for.
fn wrong_length(random: &mut Random, op: u8) -> Request {
    if op == OPEN {
        return opens::wrong_length(random);
    }
    let mut session = Sample::of(Family::Light, random).lent();
    if random.once_in(4) {
        let slice = random.pick(&SLICES);
        session.memory.resize(slice, slice.room() + 1);
        return request_with(op, &session);
    }
    let mut request = request_with(op, &session);
    match random.below(3) {
        0 => request.payload.push(0),
        1 => request.payload.truncate(random.below(SESSION_HEAD)),
        _ => {
            let cut = random.pick(&[1, 1, 2, 13, 14]);
            request.payload.truncate(request.payload.len() - cut);
        }
    }
    request
}

fn request_with(op: u8, session: &LentSession) -> Request {
    match op {
        HAND_OVER => hand_over_request(session, &[0; KEY_BYTES]),
        EXCHANGE => exchange_request(session, session),
        _ => request_on(op, session),
    }
}
