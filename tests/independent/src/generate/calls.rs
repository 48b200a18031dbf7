//! Requests for the library's C entry points: those of the other programs that it has a call for, steps on a session, and printing.

use super::sessions::sequences;
use super::{printing_inputs, requests, session_requests};
use crate::random::Random;
use crate::request::{Request, HASH, PLACES};
use crate::sequence::{print_request, LINES, MAX_LINES};

/// Of each kind `count`, but for those that the library has no call for.
pub fn call_requests(seed: u64, count: usize) -> Vec<Request> {
    let random = &mut Random::new(seed);
    let mut all = requests(seed, count);
    all.extend(session_requests(seed, count));
    all.extend((0..count / 4).map(|number| sequences::request(random, number)));
    all.extend(printing_inputs(seed, count / 8).iter().enumerate().map(|(number, input)| printing(number, input)));
    all.retain(|request| ![HASH, PLACES].contains(&request.op));
    all
}

/// One in ten has room of another length, each in its turn; the last is more than a program under test must hold.
fn printing(number: usize, input: &[u8]) -> Request {
    let other = [0, LINES - 1, LINES + 1, 1, MAX_LINES, MAX_LINES + 1];
    let room = if number % 10 == 9 { other[number / 10 % other.len()] } else { LINES };
    print_request(room, input)
}
