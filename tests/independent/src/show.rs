//! A request on sessions in words, for whoever looks for the reason of a difference.

use crate::bytes::hex;
use crate::layout::KEY_BYTES;
use crate::lent::{Slice, SLICES};
use crate::lent_session::LentSession;
use crate::request::{Request, EXCHANGE, HAND_OVER, OPEN, REPORT, SEQUENCE, SETTLE};
use crate::sequence::parse_sequence;
use crate::session_request::{parse_exchange, parse_hand_over, parse_session};

/// Nothing for other requests, and for those of a wrong length.
pub fn show_request(request: &Request) -> String {
    let payload = request.payload.as_slice();
    let shown = match request.op {
        HAND_OVER => parse_hand_over(payload).map(|(session, key)| show(&session) + &format!("key: {}\n", hex(&key))),
        EXCHANGE => parse_exchange(payload).map(|(a, b)| format!("A: {}B: {}", show(&a), show(&b))),
        SEQUENCE => parse_sequence(payload).map(|(session, steps)| show(&session) + &format!("steps: {steps:02x?}\n")),
        REPORT | SETTLE => parse_session(payload).map(|session| show(&session)),
        _ => None,
    };
    shown.unwrap_or_default()
}

/// The numbers, and of each slice the elements that are not 0.
fn show(session: &LentSession) -> String {
    let LentSession { header, listed, .. } = session;
    let [kf, f, k, q] = header.sizes.to_bytes();
    let first = format!("kf {kf}, F {f}, k {k}, q {q}, salt {}, slot {}, listed {listed}\n", header.salt, header.slot);
    SLICES.iter().fold(first, |text, &slice| text + &show_slice(session, slice))
}

fn show_slice(session: &LentSession, slice: Slice) -> String {
    let element_bytes = if matches!(slice, Slice::Xors | Slice::Keys) { KEY_BYTES } else { slice.width() };
    let elements = session.memory.bytes(slice).chunks(element_bytes).enumerate();
    let shown: String = elements
        .filter(|(_, bytes)| bytes.iter().any(|&byte| byte != 0))
        .map(|(number, bytes)| format!(" {number}:{}", hex(bytes)))
        .collect();
    format!("  {slice:?} of {}:{shown}\n", session.memory.lengths()[slice as usize])
}

/// The slice that the line's word of this number shows, if it is one of a memory's.
pub fn slice_of_word(op: u8, line: &str, word: usize) -> Option<Slice> {
    let memories = match op {
        EXCHANGE => 2,
        OPEN..=HAND_OVER | SEQUENCE => 1,
        _ => 0,
    };
    let from_end = line.split(' ').count().checked_sub(word + 1)?;
    (from_end < memories * SLICES.len()).then(|| SLICES[SLICES.len() - 1 - from_end % SLICES.len()])
}
