//! Requests that only the library's C entry points answer: steps on a session, and printing into lent room.
//!
//! | op | payload | line |
//! |---|---|---|
//! | 11 sequence | session, then steps: 0 settle, 1 and a key hand over, 2 report | each step's number, with `:` and what else it tells; listed, and the memory |
//! | 12 print | length of the room for lines 3, standard input | `0` and the lines' bytes, or `16` |

use crate::answer::Answer;
use crate::bytes::{hex_word, u32_at};
use crate::engine::Damage;
use crate::key::KeyBytes;
use crate::layout::KEY_BYTES;
use crate::lent_session::LentSession;
use crate::marked::Marked;
use crate::print;
use crate::refusal::Refusal;
use crate::request::{Request, PRINT, SEQUENCE};
use crate::session::Session;
use crate::session_request::{session_bytes, take_session};

/// The very length of the room for lines: 61 bytes, and 59 for each of 3,072 flows.
pub const LINES: usize = 61 + 3_072 * 59;
/// The most room that a program under test must hold.
pub const MAX_LINES: usize = 262_144;
/// What stands before the image.
pub const PRINT_HEAD: usize = 7;

#[derive(Clone, PartialEq, Eq, Debug)]
pub enum Step {
    Settle,
    HandOver(KeyBytes),
    Report,
}

impl Step {
    fn to_bytes(&self) -> Vec<u8> {
        match self {
            Step::Settle => vec![0],
            Step::HandOver(key) => [&[1], &key[..]].concat(),
            Step::Report => vec![2],
        }
    }

    /// The first step and what is left.
    fn split_off(bytes: &[u8]) -> Option<(Step, &[u8])> {
        let (&kind, rest) = bytes.split_first()?;
        match kind {
            0 => Some((Step::Settle, rest)),
            1 => rest
                .split_at_checked(KEY_BYTES)
                .map(|(key, rest)| (Step::HandOver(key.try_into().expect("its length")), rest)),
            2 => Some((Step::Report, rest)),
            _ => None,
        }
    }
}

pub fn sequence_request(session: &LentSession, steps: &[Step]) -> Request {
    let steps: Vec<u8> = steps.iter().flat_map(Step::to_bytes).collect();
    Request::new(SEQUENCE, [session_bytes(session), steps].concat())
}

/// None if a length is wrong, or there is no step.
pub fn parse_sequence(mut payload: &[u8]) -> Option<(LentSession, Vec<Step>)> {
    let session = take_session(&mut payload)?;
    let mut steps = Vec::new();
    while !payload.is_empty() {
        let (step, rest) = Step::split_off(payload)?;
        steps.push(step);
        payload = rest;
    }
    (!steps.is_empty()).then_some((session, steps))
}

pub fn answer_sequence(payload: &[u8]) -> Answer {
    let Some((mut session, steps)) = parse_sequence(payload) else {
        return Answer::new("length", "sequence length");
    };
    let begun = session.listed;
    let (mut words, mut kinds) = (Vec::new(), Vec::new());
    for step in &steps {
        let before = session.listed;
        let (word, kind) = answer_step(&mut session, step);
        words.push(word);
        kinds.extend(session.edges(before).iter().map(|edge| format!("sequence {kind} {edge}")));
        kinds.push(format!("sequence {kind}"));
    }
    kinds.extend(session.edges(begun).iter().map(|edge| format!("sequence {edge}")));
    words.push(session.listed.to_string());
    words.extend(session.memory.words());
    Answer { line: words.join(" "), kinds }
}

/// The step's word, and the kind of its answer.
fn answer_step(session: &mut LentSession, step: &Step) -> (String, String) {
    match step {
        Step::Settle => match session.call(|session: &mut Session<Marked>| session.settle()) {
            Ok(Ok(())) => ("0".into(), "settle 0".into()),
            Ok(Err(Damage { refusal, cell })) => {
                (format!("{}:{cell}", refusal.number()), format!("settle {}", refusal.number()))
            }
            Err(refusal) => refused("settle", refusal),
        },
        Step::HandOver(key) => match session.call(|session: &mut Session<Marked>| session.hand_over(key)) {
            Ok(()) => ("0".into(), "hand-over 0".into()),
            Err(refusal) => refused("hand-over", refusal),
        },
        Step::Report => match session.call(|session: &mut Session<Marked>| session.report()) {
            Ok(report) => (
                format!("0:{}:{}:{}:{}", report.listed, report.counted, report.open, report.state),
                format!("report {}", report.state),
            ),
            Err(refusal) => refused("report", refusal),
        },
    }
}

fn refused(call: &str, refusal: Refusal) -> (String, String) {
    let number = refusal.number().to_string();
    let kind = format!("{call} {number}");
    (number, kind)
}

pub fn print_request(room: usize, input: &[u8]) -> Request {
    Request::new(PRINT, [&(room as u32).to_be_bytes()[1..], input].concat())
}

pub fn answer_print(payload: &[u8]) -> Answer {
    let room = payload.get(..3).map(|field| u32_at(&[0, field[0], field[1], field[2]], 0) as usize);
    match room {
        None => Answer::new("length", "print length"),
        Some(room) if room > MAX_LINES => Answer::new("length", "print length"),
        Some(LINES) => {
            let lines = print::print(&payload[3..]);
            let first = lines.lines().next().unwrap_or_default();
            let kind = if first.starts_with("refused") { first } else { first.rsplit(' ').next().unwrap_or_default() };
            Answer::new(format!("0 {}", hex_word(lines.as_bytes())), format!("print {kind}"))
        }
        Some(_) => Answer::new("16", "print 16"),
    }
}
