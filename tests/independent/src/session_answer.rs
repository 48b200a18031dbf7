//! The lines of the requests on sessions. Every line but `length` ends with the memory, ten words for each session.
//!
//! | op | line before the memory |
//! |---|---|
//! | 6 open | number and block, and for 0 kf, F, k, q, salt, slot and listed |
//! | 7 report | `0` with listed, counted, open and state, or a number |
//! | 8 settle | `0` with listed, 14 with listed and cell, or a number |
//! | 9 hand-over | `0` with listed, or a number |
//! | 10 exchange | `0`, or 14 with switch and cell, and then the answers 12 and both listed; or a number |
//!
//! The first kind of an answer is its call and number, so that these add up to the requests; the others say why, and
//! where a list is as long as it gets.

use crate::answer::{call_name, Answer};
use crate::engine::Damage;
use crate::exchange::{exchange, Exchanged};
use crate::image::{self, Header, ReadRefusal};
use crate::key::KeyBytes;
use crate::lent::Lent;
use crate::lent_session::{LentSession, Resumed};
use crate::refusal::Refusal;
use crate::report::State;
use crate::request::{Request, EXCHANGE, HAND_OVER, OPEN, REPORT, SETTLE};
use crate::session::Session;
use crate::session_request::{parse_exchange, parse_hand_over, parse_session, Open};

pub fn answer<E: Resumed>(request: &Request) -> Answer {
    let payload = request.payload.as_slice();
    let answer = match request.op {
        OPEN => Open::parse(payload).map(|asked| open::<E>(&asked)),
        REPORT => parse_session(payload).map(|session| report::<E>(&session)),
        SETTLE => parse_session(payload).map(|session| settle::<E>(&session)),
        HAND_OVER => parse_hand_over(payload).map(|(session, key)| hand_over::<E>(&session, &key)),
        EXCHANGE => parse_exchange(payload).map(|(a, b)| exchange_both::<E>(&a, &b)),
        _ => None,
    };
    answer.unwrap_or_else(|| Answer::new("length", kind(call_name(request.op), "length")))
}

fn kind(call: &str, answer: impl std::fmt::Display) -> String {
    format!("{call} {answer}")
}

/// The number, and where that leaves each session's list; with how many were listed before.
fn kinds_of(call: &str, number: u8, sessions: &[(u32, &LentSession)]) -> Vec<String> {
    let edges = sessions.iter().flat_map(|(before, after)| after.edges(*before));
    let with_edges = edges.map(|edge| kind(call, format!("{number} {edge}")));
    std::iter::once(kind(call, number)).chain(with_edges).collect()
}

fn line(words: String, memories: &[&Lent], kinds: Vec<String>) -> Answer {
    let words: Vec<String> = std::iter::once(words).chain(memories.iter().flat_map(|memory| memory.words())).collect();
    Answer { line: words.join(" "), kinds }
}

fn open<E: Resumed>(asked: &Open) -> Answer {
    let before = Lent::noise(asked.lengths, asked.seed);
    let refused = |refusal: Refusal, block: usize, why: String| {
        let number = refusal.number();
        line(
            format!("{number} {block}"),
            &[&before],
            vec![kind("open", number), kind("open", format!("{number} {why}"))],
        )
    };
    let header = match image::read(&asked.image, asked.wanted_slot) {
        Ok(header) => header,
        Err(ReadRefusal { refusal, block }) => {
            return refused(refusal, block, if block == 0 { "block 0" } else { "later block" }.into());
        }
    };
    let mut opened = LentSession { header, listed: 0, memory: before.clone() };
    if let Err(refusal) = opened.check_lengths() {
        return refused(refusal, 0, format!("{refusal:?}"));
    }
    let session = Session::<E>::open(&asked.image, asked.wanted_slot).expect("it was read");
    opened.clear_list();
    opened.keep(&session);
    let Header { sizes, salt, slot } = opened.header;
    let words = format!("0 0 {} {} {} {} {salt} {slot} {}", sizes.kf, sizes.f, sizes.k, sizes.q, opened.listed);
    line(words, &[&opened.memory], vec![kind("open", 0)])
}

fn report<E: Resumed>(before: &LentSession) -> Answer {
    let mut after = before.clone();
    let (words, kinds) = match after.call(|session: &mut Session<E>| session.report()) {
        Ok(report) => {
            let mut kinds = kinds_of("report", 0, &[(before.listed, &after)]);
            kinds.push(kind("report", format!("0 {}", report.state)));
            if report.state == State::Stray {
                kinds.extend(after.only_rest().map(|rest| kind("report", format!("0 stray, {rest}"))));
            }
            (format!("0 {} {} {} {}", report.listed, report.counted, report.open, report.state), kinds)
        }
        Err(refusal) => refused("report", refusal, &[before]),
    };
    line(words, &[&after.memory], kinds)
}

fn settle<E: Resumed>(before: &LentSession) -> Answer {
    let mut after = before.clone();
    let answer = after.call(|session: &mut Session<E>| session.settle());
    let (words, kinds) = match answer {
        Ok(Ok(())) => (format!("0 {}", after.listed), kinds_of("settle", 0, &[(before.listed, &after)])),
        Ok(Err(Damage { refusal, cell })) => {
            let number = refusal.number();
            let mut kinds = kinds_of("settle", number, &[(before.listed, &after)]);
            kinds.push(kind("settle", format!("{number} {refusal:?}")));
            (format!("{number} {} {cell}", after.listed), kinds)
        }
        Err(refusal) => refused("settle", refusal, &[before]),
    };
    line(words, &[&after.memory], kinds)
}

fn hand_over<E: Resumed>(before: &LentSession, key: &KeyBytes) -> Answer {
    let mut after = before.clone();
    let answer = after.call(|session: &mut Session<E>| session.hand_over(key));
    let (words, kinds) = match answer {
        Ok(()) => (format!("0 {}", after.listed), kinds_of("hand-over", 0, &[(before.listed, &after)])),
        Err(refusal) => refused("hand-over", refusal, &[before]),
    };
    line(words, &[&after.memory], kinds)
}

fn exchange_both<E: Resumed>(before_a: &LentSession, before_b: &LentSession) -> Answer {
    let (mut a, mut b) = (before_a.clone(), before_b.clone());
    let (words, kinds) = match exchange_lent::<E>(&mut a, &mut b) {
        Ok(exchanged) => {
            let sessions = [(before_a.listed, &a), (before_b.listed, &b)];
            (exchanged_words(exchanged, a.listed, b.listed), exchanged_kinds(exchanged, &sessions))
        }
        Err(refusal) => refused("exchange", refusal, &[before_a, before_b]),
    };
    line(words, &[&a.memory, &b.memory], kinds)
}

/// Each test is made of both sessions before the next.
fn exchange_lent<E: Resumed>(a: &mut LentSession, b: &mut LentSession) -> Result<Exchanged, Refusal> {
    a.check_sizes().and(b.check_sizes())?;
    a.check_lengths().and(b.check_lengths())?;
    let (mut at_a, mut at_b) = (a.session::<E>()?, b.session::<E>()?);
    let answer = exchange(&mut at_a, &mut at_b);
    a.keep(&at_a);
    b.keep(&at_b);
    answer
}

fn exchanged_words(Exchanged { handed_full, damage }: Exchanged, listed_a: u32, listed_b: u32) -> String {
    let ended = match damage {
        None => "0".into(),
        Some((switch, Damage { refusal, cell })) => format!("{} {switch:?} {cell}", refusal.number()),
    };
    format!("{ended} {handed_full} {listed_a} {listed_b}")
}

fn exchanged_kinds(Exchanged { handed_full, damage }: Exchanged, sessions: &[(u32, &LentSession)]) -> Vec<String> {
    let number = damage.map_or(0, |(_, damage)| damage.refusal.number());
    let mut kinds = kinds_of("exchange", number, sessions);
    if let Some((switch, _)) = damage {
        kinds.push(kind("exchange", format!("{number} at {switch:?}")));
    }
    if handed_full > 0 {
        kinds.push(kind("exchange", format!("{number} with answers 12")));
    }
    kinds
}

/// The number alone, and its kinds: with the reason, where it is the only one and a test of the session found it.
fn refused(call: &str, refusal: Refusal, sessions: &[&LentSession]) -> (String, Vec<String>) {
    let number = refusal.number();
    let kept: Vec<(u32, &LentSession)> = sessions.iter().map(|session| (session.listed, *session)).collect();
    let mut kinds = kinds_of(call, number, &kept);
    match faults(sessions)[..] {
        [] => {}
        [(session, fault)] => {
            kinds.push(kind(call, format!("{number} {fault:?}")));
            let edges = sessions[session].edges(sessions[session].listed);
            let open = if sessions[session].has_open_cell() { "a cell open" } else { "none open" };
            for edge in edges {
                kinds.push(kind(call, format!("{number} {fault:?} {edge}")));
                kinds.push(kind(call, format!("{number} {fault:?} {edge}, {open}")));
            }
            if sessions.len() > 1 {
                kinds.push(kind(call, format!("{number} at {}", ["A", "B"][session])));
            }
        }
        _ => kinds.push(kind(call, format!("{number} for several reasons"))),
    }
    (number.to_string(), kinds)
}

/// What the first of the tests that finds a fault finds: all of it, each with the session's number.
fn faults(sessions: &[&LentSession]) -> Vec<(usize, Refusal)> {
    let tests: [fn(&LentSession) -> Vec<Refusal>; 3] = [
        |session| session.check_sizes().err().into_iter().collect(),
        |session| session.check_lengths().err().into_iter().collect(),
        LentSession::reasons,
    ];
    let found = |test: fn(&LentSession) -> Vec<Refusal>| -> Vec<(usize, Refusal)> {
        let of_one = |(number, session)| test(session).into_iter().map(move |fault| (number, fault));
        sessions.iter().copied().enumerate().flat_map(of_one).collect()
    };
    tests.into_iter().map(found).find(|faults| !faults.is_empty()).unwrap_or_default()
}
