//! Requests on sessions, answered with both engines.

use std::collections::BTreeSet;

use crate::answer::Answer;
use crate::counters::key_of;
use crate::expected::{expected_call_kinds, expected_session_kinds};
use crate::flowsets::{damage, encode, flows_at, random_flow, random_flows, random_header, Flowset};
use crate::fresh::Fresh;
use crate::generate::{calls::call_requests, session_requests};
use crate::image::Header;
use crate::key::KeyBytes;
use crate::lent::{right_lengths, Lent, SLICES};
use crate::lent_session::{LentSession, PAST};
use crate::marked::Marked;
use crate::random::Random;
use crate::request::{parse_stream, write_stream, Request, REPORT, SETTLE};
use crate::selftest::Tally;
use crate::session::Session;
use crate::session_answer::answer;
use crate::session_request::{hand_over_request, request_on, Open};
use crate::shrink::shrink;
use crate::sizes::Sizes;

use super::lines::unhex;

const SEEDS: u64 = 3;
const COUNT: usize = 400;
const CHAINS: u64 = 300;

/// The answer, which both engines give.
fn answer_both(tally: &mut Tally, name: &str, request: &Request) -> Answer {
    let answered = answer::<Marked>(request);
    tally.holds_in(name, "both engines", answered == answer::<Fresh>(request));
    answered
}

pub fn generated(tally: &mut Tally) {
    tally.holds("a seed repeats", session_requests(5, 60) == session_requests(5, 60));
    tally.holds("another seed differs", session_requests(5, 60) != session_requests(6, 60));
    for seed in 1..=SEEDS {
        let requests = session_requests(seed, COUNT);
        let mut met = BTreeSet::new();
        for (number, request) in requests.iter().enumerate() {
            let name = format!("session request {number} of seed {seed}");
            met.extend(answer_both(tally, &name, request).kinds);
        }
        let missing: Vec<String> = expected_session_kinds().into_iter().filter(|kind| !met.contains(kind)).collect();
        tally.equal("kinds that a stream misses", missing, vec![]);
        none_too_long(tally, &met);
        let mut stream = Vec::new();
        write_stream(&requests, &mut stream).expect("writing to memory");
        tally.holds("below 12 MB", stream.len() < 12_000_000);
        tally.holds("payloads that there is room for", requests.iter().all(|request| request.payload.len() <= 262_144));
        tally.holds("stream read back", parse_stream(&stream) == Some(requests));
    }
}

/// A stream for the library's calls, steps on a session among them, meets all that it must.
pub fn for_calls(tally: &mut Tally) {
    let requests = call_requests(1, 1_000);
    let met: BTreeSet<String> = requests.iter().flat_map(|request| crate::answer::answer(request).kinds).collect();
    let missing: Vec<String> = expected_call_kinds().into_iter().filter(|kind| !met.contains(kind)).collect();
    tally.equal("kinds that a stream of calls misses", missing, vec![]);
    none_too_long(tally, &met);
}

/// No call makes a list of more than 2 N - k + 1, and no hand-over one of more than 2 N - k.
fn none_too_long(tally: &mut Tally, met: &BTreeSet<String>) {
    tally.holds("no list is longer", !met.iter().any(|kind| kind.ends_with(PAST)));
    let handed = "hand-over 0 grown to 2 N - k + 1 listed";
    tally.holds("no hand-over makes one as long", !met.iter().any(|kind| kind.ends_with(handed)));
}

/// Calls one after the other, each on the memory that the line before shows, beside a session that stays in the engine.
pub fn chains(tally: &mut Tally) {
    for seed in 0..CHAINS {
        let random = &mut Random::new(seed);
        let header = random_header(random, if seed % 50 == 0 { 4 } else { 1 });
        let percent = random.between(5, 150);
        let flows = random_flows(random, flows_at(header, percent));
        let mut flowset = encode(random, header, &flows);
        if random.once_in(3) {
            damage(random, &mut flowset.encoder);
        }
        let mut chain = Chain::open(tally, &flowset, format!("chain {seed}"));
        for _ in 0..random.between(2, 12) {
            chain.call(tally, random, &flowset.keys());
        }
    }
}

struct Chain {
    name: String,
    session: Session<Marked>,
    shown: LentSession,
}

impl Chain {
    fn open(tally: &mut Tally, flowset: &Flowset, name: String) -> Self {
        let Header { sizes, slot, .. } = flowset.header();
        let (lengths, image) = (right_lengths(sizes), flowset.sealed());
        let session = Session::open(&image, slot).expect("a sealed image");
        let request = Open { wanted_slot: slot, lengths, seed: 5, image }.to_request();
        let line = answer_both(tally, &name, &request).line;
        let shown = LentSession { header: flowset.header(), listed: 0, memory: memory_of(&line, sizes) };
        let chain = Chain { name, session, shown };
        chain.agrees(tally);
        chain
    }

    fn call(&mut self, tally: &mut Tally, random: &mut Random, keys: &[KeyBytes]) {
        let (request, expected) = match random.below(4) {
            0 => {
                let report = self.session.report().expect("a session");
                let words = format!("0 {} {} {} {} ", report.listed, report.counted, report.open, report.state);
                (request_on(REPORT, &self.shown), words)
            }
            1 => {
                let answer = self.session.settle().expect("a session");
                let listed = self.session.list().len();
                let words = match answer {
                    Ok(()) => format!("0 {listed} "),
                    Err(damage) => format!("{} {listed} {} ", damage.refusal.number(), damage.cell),
                };
                (request_on(SETTLE, &self.shown), words)
            }
            _ => {
                let key = if random.once_in(4) { key_of(&random_flow(random)) } else { random.pick(keys) };
                let words = match self.session.hand_over(&key) {
                    Ok(()) => format!("0 {} ", self.session.list().len()),
                    Err(refusal) => format!("{} ", refusal.number()),
                };
                (hand_over_request(&self.shown, &key), words)
            }
        };
        let line = answer_both(tally, &self.name, &request).line;
        tally.holds_in(&self.name, "the line's first words", line.starts_with(&expected));
        self.shown.memory = memory_of(&line, self.shown.header.sizes);
        self.shown.listed = self.session.list().len() as u32;
        self.agrees(tally);
    }

    fn agrees(&self, tally: &mut Tally) {
        tally.holds_in(&self.name, "memory", self.shown == LentSession::of(&self.session));
    }
}

/// The last ten words of a line.
fn memory_of(line: &str, sizes: Sizes) -> Lent {
    let words: Vec<&str> = line.split(' ').collect();
    let bytes: Vec<u8> = words[words.len() - SLICES.len()..].iter().flat_map(|word| unhex(word)).collect();
    Lent::split_off(right_lengths(sizes), &mut &bytes[..]).expect("the memory")
}

/// A request keeps its length, and only the bytes that matter are left.
pub fn shrinking(tally: &mut Tally) {
    let request = Request::new(SETTLE, (0..200).collect::<Vec<u8>>());
    let shortest = shrink(&request, |request| request.payload[13] == 13 && request.payload[77] == 77);
    let mut wanted = vec![0; 200];
    (wanted[13], wanted[77]) = (13, 77);
    tally.equal("two bytes are left", shortest, Request::new(SETTLE, wanted));
}
