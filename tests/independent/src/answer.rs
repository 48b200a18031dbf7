//! One line for each request, and what kinds of answers the line holds.
//!
//! | op | line |
//! |---|---|
//! | 1 hash | 8 hexadecimal digits |
//! | 2 key | `6`, or `0`, the key's bytes in hexadecimal and its five fields in decimal |
//! | 3 places | `3`, or `0`, the k cells and the kf filter bits |
//! | 4 encoder | start's number (`-` if not called), each packet's, seal's, then filter, cells and image in hexadecimal (`.` if empty) |
//! | 5 read | `0` with kf, F, k, q and salt, or the refusal's number and block |
//! | 6 to 10 | of sessions: see `session_answer` |
//! | 11, 12 | see `sequence` |
//!
//! A request that does not fit the protocol gets `length`, `mode` or `op`; a wrong length goes before a wrong mode.

use crate::bytes::{hex, hex_word};
use crate::encoder::{self, Flow};
use crate::flow;
use crate::hash::fnv1a;
use crate::image::{self, Header, ReadRefusal};
use crate::key::{has_ports, is_port_protocol, Key};
use crate::marked::Marked;
use crate::memory::{Memory, LAST_MODE, STARTED};
use crate::refusal::{number_of, Refusal};
use crate::request::{self, parse_places, parse_read, Request, Run};
use crate::sequence;
use crate::session_answer;

#[derive(Clone, PartialEq, Eq, Debug)]
pub struct Answer {
    pub line: String,
    pub kinds: Vec<String>,
}

impl Answer {
    pub fn new(line: impl Into<String>, kind: impl Into<String>) -> Self {
        Answer { line: line.into(), kinds: vec![kind.into()] }
    }
}

pub fn answer(request: &Request) -> Answer {
    let payload = &request.payload;
    match request.op {
        request::HASH => Answer::new(format!("{:08x}", fnv1a(payload)), "hash ok"),
        request::KEY => answer_key(payload),
        request::PLACES => answer_places(payload),
        request::ENCODER => answer_run(payload),
        request::READ => answer_read(payload),
        request::OPEN..=request::EXCHANGE => session_answer::answer::<Marked>(request),
        request::SEQUENCE => sequence::answer_sequence(payload),
        request::PRINT => sequence::answer_print(payload),
        _ => Answer::new("op", "op"),
    }
}

pub fn call_name(op: u8) -> &'static str {
    match op {
        request::HASH => "hash",
        request::KEY => "key",
        request::PLACES => "places",
        request::ENCODER => "encoder",
        request::READ => "read",
        request::OPEN => "open",
        request::REPORT => "report",
        request::SETTLE => "settle",
        request::HAND_OVER => "hand-over",
        request::EXCHANGE => "exchange",
        request::SEQUENCE => "sequence",
        request::PRINT => "print",
        _ => "other",
    }
}

pub fn refused_kind(call: &str, refusal: Refusal) -> String {
    format!("{call} {} {refusal:?}", refusal.number())
}

fn answer_key(packet: &[u8]) -> Answer {
    match Key::of_packet(packet) {
        Ok(key) => Answer::new(key_line(key), key_kind(packet)),
        Err(refusal) => Answer::new(refusal.number().to_string(), refused_kind("key", refusal)),
    }
}

fn key_line(key: Key) -> String {
    let bytes = hex(&key.to_bytes());
    let Key { source, destination, source_port, destination_port, protocol } = key;
    format!("0 {bytes} {source} {destination} {source_port} {destination_port} {protocol}")
}

fn key_kind(packet: &[u8]) -> &'static str {
    if has_ports(packet) {
        "key ok ports"
    } else if is_port_protocol(packet) {
        "key ok later fragment"
    } else {
        "key ok other protocol"
    }
}

fn answer_places(payload: &[u8]) -> Answer {
    let Some((sizes, salt, key)) = parse_places(payload) else {
        return Answer::new("length", "places length");
    };
    if let Err(refusal) = sizes.check() {
        return Answer::new(refusal.number().to_string(), refused_kind("places", refusal));
    }
    let places = flow::cells(sizes, salt, key).into_iter().chain(flow::filter_bits(sizes, salt, key));
    let line = places.fold(String::from("0"), |line, place| format!("{line} {place}"));
    Answer::new(line, "places ok")
}

fn answer_run(payload: &[u8]) -> Answer {
    let Some(run) = Run::parse(payload) else {
        return Answer::new("length", "encoder length");
    };
    if run.mode > LAST_MODE {
        Answer::new("mode", "encoder mode")
    } else {
        do_run(&run)
    }
}

fn do_run(run: &Run) -> Answer {
    let Memory { mut filter, mut cells, mut image } = Memory::of_run(run);
    let Header { sizes, salt, .. } = run.header;
    let mut words = Vec::new();
    let mut kinds = Vec::new();
    if run.mode == STARTED {
        let started = encoder::start(sizes, &mut filter, &mut cells);
        words.push(number_of(&started).to_string());
        kinds.push(call_kind("start", &started));
    } else {
        words.push("-".into());
    }
    for packet in &run.packets {
        let taken = encoder::packet(sizes, salt, &mut filter, &mut cells, packet);
        words.push(number_of(&taken).to_string());
        kinds.push(packet_kind(&taken));
    }
    let sealed = image::seal(run.header, &filter, &cells, &mut image);
    words.push(number_of(&sealed).to_string());
    kinds.push(call_kind("seal", &sealed));
    words.extend([filter, cells, image].iter().map(|buffer| hex_word(buffer)));
    Answer { line: words.join(" "), kinds }
}

fn call_kind(call: &str, result: &Result<(), Refusal>) -> String {
    match result {
        Ok(()) => format!("{call} ok"),
        Err(refusal) => refused_kind(call, *refusal),
    }
}

fn packet_kind(taken: &Result<Flow, Refusal>) -> String {
    match taken {
        Ok(Flow::New) => "packet ok new".into(),
        Ok(Flow::Old) => "packet ok old".into(),
        Err(refusal) => refused_kind("packet", *refusal),
    }
}

fn answer_read(payload: &[u8]) -> Answer {
    let Some((wanted_slot, image)) = parse_read(payload) else {
        return Answer::new("length", "read length");
    };
    match image::read(image, wanted_slot) {
        Ok(Header { sizes, salt, .. }) => {
            Answer::new(format!("0 {} {} {} {} {salt}", sizes.kf, sizes.f, sizes.k, sizes.q), "read ok")
        }
        Err(ReadRefusal { refusal, block }) => {
            Answer::new(format!("{} {block}", refusal.number()), read_kind(refusal, block))
        }
    }
}

/// The same reason in block 0 and in a later block is two kinds: different code may find them.
pub fn read_kind(refusal: Refusal, block: usize) -> String {
    let whereabouts = if block == 0 { "block 0" } else { "later block" };
    format!("{} {whereabouts}", refused_kind("read", refusal))
}
