//! Lines of requests on sessions, written by hand: the flow whose key is all zeros, at cells 13 and 33 of 48.

use crate::answer::answer;
use crate::image::Header;
use crate::ipv4::Ipv4;
use crate::layout::KEY_BYTES;
use crate::lent::{right_lengths, Lent, Slice, SLICES};
use crate::lent_session::LentSession;
use crate::marked::Marked;
use crate::refusal::Refusal;
use crate::request::{Request, EXCHANGE, HAND_OVER, OPEN, REPORT, SETTLE};
use crate::selftest::Tally;
use crate::session::Session;
use crate::session_request::{exchange_request, hand_over_request, request_on, Open};
use crate::sizes::Sizes;
use crate::working::Encoder;

const HEADER: Header = Header { sizes: Sizes::SMALLEST, salt: 0, slot: 0 };
const ZERO_KEY: [u8; KEY_BYTES] = [0; KEY_BYTES];

/// All zeros but for the filter's bit 132 and the elements named, in hexadecimal.
fn words(named: &[(Slice, usize, &str)]) -> String {
    let lengths = [480, 13 * 48, 48, 48, 48, 48, 1, 13 * 96, 96, 96];
    let digits = [2, 2, 4, 8, 4, 4, 16, 2, 8, 2];
    let mut words: Vec<String> =
        lengths.iter().zip(digits).map(|(length, digits)| "0".repeat(length * digits)).collect();
    for &(slice, at, element) in [(Slice::Filter, 16, "08")].iter().chain(named) {
        let at = digits[slice as usize] * at;
        words[slice as usize].replace_range(at..at + element.len(), element);
    }
    words.join(" ")
}

fn in_both_cells(slice: Slice, element: &str) -> [(Slice, usize, &str); 2] {
    [(slice, 13, element), (slice, 33, element)]
}

/// As opened, its PacketCounts being 1.
fn opened_words() -> String {
    let [flows, packets] = [in_both_cells(Slice::Flows, "0001"), in_both_cells(Slice::Packets, "00000001")];
    words(&[&flows[..], &packets, &[(Slice::Marks, 0, "0000000200002000")]].concat())
}

fn image() -> Vec<u8> {
    let mut encoder = Encoder::new(HEADER);
    encoder.packet(&Ipv4::new(0, 0, 0, []).bytes()).expect("a good packet");
    encoder.sealed()
}

fn open_request() -> Open {
    Open { wanted_slot: 0, lengths: right_lengths(HEADER.sizes), seed: 1, image: image() }
}

/// From the words of a line.
fn lent(header: Header, listed: u32, words: &str) -> LentSession {
    let bytes: Vec<u8> = words.split(' ').flat_map(unhex).collect();
    let memory = Lent::split_off(right_lengths(header.sizes), &mut &bytes[..]).expect("all words");
    LentSession { header, listed, memory }
}

pub fn unhex(word: &str) -> Vec<u8> {
    let digits = if word == "." { "" } else { word };
    let byte = |at| u8::from_str_radix(&digits[at..at + 2], 16).expect("hexadecimal");
    (0..digits.len()).step_by(2).map(byte).collect()
}

fn opened() -> LentSession {
    lent(HEADER, 0, &opened_words())
}

fn says(tally: &mut Tally, name: &str, request: &Request, line: &str) {
    tally.holds(name, answer(request).line == line);
}

pub fn by_hand(tally: &mut Tally) {
    let opened_words = opened_words();
    says(tally, "open", &open_request().to_request(), &format!("0 0 1 1 2 1 0 0 0 {opened_words}"));
    says(tally, "report", &request_on(REPORT, &opened()), &format!("0 0 0 2 stuck {opened_words}"));

    let counted = [(Slice::Counts, 0, "00000001"), (Slice::Flags, 0, "01")];
    says(tally, "settle", &request_on(SETTLE, &opened()), &format!("0 1 {}", words(&counted)));
    let settled = lent(HEADER, 1, &words(&counted));
    says(tally, "report, whole", &request_on(REPORT, &settled), &format!("0 1 1 0 whole {}", words(&counted)));
    says(tally, "10", &hand_over_request(&settled, &ZERO_KEY), &format!("10 {}", words(&counted)));

    let [packets, unknown] = [in_both_cells(Slice::Packets, "00000001"), in_both_cells(Slice::Unknowns, "0001")];
    let handed_words = words(&[&packets[..], &unknown, &[(Slice::Flags, 0, "02")]].concat());
    says(tally, "hand-over", &hand_over_request(&opened(), &ZERO_KEY), &format!("0 1 {handed_words}"));
    let handed = lent(HEADER, 1, &handed_words);
    says(tally, "report, short", &request_on(REPORT, &handed), &format!("0 1 0 0 short {handed_words}"));
    let known = [(Slice::Counts, 0, "00000001"), (Slice::Flags, 0, "03")];
    says(tally, "handed and settled", &request_on(SETTLE, &handed), &format!("0 1 {}", words(&known)));
    says(tally, "9", &hand_over_request(&opened(), &[7; KEY_BYTES]), &format!("9 {opened_words}"));

    let both = exchange_request(&opened(), &settled);
    says(tally, "exchange", &both, &format!("0 0 1 1 {} {}", words(&counted), words(&counted)));
    let mut later = opened();
    later.header.slot = 1;
    says(tally, "15", &exchange_request(&opened(), &later), &format!("15 {opened_words} {opened_words}"));
}

/// One thing left over, in the first and in the last cell, first and last byte: beside the counted flow it is stray; short
/// and stuck go before.
pub fn strays_by_hand(tally: &mut Tally) {
    let counted = [(Slice::Counts, 0, "00000001"), (Slice::Flags, 0, "01")];
    let unknown = in_both_cells(Slice::Unknowns, "0001");
    let packets = in_both_cells(Slice::Packets, "00000001");
    let handed = [&packets[..], &unknown, &[(Slice::Flags, 0, "02")]].concat();
    let marks = [(Slice::Marks, 0, "0000000200002000")];
    let opened = [&in_both_cells(Slice::Flows, "0001")[..], &packets, &marks].concat();
    for left in [
        (Slice::Xors, 0, "01"),
        (Slice::Xors, 12, "80"),
        (Slice::Xors, 13 * 47, "ff"),
        (Slice::Xors, 13 * 47 + 12, "01"),
        (Slice::Packets, 0, "00000001"),
        (Slice::Packets, 47, "80000000"),
    ] {
        let with = |named: &[(Slice, usize, &'static str)]| words(&[named, &[left]].concat());
        let report = |listed, words: &str| request_on(REPORT, &lent(HEADER, listed, words));
        says(tally, "stray", &report(1, &with(&counted)), &format!("0 1 1 0 stray {}", with(&counted)));
        says(tally, "stray, none listed", &report(0, &with(&[])), &format!("0 0 0 0 stray {}", with(&[])));
        says(tally, "short and left", &report(1, &with(&handed)), &format!("0 1 0 0 short {}", with(&handed)));
        says(tally, "stuck and left", &report(0, &with(&opened)), &format!("0 0 0 2 stuck {}", with(&opened)));
        let settled = request_on(SETTLE, &lent(HEADER, 1, &with(&counted)));
        says(tally, "settling leaves it", &settled, &format!("0 1 {}", with(&counted)));
        let opened = request_on(SETTLE, &lent(HEADER, 0, &with(&opened)));
        says(tally, "settling beside it", &opened, &format!("0 1 {}", with(&counted)));
    }
}

/// The second cell is closed before the flow is peeled, or its packets are gone.
pub fn damaged_by_hand(tally: &mut Tally) {
    let mut empty = opened();
    empty.memory.put(Slice::Flows, 33, 0);
    empty.memory.put(Slice::Marks, 0, 1 << 13);
    let memory = empty.memory.words().join(" ");
    says(tally, "14, an empty cell", &request_on(SETTLE, &empty), &format!("14 0 13 {memory}"));
    let at_b = exchange_request(&opened(), &empty);
    let counted = words(&[(Slice::Counts, 0, "00000001"), (Slice::Flags, 0, "01")]);
    says(tally, "14 at B", &at_b, &format!("14 B 13 0 1 0 {counted} {memory}"));
    let at_a = exchange_request(&empty, &opened());
    says(tally, "14 at A", &at_a, &format!("14 A 13 0 0 0 {memory} {}", opened_words()));

    let mut over = opened();
    over.memory.put(Slice::Packets, 33, 0);
    let unknown = in_both_cells(Slice::Unknowns, "0001");
    let peeled = words(&[&[(Slice::Packets, 13, "00000001")][..], &unknown].concat());
    says(tally, "14, a count", &request_on(SETTLE, &over), &format!("14 1 13 {peeled}"));
}

/// What 01 gives no meaning to stays as it is, but an append writes a whole record.
pub fn carried(tally: &mut Tally) {
    let mut session = opened();
    for slice in [Slice::Keys, Slice::Counts, Slice::Flags] {
        session.memory.bytes_mut(slice).fill(0xff);
    }
    let mut settled = session.memory.clone();
    settled.put_key(Slice::Keys, 0, &ZERO_KEY);
    settled.put(Slice::Counts, 0, 1);
    settled.put(Slice::Flags, 0, 1);
    let line = answer(&request_on(SETTLE, &session)).line;
    let of_list = |words: &str| words.split(' ').skip(7).map(String::from).collect::<Vec<_>>();
    tally.holds("an append", of_list(&line["0 1 ".len()..]) == of_list(&settled.words().join(" ")));

    let mut handed = lent(HEADER, 0, &opened_words());
    let _ = handed.call(|session: &mut Session<Marked>| session.hand_over(&ZERO_KEY));
    handed.memory.put(Slice::Flags, 0, 0xfe);
    handed.memory.put(Slice::Counts, 0, 77);
    let memory = handed.memory.words().join(" ");
    says(tally, "stored count", &request_on(REPORT, &handed), &format!("0 1 0 0 short {memory}"));
    let known = words(&[(Slice::Counts, 0, "00000001"), (Slice::Flags, 0, "ff")]);
    says(tally, "other flags", &request_on(SETTLE, &handed), &format!("0 1 {known}"));
}

/// 16 for every slice, with memory as it was; `length` and what is refused before.
pub fn lengths(tally: &mut Tally) {
    for slice in SLICES {
        for longer in [false, true] {
            let mut open = open_request();
            let length = &mut open.lengths[slice as usize];
            *length = if longer { *length + 1 } else { *length - 1 };
            let noise = Lent::noise(open.lengths, 1).words().join(" ");
            says(tally, "16 in opening", &open.to_request(), &format!("16 0 {noise}"));
            open.wanted_slot = 5;
            says(tally, "5 before 16", &open.to_request(), &format!("5 0 {noise}"));

            let mut session = opened();
            session.memory.resize(slice, open.lengths[slice as usize]);
            let memory = session.memory.words().join(" ");
            let refused = |number| format!("{number} {memory}");
            says(tally, "16", &request_on(REPORT, &session), &refused(16));
            session.listed = 97;
            says(tally, "16 before 8", &request_on(SETTLE, &session), &refused(16));
            session.header.sizes.q = 17;
            says(tally, "8 for a size", &hand_over_request(&session, &ZERO_KEY), &refused(8));
        }
        let mut longest = opened();
        longest.memory.resize(slice, slice.room());
        tally.holds("as long as there is room", answer(&request_on(SETTLE, &longest)).line.starts_with("16 "));
        longest.memory.resize(slice, slice.room() + 1);
        says(tally, "too long", &request_on(SETTLE, &longest), "length");
        let mut open = open_request();
        open.lengths[slice as usize] = slice.room() + 1;
        says(tally, "too long to open", &open.to_request(), "length");
    }
    for op in OPEN..=EXCHANGE {
        says(tally, "no payload", &Request::new(op, []), "length");
    }
    let session = request_on(REPORT, &opened()).payload;
    tally.equal("bytes of a session", session.len(), 46 + 480 + 624 + 96 + 192 + 96 + 96 + 8 + 1_248 + 384 + 96);
    for (op, more) in [(REPORT, 1), (SETTLE, 1), (HAND_OVER, 12), (HAND_OVER, 14), (EXCHANGE, 45)] {
        let payload = [&session[..], &vec![0; more]].concat();
        says(tally, "too many or too few", &Request::new(op, payload), "length");
        says(tally, "cut", &Request::new(op, &session[..session.len() - 1]), "length");
    }
}

/// Known records, first the handed ones, into a session's memory; then so many are listed.
fn with_records(mut session: LentSession, handed: usize, peeled: usize) -> LentSession {
    for position in 0..handed + peeled {
        let mut key = [1; KEY_BYTES];
        key[0] = position as u8;
        session.memory.put_key(Slice::Keys, position, &key);
        session.memory.put(Slice::Counts, position, 5);
        session.memory.put(Slice::Flags, position, if position < handed { 3 } else { 1 });
    }
    session.listed = (handed + peeled) as u32;
    session
}

/// The edges of the list. 48 handed and 48 peeled are a session with no cell open, and one more of anything is not.
pub fn longest(tally: &mut Tally) {
    let full = with_records(lent(HEADER, 0, &words(&[])), 48, 48);
    let memory = full.memory.words().join(" ");
    says(tally, "2 N listed", &request_on(REPORT, &full), &format!("0 96 96 0 whole {memory}"));
    says(tally, "2 N listed, settle", &request_on(SETTLE, &full), &format!("0 96 {memory}"));
    says(tally, "2 N listed, 9", &hand_over_request(&full, &[7; KEY_BYTES]), &format!("9 {memory}"));
    says(tally, "2 N listed, 11", &hand_over_request(&full, &ZERO_KEY), &format!("11 {memory}"));
    let mut listed = full.clone();
    listed.memory.put_key(Slice::Keys, 95, &ZERO_KEY);
    let line = format!("10 {}", listed.memory.words().join(" "));
    says(tally, "2 N listed, 10", &hand_over_request(&listed, &ZERO_KEY), &line);
    let both = exchange_request(&full, &listed);
    says(tally, "2 N listed in both", &both, &format!("0 0 96 96 {memory} {}", &line["10 ".len()..]));

    let mut more = full.clone();
    more.listed = 97;
    refused_for(tally, &more, Refusal::OverListed);
    refused_for(tally, &with_records(full.clone(), 49, 47), Refusal::OverHanded);
    refused_for(tally, &with_records(full.clone(), 47, 49), Refusal::OverPeeled);
    let mut more = full;
    more.memory.put(Slice::Flows, 47, 2);
    refused_for(tally, &more, Refusal::OverPeeled);
    last_flow(tally);
}

fn refused_for(tally: &mut Tally, session: &LentSession, reason: Refusal) {
    tally.equal("the reason for 8", session.reasons(), vec![reason]);
    let line = format!("8 {}", session.memory.words().join(" "));
    for op in [REPORT, SETTLE] {
        says(tally, "one more is 8", &request_on(op, session), &line);
    }
    says(tally, "one more is 8", &hand_over_request(session, &ZERO_KEY), &line);
}

/// Beside the two cells of a flow at most 46 are peeled, so 95 are listed when it has peeled too, and 94 when it was
/// handed over. With 47 peeled one of its cells is empty, and that is damage.
fn last_flow(tally: &mut Tally) {
    let session = with_records(opened(), 48, 46);
    let mut settled = with_records(lent(HEADER, 0, &words(&[])), 48, 46);
    settled.memory.put(Slice::Counts, 94, 1);
    settled.memory.put(Slice::Flags, 94, 1);
    let line = format!("0 95 {}", settled.memory.words().join(" "));
    says(tally, "the last peel", &request_on(SETTLE, &session), &line);
    let line = format!("12 {}", session.memory.words().join(" "));
    says(tally, "N handed", &hand_over_request(&session, &ZERO_KEY), &line);

    let session = with_records(opened(), 47, 46);
    let [packets, unknown] = [in_both_cells(Slice::Packets, "00000001"), in_both_cells(Slice::Unknowns, "0001")];
    let positions = in_both_cells(Slice::Positions, "005d");
    let mut handed = with_records(lent(HEADER, 0, &words(&[packets, unknown, positions].concat())), 47, 46);
    handed.memory.put(Slice::Flags, 93, 2);
    let line = format!("0 94 {}", handed.memory.words().join(" "));
    says(tally, "the last hand-over", &hand_over_request(&session, &ZERO_KEY), &line);

    let mut damaged = with_records(opened(), 48, 47);
    damaged.memory.put(Slice::Flows, 33, 0);
    damaged.memory.put(Slice::Marks, 0, 1 << 13);
    let line = format!("14 95 13 {}", damaged.memory.words().join(" "));
    says(tally, "the last record", &request_on(SETTLE, &damaged), &line);
    refused_for(tally, &with_records(opened(), 48, 47), Refusal::OverPeeled);
}
