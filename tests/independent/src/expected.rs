//! The kinds of answers that a stream of good length must have met.

use crate::answer::{read_kind, refused_kind};
use crate::lent::SLICES;
use crate::refusal::Refusal::{self, *};

const SIZES: [Refusal; 4] = [Kf, F, K, Q];
const PACKETS: [Refusal; 5] = [PacketShort, Version, HeaderShort, HeaderLong, PortsShort];
const COUNTERS: [Refusal; 2] = [PacketCountFull, FlowCountFull];
const MEMORY: [Refusal; 2] = [FilterRoom, CellsRoom];

const DONE: [&str; 10] = [
    "hash ok",
    "key ok ports",
    "key ok later fragment",
    "key ok other protocol",
    "places ok",
    "start ok",
    "packet ok new",
    "packet ok old",
    "seal ok",
    "read ok",
];

/// Answers of the trial's protocol itself.
const PROTOCOL: [&str; 5] = ["places length", "encoder length", "encoder mode", "read length", "op"];

const READ_FIRST: [Refusal; 14] =
    [LengthZero, LengthRagged, LengthOver, LengthAgainstSizes, Check, Kind, Kf, F, K, Q, Zero, Number, Tail, Stale];

const READ_LATER: [Refusal; 12] = [Check, Kind, Kf, F, K, Q, Zero, Number, Tail, CellZero, MixedSalt, MixedSlot];

pub fn expected_kinds() -> Vec<String> {
    let mut kinds: Vec<String> = DONE.iter().chain(&PROTOCOL).map(|kind| kind.to_string()).collect();
    kinds.extend(of_call("key", &[&PACKETS]));
    kinds.extend(of_call("places", &[&SIZES]));
    kinds.extend(of_call("start", &[&SIZES, &MEMORY]));
    kinds.extend(of_call("packet", &[&SIZES, &MEMORY, &PACKETS, &COUNTERS]));
    kinds.extend(of_call("seal", &[&SIZES, &MEMORY, &[ImageRoom, CellZero]]));
    kinds.extend(READ_FIRST.iter().map(|&refusal| read_kind(refusal, 0)));
    kinds.extend(READ_LATER.iter().map(|&refusal| read_kind(refusal, 1)));
    kinds
}

const NOT_A_SESSION: [Refusal; 8] =
    [SessionSizes, OverListed, Repeated, KnownZero, OverHanded, OverPeeled, WrongMark, WrongNumber];

const OPENED: [&str; 8] =
    ["0", "1 block 0", "2 block 0", "2 later block", "3 block 0", "3 later block", "4 later block", "5 block 0"];
const REPORTED: [&str; 5] = ["0 whole", "0 stray", "0 short", "0 stuck", "0 with 2 N listed"];
/// Left over alone, in each of these cells: a report that passes one of them over says whole.
const LEFT: [&str; 3] = ["first byte of FlowXOR", "last byte of FlowXOR", "PacketCount"];
const CELLS: [&str; 3] = ["first", "middle", "last"];
const SETTLED: [&str; 8] = [
    "0",
    "0 with 2 N listed",
    "0 grown to 2 N - k + 1 listed",
    "14 PeelListed",
    "14 PeelEmptyCell",
    "14 CountZero",
    "14 CountOver",
    "14 with 2 N - 1 listed",
];
const HANDED_OVER: [&str; 10] = [
    "0",
    "0 grown to 2 N - k listed",
    "9",
    "9 with 2 N listed",
    "10",
    "10 with 2 N listed",
    "11",
    "11 with 2 N listed",
    "12",
    "12 with 2 N - k listed",
];
const EXCHANGED: [&str; 14] = [
    "0",
    "0 with answers 12",
    "0 with 2 N listed",
    "0 grown to 2 N - k + 1 listed",
    "0 grown from none to 2 N - k + 1 listed",
    "14 at A",
    "14 at B",
    "14 with answers 12",
    "14 with 2 N - 1 listed",
    "15",
    "8 at A",
    "8 at B",
    "16 at A",
    "16 at B",
];

/// All that requests on sessions can answer. Each reason for 8 and each slice for 16 occurs in every call as the only
/// one. Lists occur as long as the test of 8, a peel and a hand-over let them get, and one flow or open cell past that.
pub fn expected_session_kinds() -> Vec<String> {
    let calls: [(&str, &[&str]); 5] = [
        ("open", &OPENED),
        ("report", &REPORTED),
        ("settle", &SETTLED),
        ("hand-over", &HANDED_OVER),
        ("exchange", &EXCHANGED),
    ];
    let mut kinds = Vec::new();
    for (call, answers) in calls {
        kinds.extend(answers.iter().map(|answer| format!("{call} {answer}")));
        kinds.push(format!("{call} length"));
        kinds.extend(SLICES.map(|slice| refused_kind(call, Room(slice))));
        if call != "open" {
            kinds.extend(of_call(call, &[&NOT_A_SESSION]));
            kinds.extend([OverHanded, OverPeeled].map(|reason| refused_kind(call, reason) + " with 2 N listed"));
        }
    }
    for cell in CELLS {
        kinds.extend(LEFT.map(|left| format!("report 0 stray, {left} of the {cell} cell")));
    }
    // One peeled flow too many, and one open cell: two ways to exceed N.
    let over_peeled = |call| refused_kind(call, OverPeeled) + " with 2 N listed, ";
    for call in ["report", "settle"] {
        kinds.extend(["a cell open", "none open"].map(|open| over_peeled(call) + open));
    }
    kinds
}

/// What the library's C entry points can answer: all of the above but hash, places and exchange; steps on a session; printing.
pub fn expected_call_kinds() -> Vec<String> {
    let mut kinds = expected_kinds();
    kinds.extend(expected_session_kinds());
    kinds.retain(|kind| !["hash ", "places "].iter().any(|call| kind.starts_with(call)));
    kinds.extend(STEPS.map(|kind| format!("sequence {kind}")));
    kinds.extend(PRINTED.iter().chain(&["16", "length"]).map(|kind| format!("print {kind}")));
    kinds
}

const STEPS: [&str; 26] = [
    "settle 0",
    "settle 0 with 2 N listed",
    "settle 0 grown to 2 N - k + 1 listed",
    "settle 8",
    "settle 14",
    "settle 16",
    "hand-over 0",
    "hand-over 0 grown to 2 N - k listed",
    "hand-over 8",
    "hand-over 9",
    "hand-over 9 with 2 N listed",
    "hand-over 10",
    "hand-over 10 with 2 N listed",
    "hand-over 11",
    "hand-over 11 with 2 N listed",
    "hand-over 12",
    "hand-over 12 with 2 N - k listed",
    "hand-over 16",
    "report whole",
    "report stray",
    "report short",
    "report stuck",
    "report 8",
    "report 16",
    "grown from none to 2 N - k + 1 listed",
    "length",
];

/// `short` cannot be printed, for there are no hand-overs.
pub const PRINTED: [&str; 9] =
    ["whole", "stray", "stuck", "refused 1", "refused 2", "refused 3", "refused 4", "refused 5", "refused 14"];

fn of_call(call: &str, groups: &[&[Refusal]]) -> Vec<String> {
    groups.concat().into_iter().map(|refusal| refused_kind(call, refusal)).collect()
}
