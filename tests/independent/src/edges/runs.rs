//! Start, packets and seal: sizes, room, packets, counters, and which refusal comes first.

use super::keys::size_edges;
use super::Edge;
use crate::counters::{find_flow, key_of, seed_with, Counter};
use crate::encoder::is_set;
use crate::flow;
use crate::image::Header;
use crate::ipv4::Ipv4;
use crate::memory::{Memory, CLEAN_NOISE, LAST_MODE, NOISE, ONES, STARTED, ZEROS};
use crate::request::{Run, MAX_CELLS, MAX_FILTER, MAX_IMAGE, RUN_HEAD};
use crate::sizes::Sizes;

const HEADER: Header = Header { sizes: Sizes { kf: 1, f: 1, k: 2, q: 1 }, salt: 9, slot: 7 };
const SEED: u32 = 1;

fn tcp() -> Ipv4 {
    Ipv4::with_ports(6, 0x0a00_0001, 0x0a00_0002, (1024, 80))
}

fn good_packet() -> Vec<u8> {
    tcp().bytes()
}

fn bad_packet() -> Vec<u8> {
    good_packet()[..19].to_vec()
}

fn run(mode: u8, packets: &[Vec<u8>]) -> Run {
    Run::new(HEADER, mode, SEED, packets.to_vec())
}

fn with_sizes(sizes: Sizes, mode: u8) -> Run {
    Run::new(Header { sizes, ..HEADER }, mode, SEED, vec![good_packet()])
}

fn edge(name: impl Into<String>, run: Run, expected: impl Into<String>) -> Edge {
    Edge::new(name, run.to_request(), expected)
}

pub fn edges() -> Vec<Edge> {
    let mut edges = [packets(), sizes(), room(), orders(), protocol()].into_iter().flatten().collect::<Vec<_>>();
    edges.extend(counters(NOISE, 3));
    if LAST_MODE >= CLEAN_NOISE {
        edges.extend(counters(CLEAN_NOISE, 0));
        edges.extend(lone_zero_bytes());
    }
    edges
}

fn packets() -> Vec<Edge> {
    let udp = Ipv4::with_ports(17, 0x0a00_0001, 0x0a00_0002, (1024, 80)).bytes();
    let zeros = Ipv4::new(0, 0, 0, []).bytes();
    let refused = [
        good_packet()[..19].to_vec(),
        Ipv4 { version: 6, ..tcp() }.bytes(),
        Ipv4 { words: 4, ..tcp() }.bytes(),
        [&[0x47], &good_packet()[1..]].concat(),
        good_packet()[..23].to_vec(),
    ];
    let several = [good_packet(), good_packet(), udp, bad_packet(), zeros.clone(), zeros, good_packet()];
    vec![
        edge("no packet", run(STARTED, &[]), "0 0"),
        edge("several packets", run(STARTED, &several), "0 0 0 0 6 0 0 0 0"),
        edge("five refused packets", run(STARTED, &refused), "0 6 6 6 6 6 0"),
        edge("a packet of no bytes", run(STARTED, &[vec![]]), "0 6 0"),
        edge("zeros, not started", run(ZEROS, &several), "- 0 0 0 6 0 0 0 0"),
        edge("noise, not started", run(NOISE, &[]), "- 3"),
        edge("ones, not started", run(ONES, &several), "- 7 7 7 6 7 7 7 3"),
    ]
}

fn sizes() -> Vec<Edge> {
    size_edges()
        .into_iter()
        .map(|(sizes, good)| {
            let mut run = with_sizes(sizes, STARTED);
            run.image_bytes = run.image_bytes.min(MAX_IMAGE);
            edge(format!("{sizes:?}"), run, if good { "0 0 0" } else { "3 3 3" })
        })
        .collect()
}

fn room() -> Vec<Edge> {
    let base = run(STARTED, &[good_packet()]);
    let mut edges = Vec::new();
    for filter_bytes in [0, 479, 481, 960] {
        edges.push(edge(format!("filter of {filter_bytes}"), Run { filter_bytes, ..base.clone() }, "16 16 16"));
    }
    for cells_bytes in [0, 940, 959, 961, 980, 1_440] {
        edges.push(edge(format!("cells of {cells_bytes}"), Run { cells_bytes, ..base.clone() }, "16 16 16"));
    }
    for image_bytes in [0, 1_024, 1_535, 1_537, 2_048] {
        edges.push(edge(format!("image of {image_bytes}"), Run { image_bytes, ..base.clone() }, "0 0 16"));
    }
    let none = Run { filter_bytes: 0, cells_bytes: 0, image_bytes: 0, ..base };
    edges.push(edge("no room at all", none, "16 16 16 . . ."));
    edges
}

/// Two faults at once.
fn orders() -> Vec<Edge> {
    let bad_q = Sizes { q: 17, ..HEADER.sizes };
    let ones = run(ONES, &[bad_packet(), good_packet()]);
    vec![
        edge("size before room", Run { filter_bytes: 1, ..with_sizes(bad_q, STARTED) }, "3 3 3"),
        edge("size before packet", Run { packets: vec![bad_packet()], ..with_sizes(bad_q, STARTED) }, "3 3 3"),
        edge("size before full", with_sizes(bad_q, ONES), "- 3 3"),
        edge("room before packet", Run { cells_bytes: 1, ..run(STARTED, &[bad_packet()]) }, "16 16 16"),
        edge("room before full", Run { cells_bytes: 961, ..ones.clone() }, "- 16 16 16"),
        edge("packet before full", ones.clone(), "- 6 7 3"),
        edge("room before zero byte", Run { image_bytes: 1, ..ones }, "- 6 7 16"),
    ]
}

fn protocol() -> Vec<Edge> {
    let base = run(STARTED, &[good_packet()]);
    let cut = |bytes: usize| {
        let mut request = base.to_request();
        request.payload.truncate(bytes);
        Edge::new(format!("cut to {bytes} bytes"), request, if bytes == RUN_HEAD { "0 0" } else { "length" })
    };
    let mut edges: Vec<Edge> = [0, 22, 23, 24, 25, 48].map(cut).into();
    for mode in [LAST_MODE + 1, 255] {
        edges.push(edge(format!("mode {mode}"), run(mode, &[]), "mode"));
    }
    edges.extend([
        edge("most filter", Run { filter_bytes: MAX_FILTER, ..base.clone() }, "16 16 16"),
        edge("over most filter", Run { filter_bytes: MAX_FILTER + 1, ..base.clone() }, "length"),
        edge("most cells", Run { cells_bytes: MAX_CELLS, ..base.clone() }, "16 16 16"),
        edge("over most cells", Run { cells_bytes: MAX_CELLS + 1, ..base.clone() }, "length"),
        edge("most image", Run { image_bytes: MAX_IMAGE, ..base.clone() }, "0 0 16"),
        edge("over most image", Run { image_bytes: MAX_IMAGE + 1, ..base.clone() }, "length"),
    ]);
    edges
}

/// Both sides of full counters, in a cell of each part, for a new flow and an old one, in noise that has such a cell.
fn counters(mode: u8, sealed: u8) -> Vec<Edge> {
    [5, 31].into_iter().flat_map(|cell| counters_at(mode, sealed, cell)).collect()
}

fn counters_at(mode: u8, sealed: u8, cell: usize) -> Vec<Edge> {
    let make = |counter, full, letters: &str, expected: &str| {
        let seed = seed_with(HEADER.sizes, cell, counter, full, SEED);
        let base = Run::new(Header { slot: u32::MAX, ..HEADER }, mode, seed, Vec::new());
        let flows = Flows::of_memory(&base, cell);
        let packets = letters.chars().map(|letter| flows.packet(letter)).collect();
        let name = format!("mode {mode}, cell {cell}, {counter:?} full: {full}, flows {letters}");
        edge(name, Run { packets, ..base }, format!("- {expected} {sealed}"))
    };
    vec![
        make(Counter::Packets, true, "nmo", "7 7 7"),
        make(Counter::Packets, false, "nnmo", "0 7 7 7"),
        make(Counter::Packets, false, "onm", "0 7 7"),
        make(Counter::Flows, true, "nomo", "7 0 7 0"),
        make(Counter::Flows, false, "nnmo", "0 0 7 0"),
        make(Counter::Flows, false, "onmn", "0 0 7 0"),
    ]
}

/// Packets of flows that all have one cell.
struct Flows {
    new: Ipv4,
    other_new: Ipv4,
    old: Ipv4,
}

impl Flows {
    fn of_memory(run: &Run, cell: usize) -> Self {
        let filter = Memory::of_run(run).filter;
        let Header { sizes, salt, .. } = run.header;
        let bits = |key: &[u8]| flow::filter_bits(sizes, salt, key);
        let has_cell = |key: &[u8]| flow::cells(sizes, salt, key).contains(&cell);
        let is_old = |key: &[u8]| bits(key).iter().all(|&bit| is_set(&filter, bit));
        let new = find_flow(0, |key| has_cell(key) && !is_old(key));
        let first_bits = bits(&key_of(&new));
        let other_new = find_flow(0, |key| has_cell(key) && !is_old(key) && bits(key) != first_bits);
        let old = find_flow(0, |key| has_cell(key) && is_old(key));
        Flows { new, other_new, old }
    }

    /// n and m are new flows, o is an old one.
    fn packet(&self, letter: char) -> Vec<u8> {
        match letter {
            'n' => self.new.bytes(),
            'm' => self.other_new.bytes(),
            _ => self.old.bytes(),
        }
    }
}

/// Sealing must look at every cell: here just one has a nonzero zero byte, or none.
fn lone_zero_bytes() -> Vec<Edge> {
    let cells = HEADER.sizes.cells() as u32;
    [(0, 3), (1, 3), (23, 3), (24, 3), (cells - 1, 3), (cells, 0), (u32::MAX, 0)]
        .map(|(slot, sealed)| {
            let run = Run::new(Header { slot, ..HEADER }, CLEAN_NOISE, SEED, Vec::new());
            edge(format!("zero byte of cell {slot}"), run, format!("- {sealed}"))
        })
        .into()
}
