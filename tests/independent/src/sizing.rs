//! How full a flowset may be, how often the filter misses a flow, and what settling costs: seeded figures.

use std::collections::BTreeSet;
use std::time::{Duration, Instant};

use crate::encoder::{self, Flow};
use crate::exchange::exchange;
use crate::image::{self, Header};
use crate::ipv4::Ipv4;
use crate::marked::Marked;
use crate::random::Random;
use crate::report::State;
use crate::session::Session;
use crate::sizes::Sizes;

const TABLES: [(u8, u8); 6] = [(2, 16), (3, 4), (3, 16), (4, 4), (4, 12), (4, 16)];
const PERCENTS: [usize; 10] = [10, 30, 50, 60, 70, 75, 80, 90, 100, 120];
const FILTERS: [(u8, u8); 6] = [(4, 4), (8, 4), (8, 6), (16, 4), (16, 6), (16, 8)];
const FILTER_FLOWS: [usize; 3] = [288, 576, 1_152];

/// How many flowsets of a table at a load settled whole, in per cent.
pub struct Decoded {
    pub sizes: Sizes,
    pub load: usize,
    pub whole: f64,
}

/// The lines of all figures, and the decode rates among them.
pub fn sizing(seed: u64, runs: usize) -> (String, Vec<Decoded>) {
    let (random, mut decoded) = (&mut Random::new(seed), Vec::new());
    let mut text = format!("seed {seed}, {runs} flowsets a line\n");
    text += "k  q     N  load  flows  whole%  shared-by-two%  settle ns/flow\n";
    for (k, q) in TABLES {
        let sizes = Sizes { kf: 7, f: 16, k, q };
        for load in PERCENTS {
            let (line, whole) = decode_line(random, sizes, load, runs);
            text += &line;
            decoded.push(Decoded { sizes, load, whole });
        }
    }
    text += "\nkeys that differ little, in tables of load 60%\nkeys                              k  q  flows  whole%\n";
    for (name, keys) in STRUCTURED {
        for (k, q) in [(3, 1), (3, 4), (3, 16)] {
            let sizes = Sizes { kf: 7, f: 16, k, q };
            text += &structured_line(random, name, keys, sizes, runs);
        }
    }
    text += "\nflows   F  kf  flowsets with a missed flow%\n";
    for flows in FILTER_FLOWS {
        FILTERS.iter().for_each(|&(f, kf)| text += &filter_line(random, flows, f, kf, runs));
    }
    (text, decoded)
}

fn decode_line(random: &mut Random, sizes: Sizes, percent: usize, runs: usize) -> (String, f64) {
    let flows = sizes.cells() * percent / 100;
    let (mut whole, mut shared, mut listed, mut times) = (0, 0, 0, Vec::new());
    for _ in 0..runs {
        let flow_packets = random_packets(random, flows);
        let [mut a, mut b] = [(); 2].map(|()| open(&encode(random, sizes, &flow_packets).0));
        let started = Instant::now();
        let settled = a.settle();
        times.push(started.elapsed());
        assert!(settled.is_ok(), "an opened image is a session");
        whole += usize::from(is_whole(&a));
        listed += a.list().len();
        let _ = exchange(&mut a, &mut b);
        shared += usize::from(a.list().len() == flows && b.list().len() == flows);
    }
    let percent_of = |count: usize| 100.0 * count as f64 / runs as f64;
    let per_flow = median(times).as_nanos() as f64 / (listed as f64 / runs as f64).max(1.0);
    let (n, k, q) = (sizes.cells(), sizes.k, sizes.q);
    let (whole, shared) = (percent_of(whole), percent_of(shared));
    (format!("{k} {q:2} {n:5} {percent:4}% {flows:6} {whole:7.1} {shared:15.1} {per_flow:15.0}\n"), whole)
}

/// Numbered packets of a kind of traffic.
pub type Keys = fn(u32) -> Ipv4;

pub const STRUCTURED: [(&str, Keys); 4] = [
    ("consecutive source addresses", |n| Ipv4::with_ports(17, 0xc0a8_0a00 + n, 0xc0a8_0a0a, (20_202, 50_000))),
    ("consecutive destination ports", |n| Ipv4::with_ports(17, 0xc0a8_0a15, 0xc0a8_0a0a, (20_202, 50_000 + n as u16))),
    ("addresses and ports together", |n| Ipv4::with_ports(17, 0xc0a8_0a00 + n, 0xc0a8_0a0a, (20_202, 50_000 + n as u16))),
    ("pairs that differ in protocol", |n| {
        Ipv4::with_ports([6, 17][n as usize % 2], 0xc0a8_0a00 + n / 2, 0xc0a8_0a0a, (20_202, 50_000))
    }),
];

fn structured_line(random: &mut Random, name: &str, keys: Keys, sizes: Sizes, runs: usize) -> String {
    let flows = sizes.cells() * 60 / 100;
    let packets: Vec<Vec<u8>> = (0..flows as u32).map(|number| keys(number).bytes()).collect();
    let settled_whole = |random: &mut Random| {
        let mut session = open(&encode(random, sizes, &packets).0);
        session.settle().is_ok() && is_whole(&session)
    };
    let whole = (0..runs).filter(|_| settled_whole(random)).count();
    let (k, q, whole) = (sizes.k, sizes.q, 100.0 * whole as f64 / runs as f64);
    format!("{name:32} {k:2} {q:2} {flows:6} {whole:7.1}\n")
}

fn filter_line(random: &mut Random, flows: usize, f: u8, kf: u8, runs: usize) -> String {
    let sizes = Sizes { kf, f, k: 3, q: 16 };
    let mut missing = 0;
    for _ in 0..runs {
        let flow_packets = random_packets(random, flows);
        missing += usize::from(encode(random, sizes, &flow_packets).1 > 0);
    }
    format!("{flows:5} {f:3} {kf:3} {:15.1}\n", 100.0 * missing as f64 / runs as f64)
}

fn is_whole(session: &Session<Marked>) -> bool {
    session.report().is_ok_and(|report| report.state == State::Whole)
}

pub fn random_packets(random: &mut Random, flows: usize) -> Vec<Vec<u8>> {
    let mut seen = BTreeSet::new();
    while seen.len() < flows {
        let ports = (random.u16(), random.u16());
        seen.insert(Ipv4::with_ports(6, random.u32(), random.u32(), ports).bytes());
    }
    seen.into_iter().collect()
}

/// One packet of each flow under a salt of its own: the image, and how many flows the filter took for old.
fn encode(random: &mut Random, sizes: Sizes, packets: &[Vec<u8>]) -> (Vec<u8>, usize) {
    let header = Header { sizes, salt: random.u32(), slot: 0 };
    let (mut filter, mut cells) = (vec![0; sizes.filter_bytes()], vec![0; sizes.cells_bytes()]);
    let mut take = |packet: &Vec<u8>| encoder::packet(sizes, header.salt, &mut filter, &mut cells, packet);
    let missed = packets.iter().filter(|packet| take(packet) == Ok(Flow::Old)).count();
    let mut sealed = vec![0; sizes.image_bytes()];
    image::seal(header, &filter, &cells, &mut sealed).expect("room and sizes fit");
    (sealed, missed)
}

fn open(image: &[u8]) -> Session<Marked> {
    Session::open(image, 0).expect("a sealed image")
}

fn median(mut times: Vec<Duration>) -> Duration {
    times.sort();
    times[times.len() / 2]
}
