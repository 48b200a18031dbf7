//! The Rattle library beside this program's own engines, in one run on the same fresh inputs: medians and ratios, and a plot.
//!
//! usage: benchmark SEED RUNS [PLOT.svg]
//!        benchmark count rattle|own SEED STEPS packet|image K KF|LOAD
//!
//! Each input is made anew and used once by each side, in turns first, so that neither finds it in the caches more often. The library works in
//! one room that is lent again and again and not cleared between; this program allocates its own at each opening.
#![allow(dead_code)]

mod bytes;
mod chart;
mod counters;
mod encoder;
mod engine;
mod exchange;
mod flow;
mod flowsets;
mod hash;
mod image;
mod index;
mod ipv4;
mod key;
mod layout;
mod lent;
mod marked;
mod memory;
mod places;
mod random;
mod refusal;
mod report;
mod request;
mod rescanning;
mod session;
mod settle;
mod sizes;
mod table;
mod time_plot;
mod words;
mod working;

#[path = "../../../rust/src/lib.rs"]
mod elderflute;

use std::time::Instant;

use elderflute::Lent;
use engine::Engine;
use flowsets::{encode, random_flows, shuffle, Flowset};
use image::Header;
use ipv4::Ipv4;
use key::KeyBytes;
use marked::Marked;
use random::Random;
use rescanning::Rescanning;
use session::Session;
use sizes::Sizes;

const PACKET_SIZES: [(u8, u8); 5] = [(2, 4), (3, 4), (3, 8), (4, 4), (4, 8)];
const LOADS: [usize; 8] = [10, 20, 30, 40, 50, 60, 70, 80];
/// Rescanning takes so much longer that so many inputs must do.
const RESCANNED: usize = 5;
/// Loads of two switches that share all flows.
const SHARED: [usize; 6] = [80, 90, 100, 110, 120, 130];

fn main() {
    let words: Vec<String> = std::env::args().skip(1).collect();
    if words.first().is_some_and(|word| word == "count") {
        println!("{}", count(&words[1..]).expect("the words of a count"));
        return;
    }
    let (Some(seed), Some(runs)) = (number(&words, 0), number(&words, 1)) else {
        eprintln!("usage: benchmark SEED RUNS [PLOT.svg]");
        std::process::exit(2);
    };
    let random = &mut Random::new(seed);
    println!("seed {seed}, {runs} inputs a line, medians; ratio: Rattle / independent");
    packets(random, runs as usize);
    opening(random, runs as usize);
    let curves = [3, 4].map(|k| settling(random, runs as usize, k));
    handing(random, runs as usize);
    exchanging(random, runs as usize);
    reporting(random, runs as usize);
    if let Some(path) = words.get(2) {
        std::fs::write(path, time_plot::plot(&LOADS, &curves)).expect("the plot is written");
    }
}

fn number(words: &[String], at: usize) -> Option<u64> {
    words.get(at)?.parse().ok()
}

// ---- timing

/// Nanoseconds of a call.
fn time<T>(call: impl FnOnce() -> T) -> (f64, T) {
    let start = Instant::now();
    let answer = std::hint::black_box(call());
    (start.elapsed().as_nanos() as f64, answer)
}

fn median(mut times: Vec<f64>) -> f64 {
    times.sort_by(f64::total_cmp);
    times[times.len() / 2]
}

/// Nanoseconds of both sides for one input after the other.
#[derive(Default)]
struct Pair {
    rattle: Vec<f64>,
    own: Vec<f64>,
}

impl Pair {
    /// The two sides go first in turns; each answers its nanoseconds.
    fn add(&mut self, rattle: impl FnOnce() -> f64, own: impl FnOnce() -> f64) {
        if self.rattle.len() % 2 == 0 {
            self.rattle.push(rattle());
            self.own.push(own());
        } else {
            self.own.push(own());
            self.rattle.push(rattle());
        }
    }

    /// Medians, each divided by how many things were done.
    fn per(self, things: f64) -> (f64, f64) {
        (median(self.rattle) / things, median(self.own) / things)
    }
}

// ---- inputs

fn library_sizes(sizes: Sizes) -> elderflute::Sizes {
    let [kf, f, k, q] = sizes.to_bytes().map(u32::from);
    elderflute::Sizes { kf, f, k, q }
}

/// Flows at a load, in per cent of the cells; the filter misses next to nothing.
fn flowset(random: &mut Random, sizes: Sizes, percent: usize) -> (Flowset, Vec<Ipv4>) {
    let header = Header { sizes, salt: random.u32(), slot: random.u32() };
    let flows = random_flows(random, sizes.cells() * percent / 100);
    (encode(random, header, &flows), flows)
}

/// Room for the library, lent again and again.
struct Room {
    filter: Vec<u8>,
    xors: Vec<u8>,
    flows: Vec<u16>,
    packets: Vec<u32>,
    unknowns: Vec<u16>,
    positions: Vec<u16>,
    marks: Vec<u64>,
    keys: Vec<u8>,
    counts: Vec<u32>,
    flags: Vec<u8>,
}

impl Room {
    fn new(sizes: Sizes) -> Self {
        let n = sizes.cells();
        Room {
            filter: vec![0; sizes.filter_bytes()],
            xors: vec![0; 13 * n],
            flows: vec![0; n],
            packets: vec![0; n],
            unknowns: vec![0; n],
            positions: vec![0; n],
            marks: vec![0; n.div_ceil(64)],
            keys: vec![0; 26 * n],
            counts: vec![0; 2 * n],
            flags: vec![0; 2 * n],
        }
    }

    /// Room for two sessions of the same sizes, joined.
    fn joined(sizes: Sizes) -> Self {
        let mut room = Room::new(sizes);
        room.filter.extend_from_within(..);
        room.xors.extend_from_within(..);
        room.flows.extend_from_within(..);
        room.packets.extend_from_within(..);
        room.unknowns.extend_from_within(..);
        room.positions.extend_from_within(..);
        room.marks.extend_from_within(..);
        room.keys.extend_from_within(..);
        room.counts.extend_from_within(..);
        room.flags.extend_from_within(..);
        room
    }

    /// The room of each of two sessions.
    fn halves(&mut self) -> [Lent<'_>; 2] {
        fn cut<T>(all: &mut [T]) -> (&mut [T], &mut [T]) {
            all.split_at_mut(all.len() / 2)
        }
        let (filter, xors, flows) = (cut(&mut self.filter), cut(&mut self.xors), cut(&mut self.flows));
        let (packets, unknowns) = (cut(&mut self.packets), cut(&mut self.unknowns));
        let (positions, marks) = (cut(&mut self.positions), cut(&mut self.marks));
        let (keys, counts, flags) = (cut(&mut self.keys), cut(&mut self.counts), cut(&mut self.flags));
        let first = Lent {
            filter: filter.0,
            xors: xors.0,
            flows: flows.0,
            packets: packets.0,
            unknowns: unknowns.0,
            positions: positions.0,
            marks: marks.0,
            keys: keys.0,
            counts: counts.0,
            flags: flags.0,
        };
        let second = Lent {
            filter: filter.1,
            xors: xors.1,
            flows: flows.1,
            packets: packets.1,
            unknowns: unknowns.1,
            positions: positions.1,
            marks: marks.1,
            keys: keys.1,
            counts: counts.1,
            flags: flags.1,
        };
        [first, second]
    }

    fn lend(&mut self) -> Lent<'_> {
        Lent {
            filter: &mut self.filter,
            xors: &mut self.xors,
            flows: &mut self.flows,
            packets: &mut self.packets,
            unknowns: &mut self.unknowns,
            positions: &mut self.positions,
            marks: &mut self.marks,
            keys: &mut self.keys,
            counts: &mut self.counts,
            flags: &mut self.flags,
        }
    }
}

// ---- the jobs

fn packets(random: &mut Random, runs: usize) {
    println!("\npacket call, F = 16, q = 16, 500 flows   Rattle ns  independent ns  ratio");
    for (k, kf) in PACKET_SIZES {
        let sizes = Sizes { kf, f: 16, k, q: 16 };
        let (mut new, mut old) = (Pair::default(), Pair::default());
        for _ in 0..runs {
            let mut stream: Vec<Vec<u8>> = random_flows(random, 500).iter().map(Ipv4::bytes).collect();
            let salt = random.u32();
            let (mut filter, mut cells) = (vec![0; sizes.filter_bytes()], vec![0; sizes.cells_bytes()]);
            let (mut filter2, mut cells2) = (filter.clone(), cells.clone());
            for pair in [&mut new, &mut old] {
                pair.add(
                    || time(|| stream.iter().for_each(|packet| take(sizes, salt, &mut filter, &mut cells, packet))).0,
                    || {
                        time(|| {
                            stream.iter().for_each(|packet| take_own(sizes, salt, &mut filter2, &mut cells2, packet))
                        })
                        .0
                    },
                );
                shuffle(random, &mut stream);
            }
            assert!(filter == filter2 && cells == cells2, "both sides hold the same");
        }
        line(&format!("k = {k}, kf = {kf}, new flow"), new.per(500.0));
        line(&format!("k = {k}, kf = {kf}, old flow"), old.per(500.0));
    }
}

fn take(sizes: Sizes, salt: u32, filter: &mut [u8], cells: &mut [u8], packet: &[u8]) {
    elderflute::packet(library_sizes(sizes), salt, filter, cells, packet).expect("a good packet");
}

fn take_own(sizes: Sizes, salt: u32, filter: &mut [u8], cells: &mut [u8], packet: &[u8]) {
    encoder::packet(sizes, salt, filter, cells, packet).expect("a good packet");
}

fn line(name: &str, (rattle, own): (f64, f64)) {
    println!("  {name:38} {rattle:9.1}  {own:14.1}  {:5.2}", rattle / own);
}

fn opening(random: &mut Random, runs: usize) {
    println!("\n40,960 bytes, load 50%                   Rattle us  independent us  ratio");
    let sizes = Sizes::LARGEST;
    let (mut reads, mut opens, mut room) = (Pair::default(), Pair::default(), Room::new(sizes));
    for _ in 0..runs {
        let [(first, first_slot), (image, slot)] = [(); 2].map(|()| {
            let (flowset, _) = flowset(random, sizes, 50);
            (flowset.sealed(), flowset.header().slot)
        });
        reads.add(
            || time(|| elderflute::read(&first, first_slot).expect("a good image")).0,
            || time(|| image::read(&first, first_slot).expect("a good image")).0,
        );
        opens.add(
            || time(|| elderflute::open(&image, slot, &mut room.lend()).expect("a good image")).0,
            || time(|| opened::<Marked>(&image, slot)).0,
        );
    }
    line("read", reads.per(1_000.0));
    line("read + open", opens.per(1_000.0));
}

/// Of Rattle, this program's marked engine and its rescanning one: nanoseconds per flow at each load.
fn settling(random: &mut Random, runs: usize, k: u8) -> [Vec<f64>; 3] {
    let sizes = Sizes { kf: 7, f: 16, k, q: 16 };
    println!(
        "\nsettle with test, k = {k}, N = {:4}        Rattle ns  independent ns  ratio  rescanning ns   (per flow)",
        sizes.cells()
    );
    let mut curves = [const { Vec::new() }; 3];
    for load in LOADS {
        let (mut pair, mut rescanned, mut listed, mut room) =
            (Pair::default(), Vec::new(), Vec::new(), Room::new(sizes));
        for run in 0..runs {
            let (flowset, _) = flowset(random, sizes, load);
            let (image, slot) = (flowset.sealed(), flowset.header().slot);
            let mut session = elderflute::open(&image, slot, &mut room.lend()).expect("a good image");
            let mut marked = opened::<Marked>(&image, slot);
            pair.add(|| time(|| session.settle(&mut room.lend()).is_ok()).0, || time(|| settled(&mut marked)).0);
            assert_eq!(session.listed, marked.list().len(), "both sides list the same");
            listed.push(session.listed as f64);
            if run < RESCANNED {
                let mut plain = opened::<Rescanning>(&image, slot);
                rescanned.push(time(|| settled(&mut plain)).0);
            }
        }
        let flows = median(listed).max(1.0);
        let (rattle, own) = pair.per(flows);
        let rescanning = median(rescanned) / flows;
        println!("  {:38} {rattle:9.1}  {own:14.1}  {:5.2}  {rescanning:13.0}", format!("load {load}%"), rattle / own);
        [rattle, own, rescanning].into_iter().zip(&mut curves).for_each(|(point, curve)| curve.push(point));
    }
    curves
}

fn opened<E: Engine>(image: &[u8], slot: u32) -> Session<E> {
    Session::open(image, slot).expect("a good image")
}

fn settled<E: Engine>(session: &mut Session<E>) -> bool {
    session.settle().is_ok_and(|ended| ended.is_ok())
}

/// Each hand-over tests the session first, as every public call does.
fn handing(random: &mut Random, runs: usize) {
    println!("\nhand-over with test, load 100%           Rattle us  independent us  ratio");
    for k in [3, 4] {
        let sizes = Sizes { kf: 7, f: 16, k, q: 16 };
        let (mut pair, mut room) = (Pair::default(), Room::new(sizes));
        for _ in 0..runs {
            let (flowset, _) = flowset(random, sizes, 100);
            let (image, slot) = (flowset.sealed(), flowset.header().slot);
            let keys: Vec<KeyBytes> = flowset.keys().into_iter().take(50).collect();
            let mut session = elderflute::open(&image, slot, &mut room.lend()).expect("a good image");
            let mut marked = opened::<Marked>(&image, slot);
            pair.add(
                || time(|| keys.iter().filter(|key| session.hand_over(key, &mut room.lend()).is_ok()).count()).0,
                || time(|| keys.iter().filter(|key| marked.hand_over(key).is_ok()).count()).0,
            );
            assert_eq!(session.listed, marked.list().len(), "both sides list the same");
        }
        line(&format!("k = {k}, N = {}", sizes.cells()), pair.per(50_000.0));
    }
}

/// Two switches with salts of their own that took the same flows; the tests of both sessions are part of it.
fn exchanging(random: &mut Random, runs: usize) {
    println!("\nexchange with tests, all flows shared     Rattle us  independent us  ratio   (listed by both)");
    for k in [3, 4] {
        let sizes = Sizes { kf: 7, f: 16, k, q: 16 };
        for load in SHARED {
            let (mut pair, mut listed, mut room) = (Pair::default(), Vec::new(), Room::joined(sizes));
            for _ in 0..runs {
                let (flows, slot) = (random_flows(random, sizes.cells() * load / 100), random.u32());
                let images = [(); 2].map(|()| {
                    let header = Header { sizes, salt: random.u32(), slot };
                    encode(random, header, &flows).sealed()
                });
                let [mut first, mut second] = room.halves();
                let mut a = elderflute::open(&images[0], slot, &mut first).expect("a good image");
                let mut b = elderflute::open(&images[1], slot, &mut second).expect("a good image");
                let (mut own_a, mut own_b) = (opened::<Marked>(&images[0], slot), opened::<Marked>(&images[1], slot));
                pair.add(
                    || time(|| elderflute::exchange(&mut a, &mut b, &mut room.lend()).is_ok()).0,
                    || time(|| exchange::exchange(&mut own_a, &mut own_b).is_ok()).0,
                );
                assert_eq!([a.listed, b.listed], [own_a.list().len(), own_b.list().len()], "both sides list the same");
                listed.push((a.listed + b.listed) as f64);
            }
            let (rattle, own) = pair.per(1_000.0);
            let name = format!("k = {k}, N = {}, load {load}%", sizes.cells());
            println!("  {name:38} {rattle:9.1}  {own:14.1}  {:5.2}  {:8.0}", rattle / own, median(listed));
        }
    }
}

/// Of a settled session; the report tests the session first, as every public call does.
fn reporting(random: &mut Random, runs: usize) {
    println!("\nreport with test, load 60%, settled       Rattle us  independent us  ratio");
    for k in [3, 4] {
        let sizes = Sizes { kf: 7, f: 16, k, q: 16 };
        let (mut pair, mut room) = (Pair::default(), Room::new(sizes));
        for _ in 0..runs {
            let (flowset, _) = flowset(random, sizes, 60);
            let (image, slot) = (flowset.sealed(), flowset.header().slot);
            let mut session = elderflute::open(&image, slot, &mut room.lend()).expect("a good image");
            let mut marked = opened::<Marked>(&image, slot);
            assert_eq!(session.settle(&mut room.lend()).is_ok(), settled(&mut marked), "both sides settle");
            pair.add(
                || time(|| session.report(&room.lend()).expect("a session")).0,
                || time(|| marked.report().expect("a session")).0,
            );
        }
        line(&format!("k = {k}, N = {}", sizes.cells()), pair.per(1_000.0));
    }
}

// ---- counting instructions

/// The first steps of a job on one side, under a counter: what it counts with one step fewer, taken away, leaves the last step. Answers how many
/// things that step did.
fn count(words: &[String]) -> Option<usize> {
    let rattle = words.first()? == "rattle";
    let (random, steps) = (&mut Random::new(number(words, 1)?), number(words, 2)?);
    let (k, last) = (number(words, 4)? as u8, number(words, 5)?);
    match words[3].as_str() {
        "packet" => Some(count_packets(random, rattle, steps, Sizes { kf: last as u8, f: 16, k, q: 16 })),
        "image" => Some(count_image(random, rattle, steps, Sizes { kf: 7, f: 16, k, q: 16 }, last as usize)),
        _ => None,
    }
}

/// Steps: 500 new flows, then the same flows again.
fn count_packets(random: &mut Random, rattle: bool, steps: u64, sizes: Sizes) -> usize {
    let stream: Vec<Vec<u8>> = random_flows(random, 500).iter().map(Ipv4::bytes).collect();
    let salt = random.u32();
    let (mut filter, mut cells) = (vec![0; sizes.filter_bytes()], vec![0; sizes.cells_bytes()]);
    let taken = if rattle { take } else { take_own };
    for _ in 0..steps {
        stream.iter().for_each(|packet| taken(sizes, salt, &mut filter, &mut cells, packet));
    }
    stream.len()
}

/// Steps: read, open, settle. Nothing is freed, since the library's room is lent.
fn count_image(random: &mut Random, rattle: bool, steps: u64, sizes: Sizes, load: usize) -> usize {
    let (flowset, _) = flowset(random, sizes, load);
    let (image, slot) = (flowset.sealed(), flowset.header().slot);
    let mut room = Room::new(sizes);
    if steps > 0 {
        let good = if rattle { elderflute::read(&image, slot).is_ok() } else { image::read(&image, slot).is_ok() };
        assert!(good, "a good image");
    }
    if steps > 1 && rattle {
        let mut session = elderflute::open(&image, slot, &mut room.lend()).expect("a good image");
        if steps > 2 {
            session.settle(&mut room.lend()).expect("no damage");
            return session.listed;
        }
    } else if steps > 1 {
        let mut session = std::mem::ManuallyDrop::new(opened::<Marked>(&image, slot));
        if steps > 2 {
            assert!(settled(&mut session), "no damage");
            return session.list().len();
        }
    }
    1
}
