//! The manual's figures: which loads a table bears, what another salt does, what an exchange recovers, and what a missed flow does. All seeded.

use std::collections::{BTreeMap, BTreeSet};

use crate::bytes::{put_u32, u32_at};
use crate::encoder::Flow;
use crate::exchange::exchange;
use crate::flow;
use crate::image::Header;
use crate::inspection;
use crate::ipv4::Ipv4;
use crate::key::{Key, KeyBytes};
use crate::layout::PACKET_COUNT;
use crate::marked::Marked;
use crate::random::Random;
use crate::report::State;
use crate::session::Session;
use crate::sizes::Sizes;
use crate::sizing::{random_packets, STRUCTURED};
use crate::working::Encoder;

/// A filter that missed no flow in these measures, so that only the table decides.
const WIDE: (u8, u8) = (7, 16);

pub fn measure(what: &str, seed: u64, runs: usize) -> Option<String> {
    let random = &mut Random::new(seed);
    let text = match what {
        "loads" => loads(random, runs),
        "salts" => salts(random, runs),
        "sharing" => sharing(random, runs),
        "missed" => missed(random, runs),
        "sizes" => sizes(random, runs),
        _ => return None,
    };
    let figure = match what {
        "missed" => {
            format!("flowsets with a missed flow a line, {TIMES_FOR_FEW} times as many up to {FEW_FLOWS} flows")
        }
        _ => "flowsets a figure".into(),
    };
    Some(format!("# measure {what}: seed {seed}, {runs} {figure}\n{text}"))
}

fn table(k: u8, q: u8) -> Sizes {
    Sizes { kf: WIDE.0, f: WIDE.1, k, q }
}

fn percent(count: usize, of: usize) -> f64 {
    100.0 * count as f64 / of.max(1) as f64
}

/// An image of the packets, each taken so often, and how many of its flows the filter took for old ones.
fn sealed(sizes: Sizes, salt: u32, slot: u32, packets: &[(Vec<u8>, u32)]) -> (Vec<u8>, usize) {
    let mut encoder = Encoder::new(Header { sizes, salt, slot });
    let missed = packets.iter().filter(|(packet, _)| encoder.packet(packet) == Ok(Flow::Old)).count();
    packets.iter().filter(|(_, times)| *times > 1).for_each(|(packet, times)| count(&mut encoder, packet, times - 1));
    (encoder.sealed(), missed)
}

/// So many more packets of a flow that has been taken: they find its filter bits set, and add to PacketCount alone.
fn count(encoder: &mut Encoder, packet: &[u8], more: u32) {
    let Header { sizes, salt, .. } = encoder.header;
    for place in flow::cells(sizes, salt, &key_of(packet)) {
        let cell = encoder.cell(place);
        let packets = u32_at(cell, PACKET_COUNT.start);
        put_u32(cell, PACKET_COUNT.start, packets + more);
    }
}

fn key_of(packet: &[u8]) -> KeyBytes {
    Key::of_packet(packet).expect("a packet with a key").to_bytes()
}

fn opened(sizes: Sizes, salt: u32, slot: u32, packets: &[(Vec<u8>, u32)]) -> Session<Marked> {
    Session::open(&sealed(sizes, salt, slot, packets).0, slot).expect("a sealed image")
}

fn state(session: &Session<Marked>) -> State {
    session.report().expect("a settled session").state
}

/// Whether the flowset of these packets settles whole under a salt.
fn settles_whole(salt: u32, sizes: Sizes, packets: &[(Vec<u8>, u32)]) -> bool {
    let mut session = opened(sizes, salt, 0, packets);
    matches!(session.settle(), Ok(Ok(()))) && state(&session) == State::Whole
}

fn once(packets: Vec<Vec<u8>>) -> Vec<(Vec<u8>, u32)> {
    packets.into_iter().map(|packet| (packet, 1)).collect()
}

// ---- loads

const LOADS: [usize; 5] = [40, 50, 60, 65, 70];

/// Random keys: flowsets that settle whole, in per cent, for every table of three and four parts.
fn loads(random: &mut Random, runs: usize) -> String {
    let mut text = format!("k  q     N {}\n", LOADS.map(|load| format!("{load:5}%")).join(" "));
    for k in [3, 4] {
        for q in 1..=16 {
            let sizes = table(k, q);
            let rates =
                LOADS.map(|load| format!("{:6.1}", whole_rate(random, sizes, sizes.cells() * load / 100, runs)));
            text += &format!("{k} {q:2} {:5} {}\n", sizes.cells(), rates.join(" "));
        }
    }
    text
}

fn whole_rate(random: &mut Random, sizes: Sizes, flows: usize, runs: usize) -> f64 {
    let whole = |random: &mut Random| {
        let packets = once(random_packets(random, flows));
        settles_whole(random.u32(), sizes, &packets)
    };
    percent((0..runs).filter(|_| whole(random)).count(), runs)
}

// ---- sizes

/// At most one flowset in a thousand of a row's flows was not whole.
const FAILS_IN: usize = 1_000;
/// Filter bits of a flow, about: 3,840 F over the flows.
const FLOWS_OF_A_FILTER_BLOCK: usize = 72;
const FILTER_HASHES: u8 = 6;

/// For each table of four parts the most flows, in steps of 5% of its cells, that it bore, and the filter that goes with them.
fn sizes(random: &mut Random, runs: usize) -> String {
    let mut text = String::from("# flows  kf   F  k   q  cells  image bytes  whole%  missed%\n");
    for q in 1..=16 {
        let (flows, whole) = borne(random, table(4, q), runs);
        let f = flows.div_ceil(FLOWS_OF_A_FILTER_BLOCK) as u8;
        let sizes = Sizes { kf: FILTER_HASHES, f, k: 4, q };
        let missed = missed_rate(random, sizes, flows, runs);
        let (cells, bytes) = (sizes.cells(), sizes.image_bytes());
        text += &format!("{flows:7} {FILTER_HASHES:3} {f:3}  4 {q:3} {cells:6} {bytes:12} {whole:7.1} {missed:8.1}\n");
    }
    text
}

/// The flows at the highest load at which few enough flowsets fail, and the share that settled whole.
fn borne(random: &mut Random, sizes: Sizes, runs: usize) -> (usize, f64) {
    for load in (1..=15).rev().map(|steps| 5 * steps) {
        let flows = sizes.cells() * load / 100;
        let whole = whole_rate(random, sizes, flows, runs);
        if whole >= 100.0 - 100.0 / FAILS_IN as f64 {
            return (flows, whole);
        }
    }
    (1, 100.0)
}

fn missed_rate(random: &mut Random, sizes: Sizes, flows: usize, runs: usize) -> f64 {
    let misses = |random: &mut Random| sealed(sizes, random.u32(), 0, &once(random_packets(random, flows))).1 > 0;
    percent((0..runs).filter(|_| misses(random)).count(), runs)
}

// ---- salts

const SALT_TABLES: [(u8, u8); 5] = [(3, 1), (3, 4), (3, 16), (4, 4), (4, 16)];
const SALT_LOADS: [usize; 3] = [20, 40, 60];
const SALTS: [usize; 4] = [1, 2, 4, 8];

/// Keys that differ little: how many flowsets settle whole under the first salt, or under one of the first so many, where salts are drawn and where each is
/// one more than the last; and whether the slot matters.
fn salts(random: &mut Random, runs: usize) -> String {
    let mut text = String::from(
        "                                                  salts, drawn:                 one more each time:\n",
    );
    text += "keys                             k  q  load  flows       1      2      4      8        1      2      4      8  differs by slot\n";
    for (name, keys) in STRUCTURED {
        for (k, q) in SALT_TABLES {
            for load in SALT_LOADS {
                let sizes = table(k, q);
                let flows = sizes.cells() * load / 100;
                let packets = once((0..flows as u32).map(|number| keys(number).bytes()).collect());
                let drawn = salt_rates(runs, || salts_needed(sizes, &packets, || random.u32()));
                let next = salt_rates(runs, || {
                    let mut salt = random.u32();
                    salts_needed(sizes, &packets, || {
                        salt = salt.wrapping_add(1);
                        salt
                    })
                });
                let differ = (0..runs.min(50)).filter(|_| slot_matters(random, sizes, &packets)).count();
                text += &format!("{name:31} {k:2} {q:2} {load:4}% {flows:6}  {drawn}   {next} {differ:6}\n");
            }
        }
    }
    text
}

/// In how many runs at most so many salts were needed, in per cent.
fn salt_rates(runs: usize, mut needed: impl FnMut() -> usize) -> String {
    let needed: Vec<usize> = (0..runs).map(|_| needed()).collect();
    let within = |most: usize| percent(needed.iter().filter(|&&salts| salts <= most).count(), runs);
    SALTS.map(|most| format!("{:6.1}", within(most))).join(" ")
}

/// How many salts it takes until the flowset settles whole; one more than the most that is asked for where none of them does.
fn salts_needed(sizes: Sizes, packets: &[(Vec<u8>, u32)], mut salt: impl FnMut() -> u32) -> usize {
    let most = SALTS[SALTS.len() - 1];
    (1..=most).find(|_| settles_whole(salt(), sizes, packets)).unwrap_or(most + 1)
}

/// The same flows under the same salt in two slots: whether the lists or the states differ.
fn slot_matters(random: &mut Random, sizes: Sizes, packets: &[(Vec<u8>, u32)]) -> bool {
    let (salt, slots) = (random.u32(), [random.u32(), random.u32()]);
    let [a, b] = slots.map(|slot| {
        let mut session = opened(sizes, salt, slot, packets);
        let _ = session.settle();
        (session.list().to_vec(), state(&session))
    });
    a != b
}

// ---- sharing

const SHARING_LOADS: [usize; 6] = [80, 90, 100, 110, 120, 150];
const SHARED: [usize; 3] = [100, 75, 50];

/// Two switches of one size and different salts, some of whose flows are the same: what A lists alone and after an exchange.
fn sharing(random: &mut Random, runs: usize) -> String {
    let mut text = String::from(
        "k  q     N  load  flows  shared  listed% alone  after  counted% after  whole%  short%  stuck%  stray%  refused\n",
    );
    for (k, q) in [(3, 4), (3, 16), (4, 16)] {
        for shared in SHARED {
            SHARING_LOADS.iter().for_each(|&load| text += &sharing_line(random, table(k, q), load, shared, runs));
        }
    }
    text
}

fn sharing_line(random: &mut Random, sizes: Sizes, load: usize, shared: usize, runs: usize) -> String {
    let flows = sizes.cells() * load / 100;
    let common = flows * shared / 100;
    let (mut alone, mut after, mut counted, mut states, mut refused) = (0, 0, 0, [0; 4], 0);
    for _ in 0..runs {
        let packets = once(random_packets(random, 2 * flows - common));
        let of_b = &packets[flows - common..];
        let [mut a, mut b] = [&packets[..flows], of_b].map(|packets| opened(sizes, random.u32(), 0, packets));
        let mut by_itself = a.clone();
        refused += usize::from(!matches!(by_itself.settle(), Ok(Ok(()))));
        refused +=
            usize::from(exchange(&mut a, &mut b).map_or(true, |told| told.damage.is_some() || told.handed_full > 0));
        let report = a.report().expect("a session");
        alone += by_itself.list().len();
        after += report.listed;
        counted += report.counted;
        states[report.state as usize] += 1;
    }
    let [stuck, short, stray, whole] = states.map(|count| percent(count, runs));
    let [alone, after, counted] = [alone, after, counted].map(|count| percent(count, runs * flows));
    let (k, q, n) = (sizes.k, sizes.q, sizes.cells());
    format!("{k} {q:2} {n:5} {load:4}% {flows:6} {shared:6}% {alone:14.1} {after:6.1} {counted:15.1} {whole:7.1} {short:7.1} {stuck:7.1} {stray:7.1} {refused:8}\n")
}

// ---- missed flows

/// What passes a switch in a slot: a packet of each flow, and how often it comes.
type Traffic = fn(&mut Random, usize) -> Vec<(Vec<u8>, u32)>;

/// Flows, and F, kf, k and q: a filter that is too small for them.
type Missing = (usize, [u8; 4]);

const SMALL: [Missing; 7] = [
    (30, [1, 1, 2, 2]),
    (30, [1, 1, 3, 1]),
    (46, [1, 1, 3, 1]),
    (60, [1, 1, 3, 2]),
    (33, [1, 1, 4, 1]),
    (62, [1, 1, 4, 1]),
    (115, [1, 2, 4, 2]),
];
const LARGE: [Missing; 4] = [(187, [1, 1, 3, 4]), (187, [1, 4, 3, 4]), (748, [2, 4, 3, 16]), (748, [4, 4, 3, 16])];
const CELL: [Missing; 4] = [(30, [1, 1, 2, 2]), (30, [1, 1, 3, 1]), (30, [1, 1, 3, 2]), (30, [1, 1, 4, 1])];
const MISSED: [(&str, Traffic, &[Missing]); 4] = [
    ("random keys", random_keys, &SMALL),
    ("random keys", random_keys, &LARGE),
    ("four hosts", four_hosts, &SMALL),
    ("inspection cell", inspection_cell, &CELL),
];

/// Up to so many flows, a missed one now and then ends in a report that says whole: more flowsets show how often.
const FEW_FLOWS: usize = 120;
const TIMES_FOR_FEW: usize = 10;

/// How flowsets end whose filter missed a flow. One that says whole lacks the flow, and other flows' counts have its packets.
fn missed(random: &mut Random, runs: usize) -> String {
    let mut text = String::from("traffic          flows   F  kf  k  q  load  missed%  of these: 14  stuck  stray, right counts  stray, a wrong count  whole, a wrong count\n");
    for (name, traffic, lines) in MISSED {
        for &(flows, sizes) in lines {
            text += &format!("{name:15} {}", missed_line(random, traffic, flows, sizes, runs));
        }
    }
    text
}

fn missed_line(random: &mut Random, traffic: Traffic, flows: usize, [f, kf, k, q]: [u8; 4], runs: usize) -> String {
    let sizes = Sizes { kf, f, k, q };
    let wanted = if flows <= FEW_FLOWS { TIMES_FOR_FEW * runs } else { runs };
    let (mut drawn, mut with_missed, mut ends) = (0, 0, Ends::default());
    while with_missed < wanted {
        let packets = traffic(random, flows);
        let (image, missed) = sealed(sizes, random.u32(), 0, &packets);
        drawn += 1;
        if missed > 0 {
            with_missed += 1;
            ends.add(&image, &packets);
        }
    }
    let (missed, load) = (percent(with_missed, drawn), percent(flows, sizes.cells()));
    let Ends { damage, stuck, stray, miscounted, whole } = ends;
    let [damage, stuck, right, wrong, whole] =
        [damage, stuck, stray - miscounted, miscounted, whole].map(|count| percent(count, with_missed));
    format!("{flows:6} {f:3} {kf:3} {k:2} {q:2} {load:4.0}% {missed:8.1} {damage:13.1} {stuck:6.1} {right:20.1} {wrong:21.1} {whole:21.2}\n")
}

fn random_keys(random: &mut Random, flows: usize) -> Vec<(Vec<u8>, u32)> {
    random_packets(random, flows).into_iter().map(|packet| (packet, some_times(random))).collect()
}

fn some_times(random: &mut Random) -> u32 {
    random.between(1, 20) as u32
}

/// To one server, from ports that count up.
fn four_hosts(random: &mut Random, flows: usize) -> Vec<(Vec<u8>, u32)> {
    let (first_host, server) = (random.u32(), random.u32());
    let flow = |port: usize| {
        let host = first_host.wrapping_add(random.below(4) as u32);
        (Ipv4::with_ports(6, host, server, (50_000 + port as u16, 445)).bytes(), some_times(random))
    };
    (0..flows).map(flow).collect()
}

/// The list's thirty flows with their packets.
fn inspection_cell(random: &mut Random, flows: usize) -> Vec<(Vec<u8>, u32)> {
    let list = inspection::with_chosen_ports(random, inspection::flows());
    assert_eq!(list.len(), flows, "the list's flows");
    list.into_iter().map(|(packet, times)| (packet.bytes(), times)).collect()
}

/// How flowsets with a missed flow end.
#[derive(Default)]
struct Ends {
    damage: usize,
    stuck: usize,
    stray: usize,
    /// Of the stray ones, those with a wrong count.
    miscounted: usize,
    whole: usize,
}

impl Ends {
    fn add(&mut self, image: &[u8], packets: &[(Vec<u8>, u32)]) {
        let mut session: Session<Marked> = Session::open(image, 0).expect("a sealed image");
        if !matches!(session.settle(), Ok(Ok(()))) {
            self.damage += 1;
            return;
        }
        match state(&session) {
            State::Stuck => self.stuck += 1,
            State::Short => unreachable!("without a hand-over every listed flow has its count"),
            State::Stray => {
                self.stray += 1;
                self.miscounted += usize::from(wrong_counts(&session, packets));
            }
            State::Whole => {
                self.whole += 1;
                let unseen = lacks(&session, packets) && wrong_counts(&session, packets);
                assert!(unseen, "with no packet left over, those of a missed flow are in other counts");
            }
        }
    }
}

fn truth(packets: &[(Vec<u8>, u32)]) -> BTreeMap<KeyBytes, u32> {
    packets.iter().map(|(packet, times)| (key_of(packet), *times)).collect()
}

/// Whether a listed count is not the flow's packets.
fn wrong_counts(session: &Session<Marked>, packets: &[(Vec<u8>, u32)]) -> bool {
    let truth = truth(packets);
    session.list().iter().any(|record| truth.get(&record.key) != Some(&record.count))
}

/// Whether a flow that was taken is not listed.
fn lacks(session: &Session<Marked>, packets: &[(Vec<u8>, u32)]) -> bool {
    let listed: BTreeSet<KeyBytes> = session.list().iter().map(|record| record.key).collect();
    truth(packets).keys().any(|key| !listed.contains(key))
}
