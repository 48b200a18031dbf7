//! Flowsets for sessions: clean, with flows that the filter missed, with something left over, or spoiled before they are
//! sealed.

use std::collections::BTreeMap;

use crate::bytes::{put_u16, put_u32, u32_at};
use crate::counters::key_of;
use crate::flow;
use crate::flowsets::{damage, encode, encode_into, flows_at, random_flow, random_flows, shuffle, Flowset};
use crate::generate::any_sizes;
use crate::image::Header;
use crate::ipv4::Ipv4;
use crate::key::KeyBytes;
use crate::layout::{FLOW_COUNT, KEY_BYTES, PACKET_COUNT};
use crate::marked::Marked;
use crate::random::Random;
use crate::session::Session;
use crate::sizes::Sizes;
use crate::table::Cell;
use crate::working::Encoder;

/// What settling a spoiled table meets.
#[derive(Clone, Copy)]
pub enum Spoiled {
    PeelListed,
    PeelEmptyCell,
    CountZero,
    CountOver,
}

/// Which cell; a middle one is any but the first and the last.
#[derive(Clone, Copy)]
pub enum Which {
    First,
    Middle,
    Last,
}

pub const WHICH: [Which; 3] = [Which::First, Which::Middle, Which::Last];

/// What is left over: a byte of FlowXOR, or packets.
#[derive(Clone, Copy)]
pub enum Left {
    FirstByte,
    LastByte,
    Packets,
}

pub const LEFT: [Left; 3] = [Left::FirstByte, Left::LastByte, Left::Packets];

/// A flowset with its flows, some of which the filter may have missed.
pub struct Table {
    pub flowset: Flowset,
    pub flows: Vec<Ipv4>,
}

/// Mostly small, which keeps the lines short; seldom the largest. The filter misses next to nothing.
pub fn header(random: &mut Random) -> Header {
    let sizes = match random.below(80) {
        0 => Sizes { kf: 7, ..Sizes::LARGEST },
        1 | 2 => Sizes { kf: 7, f: random.between(8, 16) as u8, ..any_sizes(random) },
        _ => Sizes {
            kf: random.between(4, 8) as u8,
            f: random.pick(&[1, 1, 2]),
            k: random.between(2, 4) as u8,
            q: random.pick(&[1, 1, 1, 2]),
        },
    };
    Header { sizes, salt: random.u32(), slot: random.pick(&[0, 7, 0x8000_0001]) }
}

/// A clean table whose load lies between so many hundredths of its cells.
pub fn clean(random: &mut Random, percents: (usize, usize)) -> Table {
    let header = header(random);
    let flows = flows_for(random, header, percents);
    of_flows(random, header, flows)
}

pub fn of_flows(random: &mut Random, header: Header, flows: Vec<Ipv4>) -> Table {
    let mut flowset = encode(random, header, &flows);
    if random.once_in(4) {
        swell(&mut flowset);
    }
    Table { flowset, flows }
}

/// As if each packet had come many times: the fullest cell is as full as it can be.
fn swell(flowset: &mut Flowset) {
    let n = flowset.header().sizes.cells();
    let packets = |flowset: &mut Flowset, number| u32_at(flowset.encoder.cell(number), PACKET_COUNT.start);
    let most = (0..n).map(|number| packets(flowset, number)).max().unwrap_or(0);
    let times = u32::MAX / most.max(1);
    for number in 0..n {
        let count = times * packets(flowset, number);
        put_u32(flowset.encoder.cell(number), PACKET_COUNT.start, count);
    }
    flowset.packets.values_mut().for_each(|count| *count *= times);
}

pub fn flows_for(random: &mut Random, header: Header, (low, high): (usize, usize)) -> Vec<Ipv4> {
    let percent = random.between(low, high);
    random_flows(random, flows_at(header, percent))
}

/// One filter hash, and some of its bits are set before the first packet: flows are missed.
pub fn missed(random: &mut Random) -> Table {
    let header = header(random);
    let header = Header { sizes: Sizes { kf: 1, f: 1, ..header.sizes }, ..header };
    let flows = flows_for(random, header, (25, 60));
    let mut encoder = Encoder::new(header);
    for _ in 0..random.below(120) {
        let byte = random.below(encoder.filter.len());
        encoder.filter[byte] |= 1 << random.below(8);
    }
    Table { flowset: encode_into(random, encoder, &flows), flows }
}

/// One filter hash: a flow is missed, settling finds all others, and its packets are mostly left over.
pub fn overlooked(random: &mut Random) -> Table {
    loop {
        let header = header(random);
        let header = Header { sizes: Sizes { kf: 1, f: 1, ..header.sizes }, ..header };
        let flows = flows_for(random, header, (25, 60));
        let flowset = encode(random, header, &flows);
        if !flowset.clean && leaves_none_open(&flowset) {
            return Table { flowset, flows };
        }
    }
}

/// Settling finds all flows, and one thing is left over in a cell that none of them has.
pub fn stray(random: &mut Random, which: Which, left: Left) -> Table {
    loop {
        let mut table = clean(random, (0, 30));
        let last = table.flowset.header().sizes.cells() - 1;
        let number = match which {
            Which::First => 0,
            Which::Middle => random.between(1, last - 1),
            Which::Last => last,
        };
        let is_empty = cell(&mut table.flowset.encoder, number) == Cell::default();
        if table.flowset.clean && is_empty && leaves_none_open(&table.flowset) {
            leave(random, table.flowset.encoder.cell(number), left);
            return table;
        }
    }
}

fn leave(random: &mut Random, cell: &mut [u8], left: Left) {
    let any = random.u32() | 1;
    match left {
        Left::FirstByte => cell[0] = random.pick(&[1, 0x80, any as u8]),
        Left::LastByte => cell[KEY_BYTES - 1] = random.pick(&[1, 0x80, any as u8]),
        Left::Packets => put_u32(cell, PACKET_COUNT.start, random.pick(&[1, 1 << 8, 1 << 16, 1 << 24, u32::MAX, any])),
    }
}

/// Whether settling does so, without a 14.
fn leaves_none_open(flowset: &Flowset) -> bool {
    let mut session = Session::<Marked>::open(&flowset.sealed(), flowset.header().slot).expect("a sealed image");
    session.settle() == Ok(Ok(())) && session.engine.table.open_cells() == 0
}

/// Any wrong bytes in some cells; the filter may pass all.
pub fn damaged(random: &mut Random) -> Table {
    let mut table = clean(random, (5, 130));
    damage(random, &mut table.flowset.encoder);
    table
}

/// So lightly loaded that nearly all flows peel.
pub fn spoiled(random: &mut Random, spoiled: Spoiled) -> Table {
    let mut table = clean(random, (25, 40));
    spoil(&mut table.flowset, spoiled, random);
    table
}

/// 2 N - k + 1 flows in N cells. Every cell has one of the first N and one of the others at least, so nothing peels before
/// the first N are taken out. Then all others do: each has a cell that none before it has, and the last one peels first.
pub fn longest(random: &mut Random, header: Header) -> Table {
    loop {
        let others = covering(random, header, |new| new == 1);
        let mut flows = covering(random, header, |new| new > 0);
        flows.resize_with(header.sizes.cells(), || random_flow(random));
        flows.extend(others);
        let table = of_flows(random, header, flows);
        if table.flowset.clean {
            return table;
        }
    }
}

/// Flows that together have every cell; `fits` says how many new ones each may add to those before it.
fn covering(random: &mut Random, Header { sizes, salt, .. }: Header, fits: impl Fn(usize) -> bool) -> Vec<Ipv4> {
    let mut covered = vec![false; sizes.cells()];
    let mut flows = Vec::new();
    while covered.contains(&false) {
        let flow = random_flow(random);
        let places = flow::cells(sizes, salt, &key_of(&flow));
        let new = places.iter().filter(|&&place| !covered[place]).count();
        if flows.is_empty() || fits(new) {
            places.into_iter().for_each(|place| covered[place] = true);
            flows.push(flow);
        }
    }
    flows
}

/// Two flows that have the same cells.
pub fn sharing_cells(random: &mut Random, Header { sizes, salt, .. }: Header) -> Vec<Ipv4> {
    let mut flows = BTreeMap::new();
    loop {
        let flow = random_flow(random);
        if let Some(other) = flows.insert(flow::cells(sizes, salt, &key_of(&flow)), flow.clone()) {
            return vec![flow, other];
        }
    }
}

/// In part 0 the lowest cells stand: what is spoiled there is met before the flow leaves by another cell.
pub fn spoil(flowset: &mut Flowset, spoiled: Spoiled, random: &mut Random) {
    let Header { sizes, salt, .. } = flowset.header();
    let mut keys: Vec<KeyBytes> = flowset.keys();
    shuffle(random, &mut keys);
    let encoder = &mut flowset.encoder;
    let wanted = if matches!(spoiled, Spoiled::PeelListed) { 2 } else { 1 };
    let mut places = keys.iter().map(|key| flow::cells(sizes, salt, key));
    let Some(places) = places.find(|places| cell(encoder, places[0]).flow_count == wanted) else { return };
    let (first, other) = (places[0], random.pick(&places[1..]));
    let count = cell(encoder, first).packet_count;
    match spoiled {
        Spoiled::PeelListed => encoder.cell(first)[..KEY_BYTES].fill(0),
        Spoiled::PeelEmptyCell => encoder.cell(other)[FLOW_COUNT].fill(0),
        Spoiled::CountZero => encoder.cell(first)[PACKET_COUNT].fill(0),
        Spoiled::CountOver => encoder.cell(other)[PACKET_COUNT].copy_from_slice(&(count - 1).to_be_bytes()),
    }
}

/// A flow all of whose cells have another, and the first of them seems to hold it twice: handed over once, it stands
/// there alone, a listed flow whose cells are all open.
pub fn twice(random: &mut Random) -> (Table, KeyBytes) {
    loop {
        let mut table = clean(random, (110, 150));
        let Header { sizes, salt, .. } = table.flowset.header();
        let keys = table.flowset.keys();
        let encoder = &mut table.flowset.encoder;
        let mut shares_all = |key: &KeyBytes| {
            let places = flow::cells(sizes, salt, key);
            places.into_iter().all(|place| cell(encoder, place).flow_count > 1)
        };
        if let Some(key) = keys.into_iter().find(|key| shares_all(key)) {
            let first = encoder.cell(flow::cells(sizes, salt, &key)[0]);
            first[..KEY_BYTES].fill(0);
            put_u16(first, FLOW_COUNT.start, 2);
            return (table, key);
        }
    }
}

fn cell(encoder: &mut Encoder, number: usize) -> Cell {
    Cell::from_bytes(encoder.cell(number))
}
