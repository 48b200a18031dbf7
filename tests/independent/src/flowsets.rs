//! Random flowsets from the program's own encoder, with the truth about them.

use std::collections::BTreeMap;

use crate::counters::key_of;
use crate::encoder::Flow;
use crate::image::Header;
use crate::ipv4::Ipv4;
use crate::key::KeyBytes;
use crate::layout::{FLOW_COUNT, KEY_BYTES, PACKET_COUNT};
use crate::random::Random;
use crate::sizes::Sizes;
use crate::working::Encoder;

pub struct Flowset {
    pub encoder: Encoder,
    /// Each flow's packets taken.
    pub packets: BTreeMap<KeyBytes, u32>,
    /// The filter took no new flow for an old one.
    pub clean: bool,
}

impl Flowset {
    pub fn header(&self) -> Header {
        self.encoder.header
    }

    pub fn sealed(&self) -> Vec<u8> {
        self.encoder.sealed()
    }

    pub fn keys(&self) -> Vec<KeyBytes> {
        self.packets.keys().copied().collect()
    }
}

pub fn random_header(random: &mut Random, most_q: usize) -> Header {
    let sizes = Sizes {
        kf: random.between(1, 8) as u8,
        f: random.between(1, 3) as u8,
        k: random.between(2, 4) as u8,
        q: random.between(1, most_q) as u8,
    };
    Header { sizes, salt: random.u32(), slot: random.below(5) as u32 }
}

/// A filter that misses next to nothing.
pub fn good_filter(header: Header) -> Header {
    Header { sizes: Sizes { kf: 5, f: 16, ..header.sizes }, ..header }
}

/// How many flows fill so many hundredths of the cells.
pub fn flows_at(header: Header, percent: usize) -> usize {
    (header.sizes.cells() * percent).div_ceil(100)
}

/// Different flows: from few hosts with ports counting up, or from anywhere.
pub fn random_flows(random: &mut Random, count: usize) -> Vec<Ipv4> {
    let structured = random.once_in(3);
    let base = random.u32();
    let mut flows = BTreeMap::new();
    while flows.len() < count {
        let number = flows.len() as u16;
        let flow = if structured {
            let host = base.wrapping_add(u32::from(random.byte() % 4));
            Ipv4::with_ports(6, host, base ^ 0x0100_0000, (number, 80))
        } else {
            random_flow(random)
        };
        flows.insert(key_of(&flow), flow);
    }
    flows.into_values().collect()
}

pub fn random_flow(random: &mut Random) -> Ipv4 {
    let protocol = random.pick(&[6, 17, 1]);
    Ipv4::with_ports(protocol, random.u32(), random.u32(), (random.u16(), random.u16()))
}

pub fn encode(random: &mut Random, header: Header, flows: &[Ipv4]) -> Flowset {
    encode_into(random, Encoder::new(header), flows)
}

/// Into memory that need not be empty.
pub fn encode_into(random: &mut Random, encoder: Encoder, flows: &[Ipv4]) -> Flowset {
    let mut order: Vec<usize> = Vec::new();
    for number in 0..flows.len() {
        let packets = if random.once_in(10) { random.between(5, 40) } else { random.between(1, 4) };
        order.extend(std::iter::repeat_n(number, packets));
    }
    shuffle(random, &mut order);
    let mut flowset = Flowset { encoder, packets: BTreeMap::new(), clean: true };
    for number in order {
        let first = take(&mut flowset, &flows[number]);
        flowset.clean &= first;
    }
    flowset
}

/// Whether the encoder held the flow for new exactly when it was.
fn take(flowset: &mut Flowset, flow: &Ipv4) -> bool {
    let packets = flowset.packets.entry(key_of(flow)).or_insert(0);
    *packets += 1;
    let expected = if *packets == 1 { Flow::New } else { Flow::Old };
    flowset.encoder.packet(&flow.bytes()) == Ok(expected)
}

/// Random bytes in some cells, or wrong counts.
pub fn damage(random: &mut Random, encoder: &mut Encoder) {
    for _ in 0..random.between(1, 4) {
        let number = random.below(encoder.header.sizes.cells());
        let cell = encoder.cell(number);
        match random.below(4) {
            0 => cell[random.below(KEY_BYTES)] = random.byte(),
            1 => cell[FLOW_COUNT].copy_from_slice(&(random.below(4) as u16).to_be_bytes()),
            2 => cell[PACKET_COUNT].copy_from_slice(&(random.below(10) as u32).to_be_bytes()),
            _ => cell[KEY_BYTES + 1 + random.below(6)] = random.byte(),
        }
    }
    if random.once_in(2) {
        encoder.filter.fill(255);
    }
}

pub fn shuffle<T>(random: &mut Random, items: &mut [T]) {
    for last in (1..items.len()).rev() {
        items.swap(last, random.below(last + 1));
    }
}
