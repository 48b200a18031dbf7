//! The traffic of an inspection cell in one slot: few flows, of very different numbers of packets.

use std::collections::BTreeMap;
use std::net::Ipv4Addr;

use crate::bytes::{put_u16, u16_at};
use crate::image::Header;
use crate::ipv4::Ipv4;
use crate::random::Random;
use crate::sizes::Sizes;
use crate::working::Encoder;

const LIST: &str = include_str!("../../../samples/inspection.flows");
const FIELDS: usize = 6;
/// One filter hash is too few for these flows: under this salt one is missed, and its packets are left over.
pub const MISSING: Header = Header { sizes: Sizes { kf: 1, f: 1, k: 3, q: 2 }, salt: 171, slot: 7 };
/// Ports from here on are a host's to choose.
const FIRST_CHOSEN: u16 = 49_152;

/// The lines of flows: source, source port, destination, destination port, protocol and packets.
pub fn lines() -> impl Iterator<Item = &'static str> {
    LIST.lines().filter(|line| !line.starts_with('#') && line.split_whitespace().count() == FIELDS)
}

/// A packet of each flow and how often it is taken, in the order of the list.
pub fn flows() -> Vec<(Ipv4, u32)> {
    lines().map(flow).collect()
}

fn flow(line: &str) -> (Ipv4, u32) {
    let words: Vec<&str> = line.split_whitespace().collect();
    let ports = (number(words[1]) as u16, number(words[3]) as u16);
    (Ipv4::with_ports(number(words[4]) as u8, address(words[0]), address(words[2]), ports), number(words[5]))
}

fn number(word: &str) -> u32 {
    word.parse().expect("a number of the list")
}

fn address(word: &str) -> u32 {
    word.parse::<Ipv4Addr>().expect("an address of the list").into()
}

/// The same between other ports.
pub fn with_ports(mut flows: Vec<(Ipv4, u32)>, mut other: impl FnMut(u16) -> u16) -> Vec<(Ipv4, u32)> {
    for (flow, _) in &mut flows {
        for at in [0, 2] {
            let port = other(u16_at(&flow.after, at));
            put_u16(&mut flow.after, at, port);
        }
    }
    flows
}

/// The same where the hosts have chosen other ports: what these very keys do under a hash, others need not.
pub fn with_chosen_ports(random: &mut Random, flows: Vec<(Ipv4, u32)>) -> Vec<(Ipv4, u32)> {
    let mut chosen = BTreeMap::new();
    with_ports(flows, |port| match port {
        FIRST_CHOSEN.. => *chosen.entry(port).or_insert_with(|| FIRST_CHOSEN | random.u16()),
        _ => port,
    })
}

/// As the encoder takes them, one flow after the other.
pub fn encoded(header: Header, flows: &[(Ipv4, u32)]) -> Encoder {
    let mut encoder = Encoder::new(header);
    for (flow, packets) in flows {
        let packet = flow.bytes();
        (0..*packets).for_each(|_| assert!(encoder.packet(&packet).is_ok(), "a counter is full"));
    }
    encoder
}
