//! Packets to keys, and keys to places.

use super::Edge;
use crate::ipv4::Ipv4;
use crate::layout::KEY_BYTES;
use crate::request::{Request, KEY};
use crate::sizes::Sizes;

const ICMP: u8 = 1;
const TCP: u8 = 6;
const UDP: u8 = 17;
const PORTS: [u8; 4] = [0x12, 0x34, 0x56, 0x78];

/// 10.0.0.1 to 192.168.255.254.
const SOURCE: u32 = 0x0a00_0001;
const DESTINATION: u32 = 0xc0a8_fffe;

fn packet(protocol: u8, after: &[u8]) -> Ipv4 {
    Ipv4::new(protocol, SOURCE, DESTINATION, after)
}

fn edge(name: impl Into<String>, packet: impl Into<Vec<u8>>, expected: impl Into<String>) -> Edge {
    Edge::new(name, Request::new(KEY, packet), expected)
}

fn with_ports(protocol: u8) -> String {
    format!("0 0a000001c0a8fffe12345678{protocol:02x} 167772161 3232301054 4660 22136 {protocol}")
}

fn without_ports(protocol: u8) -> String {
    format!("0 0a000001c0a8fffe00000000{protocol:02x} 167772161 3232301054 0 0 {protocol}")
}

pub fn edges() -> Vec<Edge> {
    [lengths(), versions(), header_lengths(), fragments(), protocols(), unread_fields(), extreme_keys()]
        .into_iter()
        .flatten()
        .collect()
}

fn lengths() -> Vec<Edge> {
    let icmp = packet(ICMP, &[]).bytes();
    let mut edges = vec![
        edge("no bytes", [], "6"),
        edge("1 byte", &icmp[..1], "6"),
        edge("19 bytes", &icmp[..19], "6"),
        edge("20 bytes", &icmp[..20], without_ports(ICMP)),
    ];
    for protocol in [TCP, UDP] {
        let whole = packet(protocol, &PORTS).bytes();
        for length in 19..24 {
            edges.push(edge(format!("protocol {protocol}, {length} bytes"), &whole[..length], "6"));
        }
        edges.push(edge(format!("protocol {protocol}, 24 bytes"), whole, with_ports(protocol)));
        let longer = packet(protocol, &[&PORTS[..], &[0xff; 9]].concat()).bytes();
        edges.push(edge(format!("protocol {protocol}, 33 bytes"), longer, with_ports(protocol)));
    }
    edges
}

fn versions() -> Vec<Edge> {
    (0..16)
        .map(|version| {
            let expected = if version == 4 { with_ports(TCP) } else { "6".into() };
            edge(format!("version {version}"), Ipv4 { version, ..packet(TCP, &PORTS) }.bytes(), expected)
        })
        .collect()
}

fn header_lengths() -> Vec<Edge> {
    let mut edges = Vec::new();
    for words in 0..5 {
        let short = Ipv4 { words, ..packet(TCP, &PORTS) }.bytes();
        edges.push(edge(format!("header of {words} words"), short, "6"));
    }
    for words in 5..16 {
        let tcp = Ipv4 { words, ..packet(TCP, &PORTS) }.bytes();
        let icmp = Ipv4 { words, ..packet(ICMP, &[]) }.bytes();
        let header = icmp.len();
        edges.push(edge(format!("{words} words, one byte short"), &icmp[..header - 1], "6"));
        edges.push(edge(format!("{words} words, exact"), icmp, without_ports(ICMP)));
        edges.push(edge(format!("{words} words, no ports"), &tcp[..header], "6"));
        edges.push(edge(format!("{words} words, 3 bytes of ports"), &tcp[..header + 3], "6"));
        edges.push(edge(format!("{words} words, ports"), tcp, with_ports(TCP)));
    }
    let hollow = packet(TCP, &PORTS).bytes();
    let longer = [&[0x4f], &hollow[1..]].concat();
    edges.push(edge("header longer than the packet", longer, "6"));
    edges
}

fn fragments() -> Vec<Edge> {
    let mut edges = Vec::new();
    for protocol in [TCP, UDP] {
        for flags in [0x2000, 0x4000, 0x8000, 0xe000] {
            let whole = Ipv4 { fragment: flags, ..packet(protocol, &PORTS) }.bytes();
            edges.push(edge(format!("flags {flags:04x}, 23 bytes"), &whole[..23], "6"));
            edges.push(edge(format!("flags {flags:04x}, 24 bytes"), whole, with_ports(protocol)));
        }
        for fragment in [1, 0x00ff, 0x0100, 0x1000, 0x1fff, 0x2001, 0xffff] {
            let whole = Ipv4 { fragment, ..packet(protocol, &PORTS) }.bytes();
            edges.push(edge(format!("offset {fragment:04x}, 20 bytes"), &whole[..20], without_ports(protocol)));
            edges.push(edge(format!("offset {fragment:04x}, 24 bytes"), whole, without_ports(protocol)));
        }
    }
    edges
}

fn protocols() -> Vec<Edge> {
    [0, 1, 5, 7, 16, 18, 58, 255]
        .map(|protocol| edge(format!("protocol {protocol}"), packet(protocol, &PORTS).bytes(), without_ports(protocol)))
        .into()
}

/// Total length and checksum.
fn unread_fields() -> Vec<Edge> {
    let mut edges = Vec::new();
    for value in [0, 20, 255] {
        for at in [2, 3, 10, 11] {
            let mut bytes = packet(UDP, &PORTS).bytes();
            bytes[at] = value;
            edges.push(edge(format!("byte {at} is {value}"), bytes, with_ports(UDP)));
        }
    }
    edges
}

fn extreme_keys() -> Vec<Edge> {
    let zeros = Ipv4::new(0, 0, 0, []).bytes();
    let ones = Ipv4::new(255, u32::MAX, u32::MAX, []).bytes();
    let most = Ipv4::with_ports(UDP, u32::MAX, u32::MAX, (u16::MAX, u16::MAX)).bytes();
    vec![
        edge("all zeros", zeros, "0 00000000000000000000000000 0 0 0 0 0"),
        edge("ones", ones, "0 ffffffffffffffff00000000ff 4294967295 4294967295 0 0 255"),
        edge("most", most, "0 ffffffffffffffffffffffff11 4294967295 4294967295 65535 65535 17"),
    ]
}

/// The places themselves were worked out by another program.
pub fn places() -> Vec<Edge> {
    let middle = Sizes { kf: 3, f: 2, k: 3, q: 2 };
    let key = [10, 0, 0, 1, 10, 0, 0, 2, 4, 0, 0, 80, 6];
    let largest_places = "0 38 410 987 1424 39007 52957 11587 47490 30161 43239 37312 57947";
    let mut edges = vec![
        Edge::new("smallest, zero key", Request::places(Sizes::SMALLEST, 0, &[0; KEY_BYTES]), "0 13 33 132"),
        Edge::new("middle", Request::places(middle, 9, &key), "0 7 59 143 2216 5346 600"),
        Edge::new("largest", Request::places(Sizes::LARGEST, u32::MAX, &[255; KEY_BYTES]), largest_places),
    ];
    for (sizes, good) in size_edges() {
        let expected = if good { "0" } else { "3" };
        edges.push(Edge::new(format!("{sizes:?}"), Request::places(sizes, 9, &key), expected));
    }
    let mut short = Request::places(middle, 9, &key);
    short.payload.pop();
    let mut long = Request::places(middle, 9, &key);
    long.payload.push(0);
    edges.push(Edge::new("20 bytes of places", short, "length"));
    edges.push(Edge::new("22 bytes of places", long, "length"));
    edges
}

/// Sizes on both sides of each end of their ranges, and whether all are in range.
pub fn size_edges() -> Vec<(Sizes, bool)> {
    let base = Sizes { kf: 3, f: 1, k: 2, q: 1 };
    let mut edges = vec![(Sizes::SMALLEST, true), (Sizes::LARGEST, true)];
    edges.extend([(0, false), (1, true), (8, true), (9, false)].map(|(kf, good)| (Sizes { kf, ..base }, good)));
    edges.extend([(0, false), (1, true), (16, true), (17, false)].map(|(f, good)| (Sizes { f, ..base }, good)));
    edges.extend(
        [(0, false), (1, false), (2, true), (4, true), (5, false)].map(|(k, good)| (Sizes { k, ..base }, good)),
    );
    edges.extend([(0, false), (1, true), (16, true), (17, false)].map(|(q, good)| (Sizes { q, ..base }, good)));
    edges
}
