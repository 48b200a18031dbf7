//! Seeds whose noise holds a full counter at a chosen cell, and flows that have this cell.

use crate::flow;
use crate::ipv4::Ipv4;
use crate::key::{Key, KeyBytes};
use crate::layout::{CELL_BYTES, FLOW_COUNT, PACKET_COUNT};
use crate::memory::{seed_reaching, Noise};
use crate::sizes::Sizes;

#[derive(Clone, Copy, PartialEq, Eq, Debug)]
pub enum Counter {
    Flows,
    Packets,
}

/// The generator's states just after the first byte of FF FF FF FF and of FF FF FF FE: it meets each of these only once
/// in its period.
const PACKETS_FULL: u32 = 0xff9d_8f64;
const PACKETS_ONE_SHORT: u32 = 0xff6c_9ed7;

/// A seed for noise in which the cell's counter is full, or one short of it. `choice` varies the seed where it can.
pub fn seed_with(sizes: Sizes, cell: usize, counter: Counter, full: bool, choice: u32) -> u32 {
    let (state, within) = match counter {
        Counter::Flows => (flows_state(full, choice), FLOW_COUNT.start),
        Counter::Packets => (if full { PACKETS_FULL } else { PACKETS_ONE_SHORT }, PACKET_COUNT.start),
    };
    seed_reaching(state, sizes.filter_bytes() + CELL_BYTES * cell + within)
}

/// A state just after the first byte of FF FF or FF FE.
fn flows_state(full: bool, choice: u32) -> u32 {
    let second = if full { 0xff } else { 0xfe };
    (0..)
        .map(|step: u32| choice.wrapping_add(step) | 0xff00_0000)
        .find(|&state| Noise::new(state).byte() == second)
        .expect("the low 24 bits reach every next byte")
}

/// A packet whose flow has the cell; one of many, by `choice`.
pub fn flow_hitting(sizes: Sizes, salt: u32, cell: usize, choice: u32) -> Ipv4 {
    find_flow(choice, |key| flow::cells(sizes, salt, key).contains(&cell))
}

/// A packet whose key is wanted, the first from number `choice` on.
pub fn find_flow(choice: u32, wanted: impl Fn(&[u8]) -> bool) -> Ipv4 {
    (0..)
        .map(|step| numbered_packet(choice.wrapping_add(step)))
        .find(|packet| wanted(&key_of(packet)))
        .expect("some flow is wanted")
}

pub fn key_of(packet: &Ipv4) -> KeyBytes {
    Key::of_packet(&packet.bytes()).expect("a good packet").to_bytes()
}

fn numbered_packet(number: u32) -> Ipv4 {
    Ipv4::with_ports(17, 0x0a00_0001, 0x0a00_0002, ((number >> 16) as u16, number as u16))
}
