//! Packets of a few hosts with counting ports, so that flows come back; some of them damaged.

use crate::ipv4::Ipv4;
use crate::random::Random;

const NETWORK: u32 = 0x0a00_0000;

pub struct Traffic {
    hosts: usize,
    ports: u16,
    next: u16,
}

impl Traffic {
    pub fn new(random: &mut Random) -> Self {
        Traffic { hosts: random.between(1, 3), ports: random.between(1, 20) as u16, next: 0 }
    }

    /// Every fourth packet is refused for one of the five reasons, each in its turn.
    pub fn turn_packet(&mut self, random: &mut Random, turn: usize) -> Vec<u8> {
        if turn.is_multiple_of(4) {
            self.refused_packet(random, turn / 4 % 5)
        } else {
            self.some_packet(random, 2)
        }
    }

    fn refused_packet(&mut self, random: &mut Random, reason: usize) -> Vec<u8> {
        let packet = self.with_ports(random);
        let header = 4 * usize::from(packet.words);
        let long = random.between(6, 15);
        match reason {
            0 => cut(packet, random.below(20)),
            1 => Ipv4 { version: random.pick(&[0, 3, 5, 6, 15]), ..packet }.bytes(),
            2 => Ipv4 { words: random.below(5) as u8, ..packet }.bytes(),
            3 => cut(Ipv4 { words: long as u8, ..packet }, random.between(20, 4 * long - 1)),
            _ => cut(packet, header + random.below(4)),
        }
    }

    /// A packet, damaged once in `n` times.
    pub fn some_packet(&mut self, random: &mut Random, n: usize) -> Vec<u8> {
        if random.once_in(n) {
            self.damaged_packet(random)
        } else {
            self.good_packet(random)
        }
    }

    fn damaged_packet(&mut self, random: &mut Random) -> Vec<u8> {
        let mut packet = self.good_packet(random);
        for _ in 0..random.pick(&[1, 1, 2, 3]) {
            damage(&mut packet, random);
        }
        packet
    }

    pub fn good_packet(&mut self, random: &mut Random) -> Vec<u8> {
        let mut packet = self.with_ports(random);
        let extra = random.pick(&[0, 0, 1, 9]);
        packet.after.extend(random.bytes(extra));
        let other_protocol = random.once_in(3);
        if other_protocol {
            packet.protocol = random.pick(&[1, 0, 7, 255]);
        }
        if random.once_in(4) {
            packet.fragment = fragment(random);
        }
        if other_protocol || packet.fragment & 0x1fff != 0 {
            packet.after.truncate(random.below(6));
        }
        packet.bytes()
    }

    fn with_ports(&mut self, random: &mut Random) -> Ipv4 {
        self.next = (self.next + 1) % self.ports;
        let ports = (1024 + self.next, 80);
        let packet = Ipv4::with_ports(random.pick(&[6, 17]), self.host(random), self.host(random), ports);
        let words = if random.once_in(4) { random.between(5, 15) as u8 } else { 5 };
        Ipv4 { words, ..packet }
    }

    fn host(&self, random: &mut Random) -> u32 {
        NETWORK + random.below(self.hosts) as u32
    }
}

fn cut(packet: Ipv4, length: usize) -> Vec<u8> {
    let mut bytes = packet.bytes();
    bytes.truncate(length);
    bytes
}

/// Flags alone, one bit of the offset, or anything.
fn fragment(random: &mut Random) -> u16 {
    match random.below(3) {
        0 => random.pick(&[0x2000, 0x4000, 0x8000, 0xe000]),
        1 => 1 << random.below(13),
        _ => random.u16(),
    }
}

fn damage(packet: &mut Vec<u8>, random: &mut Random) {
    let (any, more) = (random.below(packet.len() + 1), random.pick(&[1, 2, 40]));
    match random.below(9) {
        0 => change(packet, 0, |byte| byte & 0x0f | random.byte() & 0xf0),
        1 => change(packet, 0, |byte| byte & 0xf0 | random.byte() & 0x0f),
        2 => change(packet, random.between(6, 7), |_| random.byte()),
        3 => change(packet, 9, |_| random.pick(&[5, 6, 7, 16, 17, 18])),
        4 => packet.truncate(any),
        5 | 6 => packet.truncate(edge_length(packet, random)),
        7 => packet.extend(random.bytes(more)),
        _ => change(packet, any, |_| random.byte()),
    }
}

/// Damage of an earlier round may have cut the byte off.
fn change(packet: &mut [u8], at: usize, new: impl FnOnce(u8) -> u8) {
    if let Some(byte) = packet.get_mut(at) {
        *byte = new(*byte);
    }
}

/// A length at which 01 changes its mind, or next to it.
fn edge_length(packet: &[u8], random: &mut Random) -> usize {
    let header = 4 * packet.first().map_or(5, |byte| usize::from(byte & 15));
    random.pick(&[19, 20, header.saturating_sub(1), header, header + 3, header + 4])
}
