//! From a packet to its key.

use crate::bytes::{u16_at, u32_at};
use crate::layout::KEY_BYTES;
use crate::refusal::Refusal;

const MIN_HEADER: usize = 20;
const PORTS_BYTES: usize = 4;
const TCP: u8 = 6;
const UDP: u8 = 17;

pub type KeyBytes = [u8; KEY_BYTES];

#[derive(Clone, Copy, PartialEq, Eq, Debug)]
pub struct Key {
    pub source: u32,
    pub destination: u32,
    pub source_port: u16,
    pub destination_port: u16,
    pub protocol: u8,
}

impl Key {
    pub fn to_bytes(self) -> KeyBytes {
        let mut bytes = [0; KEY_BYTES];
        bytes[0..4].copy_from_slice(&self.source.to_be_bytes());
        bytes[4..8].copy_from_slice(&self.destination.to_be_bytes());
        bytes[8..10].copy_from_slice(&self.source_port.to_be_bytes());
        bytes[10..12].copy_from_slice(&self.destination_port.to_be_bytes());
        bytes[12] = self.protocol;
        bytes
    }

    pub fn of_packet(packet: &[u8]) -> Result<Key, Refusal> {
        let header = header_bytes(packet)?;
        let (source_port, destination_port) = ports(packet, header)?;
        Ok(Key {
            source: u32_at(packet, 12),
            destination: u32_at(packet, 16),
            source_port,
            destination_port,
            protocol: packet[9],
        })
    }
}

fn header_bytes(packet: &[u8]) -> Result<usize, Refusal> {
    if packet.len() < MIN_HEADER {
        return Err(Refusal::PacketShort);
    }
    if packet[0] >> 4 != 4 {
        return Err(Refusal::Version);
    }
    let header = 4 * usize::from(packet[0] & 15);
    if header < MIN_HEADER {
        Err(Refusal::HeaderShort)
    } else if header > packet.len() {
        Err(Refusal::HeaderLong)
    } else {
        Ok(header)
    }
}

/// The ports stand after the header's own length; only a first fragment of TCP or UDP has them.
fn ports(packet: &[u8], header: usize) -> Result<(u16, u16), Refusal> {
    if !has_ports(packet) {
        Ok((0, 0))
    } else if packet.len() - header < PORTS_BYTES {
        Err(Refusal::PortsShort)
    } else {
        Ok((u16_at(packet, header), u16_at(packet, header + 2)))
    }
}

/// Of a packet with at least the shortest header.
pub fn has_ports(packet: &[u8]) -> bool {
    is_port_protocol(packet) && fragment_offset(packet) == 0
}

pub fn is_port_protocol(packet: &[u8]) -> bool {
    matches!(packet[9], TCP | UDP)
}

fn fragment_offset(packet: &[u8]) -> u16 {
    u16_at(packet, 6) & 0x1fff
}
