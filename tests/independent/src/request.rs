//! The requests of a stream. All numbers are high byte first. A request is op (1 byte), length (3) and payload:
//!
//! | op | payload |
//! |---|---|
//! | 1 hash | any bytes |
//! | 2 key | a packet from its IPv4 header |
//! | 3 places | kf, F, k, q (1 each), salt 4, key 13 |
//! | 4 encoder | kf, F, k, q (1 each), salt 4, slot 4, lengths of filter, cells and image (2 each), mode 1, seed 4, then packets, each as length 2 and bytes |
//! | 5 read | wanted slot 4, image |
//! | 6 to 10 | on sessions: see `session_request` |
//! | 11, 12 | for the library's C entry points: see `sequence` |

use std::io::{self, Write};

use crate::bytes::{u16_at, u32_at};
use crate::image::Header;
use crate::key::KeyBytes;
use crate::layout::KEY_BYTES;
use crate::sizes::Sizes;

pub const HASH: u8 = 1;
pub const KEY: u8 = 2;
pub const PLACES: u8 = 3;
pub const ENCODER: u8 = 4;
pub const READ: u8 = 5;
pub const OPEN: u8 = 6;
pub const REPORT: u8 = 7;
pub const SETTLE: u8 = 8;
pub const HAND_OVER: u8 = 9;
pub const EXCHANGE: u8 = 10;
pub const SEQUENCE: u8 = 11;
pub const PRINT: u8 = 12;

/// The longest buffers that a trial must hold: a little more than 01's longest, so that too long can be tried.
pub const MAX_FILTER: usize = 8_192;
pub const MAX_CELLS: usize = 32_768;
pub const MAX_IMAGE: usize = 41_984;

pub const RUN_HEAD: usize = 23;
pub const READ_HEAD: usize = 4;
const FRAME_HEAD: usize = 4;
const PLACES_BYTES: usize = 8 + KEY_BYTES;

#[derive(Clone, PartialEq, Eq, Debug)]
pub struct Request {
    pub op: u8,
    pub payload: Vec<u8>,
}

impl Request {
    pub fn new(op: u8, payload: impl Into<Vec<u8>>) -> Self {
        Request { op, payload: payload.into() }
    }

    pub fn places(sizes: Sizes, salt: u32, key: &KeyBytes) -> Self {
        let mut payload = sizes.to_bytes().to_vec();
        payload.extend(salt.to_be_bytes());
        payload.extend(key);
        Request::new(PLACES, payload)
    }

    pub fn read(wanted_slot: u32, image: &[u8]) -> Self {
        let mut payload = wanted_slot.to_be_bytes().to_vec();
        payload.extend(image);
        Request::new(READ, payload)
    }

    pub fn to_bytes(&self) -> Vec<u8> {
        let length = self.payload.len() as u32;
        assert!(length < 1 << 24, "a payload's length has three bytes");
        let mut bytes = vec![self.op];
        bytes.extend(&length.to_be_bytes()[1..]);
        bytes.extend(&self.payload);
        bytes
    }
}

pub fn write_stream(requests: &[Request], out: &mut impl Write) -> io::Result<()> {
    requests.iter().try_for_each(|request| out.write_all(&request.to_bytes()))
}

/// None if the stream ends inside a request.
pub fn parse_stream(mut bytes: &[u8]) -> Option<Vec<Request>> {
    let mut requests = Vec::new();
    while !bytes.is_empty() {
        let head = bytes.get(..FRAME_HEAD)?;
        let length = u32_at(head, 0) as usize & 0xff_ffff;
        let payload = bytes.get(FRAME_HEAD..FRAME_HEAD + length)?;
        requests.push(Request::new(head[0], payload));
        bytes = &bytes[FRAME_HEAD + length..];
    }
    Some(requests)
}

/// What a request for places asks; None if its length is wrong.
pub fn parse_places(payload: &[u8]) -> Option<(Sizes, u32, &[u8])> {
    (payload.len() == PLACES_BYTES).then(|| (Sizes::from_bytes(payload), u32_at(payload, 4), &payload[8..]))
}

/// The wanted slot and the image; None if the length is wrong.
pub fn parse_read(payload: &[u8]) -> Option<(u32, &[u8])> {
    (READ_HEAD..=READ_HEAD + MAX_IMAGE).contains(&payload.len()).then(|| (u32_at(payload, 0), &payload[READ_HEAD..]))
}

/// A run of the encoder: memory, packets, seal.
#[derive(Clone, PartialEq, Eq, Debug)]
pub struct Run {
    pub header: Header,
    pub filter_bytes: usize,
    pub cells_bytes: usize,
    pub image_bytes: usize,
    pub mode: u8,
    pub seed: u32,
    pub packets: Vec<Vec<u8>>,
}

impl Run {
    /// A run whose lent buffers have the right lengths.
    pub fn new(header: Header, mode: u8, seed: u32, packets: Vec<Vec<u8>>) -> Self {
        Run {
            header,
            filter_bytes: header.sizes.filter_bytes(),
            cells_bytes: header.sizes.cells_bytes(),
            image_bytes: header.sizes.image_bytes(),
            mode,
            seed,
            packets,
        }
    }

    pub fn to_request(&self) -> Request {
        let mut payload = self.header.sizes.to_bytes().to_vec();
        payload.extend(self.header.salt.to_be_bytes());
        payload.extend(self.header.slot.to_be_bytes());
        for length in [self.filter_bytes, self.cells_bytes, self.image_bytes] {
            payload.extend((length as u16).to_be_bytes());
        }
        payload.push(self.mode);
        payload.extend(self.seed.to_be_bytes());
        for packet in &self.packets {
            payload.extend((packet.len() as u16).to_be_bytes());
            payload.extend(packet);
        }
        Request::new(ENCODER, payload)
    }

    /// None if a length is wrong: of the payload, of a packet or of a buffer.
    pub fn parse(payload: &[u8]) -> Option<Run> {
        let head = payload.get(..RUN_HEAD)?;
        let within = |at, most| Some(usize::from(u16_at(head, at))).filter(|&length| length <= most);
        Some(Run {
            header: Header { sizes: Sizes::from_bytes(head), salt: u32_at(head, 4), slot: u32_at(head, 8) },
            filter_bytes: within(12, MAX_FILTER)?,
            cells_bytes: within(14, MAX_CELLS)?,
            image_bytes: within(16, MAX_IMAGE)?,
            mode: head[18],
            seed: u32_at(head, 19),
            packets: parse_packets(&payload[RUN_HEAD..])?,
        })
    }
}

fn parse_packets(mut bytes: &[u8]) -> Option<Vec<Vec<u8>>> {
    let mut packets = Vec::new();
    while !bytes.is_empty() {
        let length = usize::from(u16_at(bytes.get(..2)?, 0));
        packets.push(bytes.get(2..2 + length)?.to_vec());
        bytes = &bytes[2 + length..];
    }
    Some(packets)
}
