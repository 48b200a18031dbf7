//! The requests on sessions. Numbers are high byte first, as in the others.
//!
//! | op | payload |
//! |---|---|
//! | 6 open | wanted slot 4, ten lengths (3 each), seed 4, image |
//! | 7 report, 8 settle | session |
//! | 9 hand-over | session, key 13 |
//! | 10 exchange | two sessions |
//!
//! A session is kf, F, k, q (1 each), salt 4, slot 4, listed 4, ten lengths (3 each), and the elements of ten slices.

use crate::bytes::u32_at;
use crate::image::Header;
use crate::key::KeyBytes;
use crate::lent::{Lengths, Lent, SLICES};
use crate::lent_session::LentSession;
use crate::request::{Request, EXCHANGE, HAND_OVER, OPEN};
use crate::sizes::Sizes;

const LENGTH_BYTES: usize = 3;
/// What stands before the elements, and before the image.
pub const SESSION_HEAD: usize = 16 + LENGTH_BYTES * SLICES.len();
pub const OPEN_HEAD: usize = 8 + LENGTH_BYTES * SLICES.len();

#[derive(Clone, PartialEq, Eq, Debug)]
pub struct Open {
    pub wanted_slot: u32,
    pub lengths: Lengths,
    pub seed: u32,
    pub image: Vec<u8>,
}

impl Open {
    pub fn to_request(&self) -> Request {
        let mut payload = self.wanted_slot.to_be_bytes().to_vec();
        put_lengths(&mut payload, self.lengths);
        payload.extend(self.seed.to_be_bytes());
        payload.extend(&self.image);
        Request::new(OPEN, payload)
    }

    /// None if a length is wrong: of the payload or of a slice. Any image will do.
    pub fn parse(mut payload: &[u8]) -> Option<Open> {
        let bytes = &mut payload;
        let (wanted_slot, lengths, seed) = (take_u32(bytes)?, take_lengths(bytes)?, take_u32(bytes)?);
        Some(Open { wanted_slot, lengths, seed, image: bytes.to_vec() })
    }
}

/// Of report or settle.
pub fn request_on(op: u8, session: &LentSession) -> Request {
    Request::new(op, session_bytes(session))
}

pub fn hand_over_request(session: &LentSession, key: &KeyBytes) -> Request {
    Request::new(HAND_OVER, [&session_bytes(session)[..], key].concat())
}

pub fn exchange_request(a: &LentSession, b: &LentSession) -> Request {
    Request::new(EXCHANGE, [session_bytes(a), session_bytes(b)].concat())
}

pub fn parse_session(mut payload: &[u8]) -> Option<LentSession> {
    let session = take_session(&mut payload)?;
    payload.is_empty().then_some(session)
}

pub fn parse_hand_over(mut payload: &[u8]) -> Option<(LentSession, KeyBytes)> {
    let session = take_session(&mut payload)?;
    Some((session, payload.try_into().ok()?))
}

pub fn parse_exchange(mut payload: &[u8]) -> Option<(LentSession, LentSession)> {
    let sessions = (take_session(&mut payload)?, take_session(&mut payload)?);
    payload.is_empty().then_some(sessions)
}

pub fn session_bytes(session: &LentSession) -> Vec<u8> {
    let Header { sizes, salt, slot } = session.header;
    let mut bytes = sizes.to_bytes().to_vec();
    for number in [salt, slot, session.listed] {
        bytes.extend(number.to_be_bytes());
    }
    put_lengths(&mut bytes, session.memory.lengths());
    bytes.extend(session.memory.all_bytes());
    bytes
}

pub fn take_session(bytes: &mut &[u8]) -> Option<LentSession> {
    let sizes = Sizes::from_bytes(take(bytes, 4)?);
    let header = Header { sizes, salt: take_u32(bytes)?, slot: take_u32(bytes)? };
    let listed = take_u32(bytes)?;
    let lengths = take_lengths(bytes)?;
    Some(LentSession { header, listed, memory: Lent::split_off(lengths, bytes)? })
}

fn put_lengths(bytes: &mut Vec<u8>, lengths: Lengths) {
    for length in lengths {
        bytes.extend(&(length as u32).to_be_bytes()[1..]);
    }
}

/// None also where a slice is longer than there is room for.
fn take_lengths(bytes: &mut &[u8]) -> Option<Lengths> {
    let mut lengths = [0; SLICES.len()];
    for slice in SLICES {
        let field = take(bytes, LENGTH_BYTES)?;
        let length = u32_at(&[0, field[0], field[1], field[2]], 0) as usize;
        lengths[slice as usize] = Some(length).filter(|&length| length <= slice.room())?;
    }
    Some(lengths)
}

fn take_u32(bytes: &mut &[u8]) -> Option<u32> {
    take(bytes, 4).map(|field| u32_at(field, 0))
}

fn take<'a>(bytes: &mut &'a [u8], length: usize) -> Option<&'a [u8]> {
    let (field, rest) = bytes.split_at_checked(length)?;
    *bytes = rest;
    Some(field)
}
