//! The lent memory of a session as a request carries it: ten slices of numbers, each high byte first.

use crate::bytes::hex_word;
use crate::key::KeyBytes;
use crate::layout::KEY_BYTES;
use crate::memory::Noise;
use crate::sizes::Sizes;
use crate::words::Words;

use Slice::*;

#[derive(Clone, Copy, PartialEq, Eq, Debug)]
pub enum Slice {
    Filter,
    Xors,
    Flows,
    Packets,
    Unknowns,
    Positions,
    Marks,
    Keys,
    Counts,
    Flags,
}

pub const SLICES: [Slice; 10] = [Filter, Xors, Flows, Packets, Unknowns, Positions, Marks, Keys, Counts, Flags];

/// Elements of each slice, in their order.
pub type Lengths = [usize; SLICES.len()];

/// Bits of a record's flags.
pub const KNOWN: u8 = 1;
pub const HANDED: u8 = 2;

impl Slice {
    /// Bytes of an element.
    pub fn width(self) -> usize {
        match self {
            Filter | Xors | Keys | Flags => 1,
            Flows | Unknowns | Positions => 2,
            Packets | Counts => 4,
            Marks => 8,
        }
    }

    /// The most elements that a program under test must hold: a little more than 01's most, so that too long can be
    /// tried.
    pub fn room(self) -> usize {
        match self {
            Filter => 8_192,
            Xors => 20_480,
            Flows | Packets | Unknowns | Positions => 2_048,
            Marks => 40,
            Keys => 40_960,
            Counts | Flags => 4_096,
        }
    }

    pub fn right_length(self, sizes: Sizes) -> usize {
        let n = sizes.cells();
        match self {
            Filter => sizes.filter_bytes(),
            Xors => KEY_BYTES * n,
            Flows | Packets | Unknowns | Positions => n,
            Marks => Words::words_for(n),
            Keys => KEY_BYTES * 2 * n,
            Counts | Flags => 2 * n,
        }
    }
}

pub fn right_lengths(sizes: Sizes) -> Lengths {
    SLICES.map(|slice| slice.right_length(sizes))
}

/// Any lengths, any contents.
#[derive(Clone, PartialEq, Eq, Debug)]
pub struct Lent {
    bytes: [Vec<u8>; SLICES.len()],
}

impl Lent {
    pub fn zeros(lengths: Lengths) -> Self {
        Lent::filled(lengths, |bytes| vec![0; bytes])
    }

    /// As memory is before a session is opened in it.
    pub fn noise(lengths: Lengths, seed: u32) -> Self {
        let mut noise = Noise::new(seed);
        Lent::filled(lengths, |bytes| noise.fill(bytes))
    }

    /// The slices one after the other, cut from the front of `bytes`; None where these end too soon.
    pub fn split_off(lengths: Lengths, bytes: &mut &[u8]) -> Option<Self> {
        let all: usize = SLICES.iter().zip(lengths).map(|(slice, length)| slice.width() * length).sum();
        let (mut mine, rest) = bytes.split_at_checked(all)?;
        *bytes = rest;
        Some(Lent::filled(lengths, |bytes| {
            let (slice, rest) = mine.split_at(bytes);
            mine = rest;
            slice.to_vec()
        }))
    }

    /// `fill` gives so many bytes for each slice in turn.
    fn filled(lengths: Lengths, mut fill: impl FnMut(usize) -> Vec<u8>) -> Self {
        Lent { bytes: SLICES.map(|slice| fill(slice.width() * lengths[slice as usize])) }
    }

    pub fn lengths(&self) -> Lengths {
        SLICES.map(|slice| self.bytes(slice).len() / slice.width())
    }

    pub fn bytes(&self, slice: Slice) -> &[u8] {
        &self.bytes[slice as usize]
    }

    pub fn bytes_mut(&mut self, slice: Slice) -> &mut Vec<u8> {
        &mut self.bytes[slice as usize]
    }

    pub fn all_bytes(&self) -> Vec<u8> {
        self.bytes.concat()
    }

    pub fn get(&self, slice: Slice, at: usize) -> u64 {
        let width = slice.width();
        self.bytes(slice)[width * at..][..width].iter().fold(0, |number, &byte| number << 8 | u64::from(byte))
    }

    /// The number fits the slice's elements.
    pub fn put(&mut self, slice: Slice, at: usize, number: u64) {
        let width = slice.width();
        let digits = number.to_be_bytes();
        self.bytes_mut(slice)[width * at..][..width].copy_from_slice(&digits[digits.len() - width..]);
    }

    /// Of `Xors` or `Keys`: the key that stands there as number `at`.
    pub fn key(&self, slice: Slice, at: usize) -> KeyBytes {
        self.bytes(slice)[KEY_BYTES * at..][..KEY_BYTES].try_into().expect("a key's bytes")
    }

    pub fn put_key(&mut self, slice: Slice, at: usize, key: &KeyBytes) {
        self.bytes_mut(slice)[KEY_BYTES * at..][..KEY_BYTES].copy_from_slice(key);
    }

    /// Makes a slice so many elements long; what is new is 0.
    pub fn resize(&mut self, slice: Slice, length: usize) {
        self.bytes_mut(slice).resize(slice.width() * length, 0);
    }

    /// The words of a line, one for each slice.
    pub fn words(&self) -> Vec<String> {
        self.bytes.iter().map(|bytes| hex_word(bytes)).collect()
    }
}
