//! Opening: good images, spoiled ones, and lent room of the wrong length.

use super::tables::{self, LEFT, WHICH};
use crate::flowsets::Flowset;
use crate::generate::images::Sample;
use crate::lent::{right_lengths, SLICES};
use crate::random::Random;
use crate::request::Request;
use crate::session_request::{Open, OPEN_HEAD};

/// The wanted slot and an image, for the printing program: good, or spoiled, by turns.
pub fn printable(random: &mut Random, turn: usize) -> (u32, Vec<u8>) {
    let Sample { wanted_slot, image, .. } = sample(random, turn);
    (wanted_slot, image)
}

/// The same of an image that settles with something left over: of four, one is the encoder's own.
pub fn stray(random: &mut Random, turn: usize) -> (u32, Vec<u8>) {
    let table = match turn % 4 {
        0 => tables::overlooked(random),
        _ => tables::stray(random, WHICH[turn % 3], LEFT[turn / 3 % 3]),
    };
    (table.flowset.header().slot, table.flowset.sealed())
}

/// Of four, two are good, one has one to three faults, and one has a fault by its number.
fn sample(random: &mut Random, turn: usize) -> Sample {
    let flowset = some_flowset(random);
    let mut sample = Sample::of(flowset.header(), flowset.sealed(), random);
    match turn % 4 {
        1 => {
            let faults = random.between(1, 3);
            sample.spoil_at_random(random, faults);
        }
        2 => sample.spoil_numbered(random, turn / 4),
        _ => {}
    }
    sample
}

/// Of four, one is good, one has a fault, one has one to three, and one has a slice of the wrong length.
pub fn request(random: &mut Random, turn: usize) -> Request {
    let flowset = some_flowset(random);
    let mut sample = Sample::of(flowset.header(), flowset.sealed(), random);
    match turn % 4 {
        0 => {}
        1 => {
            let faults = random.between(1, 3);
            sample.spoil_at_random(random, faults);
        }
        2 => sample.spoil_numbered(random, turn / 4),
        // A slice alone in the first round; in the next, an image fault goes before it.
        _ if turn / 4 / SLICES.len() % 2 == 1 => sample.spoil_numbered(random, turn / 4),
        _ => {}
    }
    let mut lengths = right_lengths(sample.header.sizes);
    if turn % 4 == 3 {
        let slice = SLICES[turn / 4 % SLICES.len()];
        let length = &mut lengths[slice as usize];
        *length = random.pick(&[*length - 1, *length + 1, *length - 1, *length + 1, 0, slice.room()]);
    }
    let Sample { wanted_slot, image, .. } = sample;
    Open { wanted_slot, lengths, seed: random.u32(), image }.to_request()
}

pub fn wrong_length(random: &mut Random) -> Request {
    let flowset = some_flowset(random);
    let header = flowset.header();
    let lengths = right_lengths(header.sizes);
    let mut open = Open { wanted_slot: header.slot, lengths, seed: random.u32(), image: flowset.sealed() };
    if random.once_in(2) {
        let slice = random.pick(&SLICES);
        open.lengths[slice as usize] = slice.room() + 1;
        return open.to_request();
    }
    let mut request = open.to_request();
    request.payload.truncate(random.below(OPEN_HEAD));
    request
}

fn some_flowset(random: &mut Random) -> Flowset {
    match random.below(4) {
        0 => tables::damaged(random),
        1 => tables::missed(random),
        _ => tables::clean(random, (0, 150)),
    }
    .flowset
}
