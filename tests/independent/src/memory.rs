//! What an encoder run's three buffers hold before its calls.

use crate::layout::{CELL_BYTES, CELL_ZERO};
use crate::request::Run;

/// Noise through all three buffers, and start is called; it is in no other mode.
pub const STARTED: u8 = 0;
/// Noise through all three buffers.
pub const NOISE: u8 = 1;
/// Filter and cells hold zeros; noise begins at the image.
pub const ZEROS: u8 = 2;
/// Filter and cells hold bytes of 255; noise begins at the image.
pub const ONES: u8 = 3;
/// As NOISE, but only the cell whose number is the slot keeps its zero byte as it came: without this mode no memory
/// with such bytes in filter and counts could be sealed, and no fault of sealing past the first cell be seen.
pub const CLEAN_NOISE: u8 = 4;
/// Modes above are answered `mode`.
pub const LAST_MODE: u8 = CLEAN_NOISE;

const MULTIPLIER: u32 = 1_664_525;
const INCREMENT: u32 = 1_013_904_223;

/// The byte generator of the trial.
pub struct Noise(u32);

impl Noise {
    pub fn new(seed: u32) -> Self {
        Noise(seed)
    }

    pub fn byte(&mut self) -> u8 {
        self.0 = self.0.wrapping_mul(MULTIPLIER).wrapping_add(INCREMENT);
        (self.0 >> 24) as u8
    }

    pub fn fill(&mut self, length: usize) -> Vec<u8> {
        (0..length).map(|_| self.byte()).collect()
    }
}

/// The seed from which the state stands at `state` just after byte number `byte` (from 0) was drawn.
pub fn seed_reaching(state: u32, byte: usize) -> u32 {
    let inverse = inverse_of(MULTIPLIER);
    (0..=byte).fold(state, |state, _| state.wrapping_sub(INCREMENT).wrapping_mul(inverse))
}

/// Of an odd number modulo 2^32; each step doubles the number of right low bits, from three on.
fn inverse_of(odd: u32) -> u32 {
    (0..4).fold(odd, |inverse, _| inverse.wrapping_mul(2u32.wrapping_sub(odd.wrapping_mul(inverse))))
}

#[derive(Clone, PartialEq, Eq, Debug)]
pub struct Memory {
    pub filter: Vec<u8>,
    pub cells: Vec<u8>,
    pub image: Vec<u8>,
}

impl Memory {
    pub fn of_run(run: &Run) -> Memory {
        let mut noise = Noise::new(run.seed);
        let mut room = |length| match run.mode {
            ZEROS => vec![0; length],
            ONES => vec![255; length],
            _ => noise.fill(length),
        };
        let filter = room(run.filter_bytes);
        let mut cells = room(run.cells_bytes);
        if run.mode == CLEAN_NOISE {
            clear_zero_bytes(&mut cells, run.header.slot);
        }
        Memory { filter, cells, image: noise.fill(run.image_bytes) }
    }
}

fn clear_zero_bytes(cells: &mut [u8], spared: u32) {
    for (place, byte) in cells.iter_mut().enumerate() {
        if place % CELL_BYTES == CELL_ZERO && place / CELL_BYTES != spared as usize {
            *byte = 0;
        }
    }
}
