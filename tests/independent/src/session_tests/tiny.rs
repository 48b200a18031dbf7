//! Many small tables under placements of their own. With sixteen keys, keys meet by XOR as they never would by hash.

use crate::key::KeyBytes;
use crate::layout::KEY_BYTES;
use crate::places::{Placement, Places};
use crate::random::Random;
use crate::selftest::Tally;
use crate::table::Cell;

use super::cases::key;
use super::pair::Pair;

const KEYS: u8 = 16;
const SESSIONS: u64 = 12_000;

/// Any choice of one cell in each part, for keys that are zero but for the last four bits.
pub struct Chosen {
    cells: usize,
    places: Vec<Places>,
}

impl Chosen {
    pub fn random(random: &mut Random) -> Self {
        let (k, part) = (random.between(2, 4), random.between(2, 4));
        let mut places = || Places::new(&(0..k).map(|i| i * part + random.below(part)).collect::<Vec<_>>());
        Chosen { places: (0..KEYS).map(|_| places()).collect(), cells: k * part }
    }
}

impl Placement for Chosen {
    fn cells(&self) -> usize {
        self.cells
    }

    fn places(&self, key: &KeyBytes) -> Places {
        self.places[usize::from(key[KEY_BYTES - 1])]
    }
}

pub fn random_key(random: &mut Random) -> KeyBytes {
    key(random.byte() % KEYS)
}

pub fn engines_agree(tally: &mut Tally) {
    for seed in 0..SESSIONS {
        let random = &mut Random::new(seed);
        let placement = Chosen::random(random);
        let cells = random_cells(random, &placement);
        let mut pair = Pair::new(&placement, cells);
        let name = format!("tiny session {seed}");
        for _ in 0..random.between(1, 8) {
            if random.once_in(3) {
                let _ = pair.settle(tally, &name);
            } else {
                let _ = pair.hand_over(tally, &name, &random_key(random));
            }
        }
    }
}

/// A clean table, one with some damage, or anything at all.
pub fn random_cells(random: &mut Random, placement: &Chosen) -> Vec<Cell> {
    let mut cells = vec![Cell::default(); placement.cells()];
    let kind = random.below(3);
    let flows = random.below(usize::from(KEYS));
    (0..flows).for_each(|last| put_in(&mut cells, placement, &key(last as u8), random.between(1, 6) as u32));
    let damaged = [0, random.between(1, 3), placement.cells()][kind];
    (0..damaged).for_each(|_| damage(random, placement, &mut cells));
    cells
}

fn put_in(cells: &mut [Cell], placement: &Chosen, key: &KeyBytes, packets: u32) {
    for place in placement.places(key).iter() {
        let cell = &mut cells[place];
        cell.flow_xor.iter_mut().zip(key).for_each(|(mixed, byte)| *mixed ^= byte);
        cell.flow_count += 1;
        cell.packet_count += packets;
    }
}

fn damage(random: &mut Random, placement: &Chosen, cells: &mut [Cell]) {
    let cell = &mut cells[random.below(placement.cells())];
    match random.below(3) {
        0 => cell.flow_xor = random_key(random),
        1 => cell.flow_count = random.below(4) as u16,
        _ => cell.packet_count = random.below(8) as u32,
    }
}
