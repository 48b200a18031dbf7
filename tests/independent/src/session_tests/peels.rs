//! One peel alone: for any marks, right or wrong, and up to the last record of the list.

use crate::engine::{Damage, Engine, Step};
use crate::marked::Marked;
use crate::places::Placement;
use crate::random::Random;
use crate::refusal::Refusal;
use crate::selftest::Tally;
use crate::table::{Cell, Record};

use super::cases::key;
use super::tiny::{random_cells, random_key, Chosen};

pub fn any_marks(tally: &mut Tally) {
    for seed in 0..4_000 {
        let random = &mut Random::new(seed);
        let placement = Chosen::random(random);
        let mut found = Marked::new(&placement, random_cells(random, &placement));
        let mut aid = found.check(&placement).expect("a session");
        for _ in 0..random.below(4) {
            let _ = found.hand_over(&placement, &mut aid, &random_key(random));
        }
        for cell in 0..placement.cells() {
            if random.once_in(3) {
                found.marks.put(cell, random.once_in(2));
            }
        }
        for _ in 0..3 {
            let mut wanted = found.clone();
            let answer = peel_as_written(&mut wanted, &placement);
            tally.equal(&format!("peel {seed}"), found.peel(&placement, &mut aid), answer);
            tally.holds(&format!("state after peel {seed}"), found == wanted);
        }
    }
}

/// The words of 01, with none of the fast engine's parts.
fn peel_as_written<P: Placement>(state: &mut Marked, placement: &P) -> Result<Step, Damage> {
    let n = placement.cells();
    let Some(cell) = (0..n).find(|cell| state.marks.0[cell / 64] >> (cell % 64) & 1 == 1) else {
        return Ok(Step::NothingToDo);
    };
    let key = state.table.cells[cell].flow_xor;
    let places = placement.places(&key);
    let position = state.table.list.len();
    if state.table.list.iter().any(|record| record.key == key) {
        return Err(Damage { refusal: Refusal::PeelListed, cell });
    }
    if places.iter().any(|place| state.table.cells[place].flow_count == 0) {
        return Err(Damage { refusal: Refusal::PeelEmptyCell, cell });
    }
    for place in places.iter() {
        let Cell { flow_xor, flow_count, .. } = &mut state.table.cells[place];
        *flow_xor = std::array::from_fn(|at| flow_xor[at] ^ key[at]);
        *flow_count -= 1;
        let pure = *flow_count == 1 && placement.places(flow_xor).contains(place);
        let bit = 1 << (place % 64);
        let word = &mut state.marks.0[place / 64];
        *word = (*word & !bit) | if pure { bit } else { 0 };
        state.unknown[place].number += 1;
        state.unknown[place].positions ^= position as u16;
    }
    state.table.list.push(Record { key, count: 0, known: false, handed: false });
    Ok(Step::Done)
}

/// A peel asks for room in the list only where a cell is marked. With 2 N flows listed and no mark, it does nothing; with
/// one fewer, a wrong mark leads it to 14, or into the last record.
pub fn last_record(tally: &mut Tally) {
    let placement = Chosen::random(&mut Random::new(1));
    let n = placement.cells();
    let mut full = Marked::new(&placement, vec![Cell::default(); n]);
    full.table.list = full_records(2 * n, n);
    let before = full.clone();
    let mut aid = full.check(&placement).expect("2 N flows are a session");
    tally.equal("full list, no mark", full.peel(&placement, &mut aid), Ok(Step::NothingToDo));
    tally.equal("full list, settling", full.settle(&placement, &mut aid), Ok(()));
    tally.holds("full list kept", full == before);

    let mut roomy = Marked::new(&placement, vec![Cell::default(); n]);
    roomy.table.list = full_records(2 * n - 1, n);
    let mut aid = roomy.check(&placement).expect("a session");
    roomy.marks.put(2, true);
    let before = roomy.clone();
    let damage = Damage { refusal: Refusal::PeelEmptyCell, cell: 2 };
    tally.equal("room for one, empty cells", roomy.peel(&placement, &mut aid), Err(damage));
    tally.holds("room for one, kept", roomy == before);
    roomy.table.cells.iter_mut().for_each(|cell| cell.flow_count = 2);
    let mut wanted = roomy.clone();
    let answer = peel_as_written(&mut wanted, &placement);
    tally.equal("room for one", roomy.peel(&placement, &mut aid), answer);
    tally.equal("the last record is written", (answer, roomy.table.list.len()), (Ok(Step::Done), 2 * n));
    tally.holds("state after the last record", roomy == wanted);
}

/// Known records with keys of their own that no other test uses.
pub fn full_records(listed: usize, handed: usize) -> Vec<Record> {
    let record = |position: usize| {
        let mut key = key(0);
        key[..2].copy_from_slice(&(0x8000 | position as u16).to_be_bytes());
        Record { key, count: 1, known: true, handed: position < handed }
    };
    (0..listed).map(record).collect()
}
