//! Runs of the encoder: repeating flows, full counters, wrong sizes and wrong room.

use super::packets::Traffic;
use super::{run_sizes, with_bad_size};
use crate::counters::{flow_hitting, seed_with, Counter};
use crate::image::Header;
use crate::layout::{BLOCK_BYTES, CELL_BYTES, PAYLOAD_BYTES};
use crate::memory::{CLEAN_NOISE, LAST_MODE, NOISE, ONES, STARTED, ZEROS};
use crate::random::Random;
use crate::request::{Request, Run, MAX_CELLS, MAX_FILTER, MAX_IMAGE};

#[derive(Clone, Copy)]
enum Fault {
    Size(usize),
    FilterRoom,
    CellsRoom,
    ImageRoom,
    Mode,
    OverLimit,
    Cut,
}

use Fault::*;

const FAULTS: [Fault; 10] =
    [Size(0), Size(1), Size(2), Size(3), FilterRoom, CellsRoom, ImageRoom, Mode, OverLimit, Cut];

/// Of four runs, one meets full counters, one has mere traffic, and two have a fault.
pub fn request(random: &mut Random, turn: usize) -> Request {
    match turn % 4 {
        1 => full_counter_run(random, turn / 4).to_request(),
        3 => traffic_run(random).to_request(),
        _ => faulty_request(random, turn / 2),
    }
}

/// Each fault in its turn: one round in runs that are started and have no other, so that it is seen in every call; one
/// round in any run, where another may join it.
fn faulty_request(random: &mut Random, turn: usize) -> Request {
    let mut faulty = Faulty { run: traffic_run(random), cut: None };
    let fault = FAULTS[turn % FAULTS.len()];
    if (turn / FAULTS.len()).is_multiple_of(2) {
        faulty.run.mode = STARTED;
        faulty.apply(fault, random);
    } else {
        faulty.apply(fault, random);
        if random.once_in(2) {
            faulty.apply(random.pick(&FAULTS), random);
        }
    }
    faulty.into_request()
}

struct Faulty {
    run: Run,
    /// Bytes missing at the payload's end.
    cut: Option<usize>,
}

impl Faulty {
    fn apply(&mut self, fault: Fault, random: &mut Random) {
        let run = &mut self.run;
        match fault {
            Size(field) => spoil_size(run, field, random),
            FilterRoom => run.filter_bytes = other_length(run.filter_bytes, PAYLOAD_BYTES, random).min(MAX_FILTER),
            CellsRoom => run.cells_bytes = other_length(run.cells_bytes, CELL_BYTES, random).min(MAX_CELLS),
            ImageRoom => run.image_bytes = other_length(run.image_bytes, BLOCK_BYTES, random).min(MAX_IMAGE),
            Mode => run.mode = random.between(usize::from(LAST_MODE) + 1, 255) as u8,
            OverLimit => exceed_limit(run, random),
            Cut => self.cut = Some(random.pick(&[1, 2, 3, 25, 40])),
        }
    }

    fn into_request(self) -> Request {
        let mut request = self.run.to_request();
        let kept = request.payload.len().saturating_sub(self.cut.unwrap_or(0));
        request.payload.truncate(kept);
        request
    }
}

/// The room follows the bad size as far as the protocol lets it, or stays.
fn spoil_size(run: &mut Run, field: usize, random: &mut Random) {
    let sizes = with_bad_size(run.header.sizes, field, random);
    run.header.sizes = sizes;
    if random.once_in(3) {
        run.filter_bytes = sizes.filter_bytes().min(MAX_FILTER);
        run.cells_bytes = sizes.cells_bytes().min(MAX_CELLS);
        run.image_bytes = sizes.image_bytes().min(MAX_IMAGE);
    }
}

fn other_length(length: usize, unit: usize, random: &mut Random) -> usize {
    random.pick(&[length.saturating_sub(1), length + 1, length + unit, length.saturating_sub(unit), 0])
}

fn exceed_limit(run: &mut Run, random: &mut Random) {
    match random.below(3) {
        0 => run.filter_bytes = MAX_FILTER + 1,
        1 => run.cells_bytes = MAX_CELLS + 1,
        _ => run.image_bytes = MAX_IMAGE + 1,
    }
}

fn header(random: &mut Random) -> Header {
    Header { sizes: run_sizes(random), salt: random.u32(), slot: random.u32() }
}

fn traffic_run(random: &mut Random) -> Run {
    let mut header = header(random);
    let mode = random.pick(&[STARTED, STARTED, STARTED, STARTED, ZEROS, NOISE, ONES, CLEAN_NOISE]);
    spare_some_cell(&mut header, mode, random);
    Run::new(header, mode, random.u32(), traffic(random))
}

fn traffic(random: &mut Random) -> Vec<Vec<u8>> {
    let mut traffic = Traffic::new(random);
    (0..random.between(0, 30)).map(|_| traffic.some_packet(random, 4)).collect()
}

/// Where the mode spares the slot's cell, let it be one of the table half of the time.
fn spare_some_cell(header: &mut Header, mode: u8, random: &mut Random) {
    if mode == CLEAN_NOISE && random.once_in(2) {
        header.slot = random.below(header.sizes.cells()) as u32;
    }
}

/// Memory with a cell whose counter is full or one short of it, and flows that meet it there.
fn full_counter_run(random: &mut Random, turn: usize) -> Run {
    let mut header = header(random);
    let mode = random.pick(&[NOISE, CLEAN_NOISE]);
    spare_some_cell(&mut header, mode, random);
    let cell = random.below(header.sizes.cells());
    let counter = if turn.is_multiple_of(2) { Counter::Flows } else { Counter::Packets };
    let full = (turn / 2).is_multiple_of(2);
    let seed = seed_with(header.sizes, cell, counter, full, random.u32());
    let mut packets = traffic(random);
    for _ in 0..random.between(1, 3) {
        let packet = flow_hitting(header.sizes, header.salt, cell, random.u32()).bytes();
        let at = random.between(0, packets.len());
        packets.insert(at, packet.clone());
        packets.push(packet);
    }
    Run::new(header, mode, seed, packets)
}
