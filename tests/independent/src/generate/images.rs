//! Images sealed by our own code, then spoiled. A fault that shall reach a later test of reading mends the check.

use super::packets::Traffic;
use super::{bad_size, run_sizes};
use crate::encoder;
use crate::image::{mend_check, seal, Header};
use crate::layout::*;
use crate::memory::{Memory, CLEAN_NOISE, ZEROS};
use crate::random::Random;
use crate::request::{Request, Run, MAX_IMAGE, READ, READ_HEAD};
use crate::sizes::Sizes;

/// Which block a fault falls on.
#[derive(Clone, Copy)]
enum Where {
    First,
    Later,
}

#[derive(Clone, Copy)]
enum Fault {
    Flip,
    Check(Where),
    /// One header byte, to a value that is wrong there.
    Field(Where, usize),
    Tail(Where),
    CellZero,
    MixedSalt,
    MixedSlot,
    /// Block 0 alone, or all blocks, get other sizes within range.
    SizesOfFirst,
    SizesOfAll,
    Payload,
    Swap,
    Foreign,
    Empty,
    CutBytes,
    CutBlocks,
    AddBytes,
    AddBlocks,
    AddTooMany,
    WantedSlot,
}

use Fault::*;
use Where::*;

const FAULTS: [Fault; 37] = [
    Flip,
    Check(First),
    Check(Later),
    Field(First, KIND),
    Field(First, KF),
    Field(First, F),
    Field(First, K),
    Field(First, Q),
    Field(First, ZERO),
    Field(First, NUMBER.start),
    Field(First, NUMBER.start + 1),
    Field(Later, KIND),
    Field(Later, KF),
    Field(Later, F),
    Field(Later, K),
    Field(Later, Q),
    Field(Later, ZERO),
    Field(Later, NUMBER.start),
    Field(Later, NUMBER.start + 1),
    Tail(First),
    Tail(Later),
    CellZero,
    CellZero,
    MixedSalt,
    MixedSlot,
    SizesOfFirst,
    SizesOfAll,
    Payload,
    Swap,
    Foreign,
    Empty,
    CutBytes,
    CutBlocks,
    AddBytes,
    AddBlocks,
    AddTooMany,
    WantedSlot,
];

/// Each of 1 to 5, in block 0 and in a later one.
const NUMBERED: [Fault; 10] = [
    Empty,
    CutBlocks,
    Check(First),
    Check(Later),
    Field(First, KIND),
    Field(Later, NUMBER.start),
    MixedSalt,
    MixedSlot,
    WantedSlot,
    CellZero,
];

/// Of four images, two have one fault, each in its turn, one has a pair of faults whose order matters, and one has none
/// to three at random.
pub fn request(random: &mut Random, turn: usize) -> Request {
    if turn % 40 == 1 {
        return wrong_length(random);
    }
    let mut sample = Sample::new(random);
    match turn % 4 {
        1 => {
            let faults = random.between(0, 3);
            sample.spoil_at_random(random, faults);
        }
        3 => pair(random).into_iter().for_each(|fault| sample.spoil(fault, random)),
        _ => sample.spoil(FAULTS[turn / 2 % FAULTS.len()], random),
    }
    sample.image.truncate(MAX_IMAGE);
    Request::read(sample.wanted_slot, &sample.image)
}

/// A fault of form and one that another test finds, mostly in the same block.
fn pair(random: &mut Random) -> [Fault; 2] {
    let on = random.pick(&[First, Later]);
    let field = random.pick(&[KIND, KF, F, K, Q, ZERO, NUMBER.start, NUMBER.start + 1]);
    let form = random.pick(&[Field(on, field), Field(on, field), Tail(on), CellZero]);
    let other = random.pick(&[Check(on), Check(on), MixedSalt, MixedSlot, CutBlocks, AddBlocks, AddBytes, WantedSlot]);
    [form, other]
}

fn wrong_length(random: &mut Random) -> Request {
    let length = if random.once_in(4) { READ_HEAD + MAX_IMAGE + 1 } else { random.below(READ_HEAD) };
    Request::new(READ, random.bytes(length))
}

pub struct Sample {
    pub header: Header,
    pub wanted_slot: u32,
    pub image: Vec<u8>,
    /// Faults of later blocks mostly fall on this one, so that several meet in one block.
    later: usize,
}

impl Sample {
    fn new(random: &mut Random) -> Self {
        let header = Header { sizes: run_sizes(random), salt: random.u32(), slot: random.u32() };
        let image = sealed(header, random);
        Sample::of(header, image, random)
    }

    pub fn of(header: Header, image: Vec<u8>, random: &mut Random) -> Self {
        let later = random.between(1, header.sizes.blocks() - 1);
        Sample { header, wanted_slot: header.slot, image, later }
    }

    /// One fault, each of the numbers 1 to 5 in its turn.
    pub fn spoil_numbered(&mut self, random: &mut Random, turn: usize) {
        self.spoil(NUMBERED[turn % NUMBERED.len()], random);
    }

    /// So many faults of any kind.
    pub fn spoil_at_random(&mut self, random: &mut Random, faults: usize) {
        (0..faults).for_each(|_| self.spoil(random.pick(&FAULTS), random));
        self.image.truncate(MAX_IMAGE);
    }

    fn spoil(&mut self, fault: Fault, random: &mut Random) {
        match fault {
            Flip => flip(&mut self.image, random),
            Check(on) => self.in_block(on, random, |block, random| flip(&mut block[CHECK], random)),
            Field(First, at) => self.mended(First, random, |block, random| spoil_first_field(block, at, random)),
            Field(Later, at) => self.mended(Later, random, |block, random| change(&mut block[at], random)),
            Tail(on) => self.mended(on, random, |block, random| flip(&mut block[TAIL], random)),
            CellZero => self.mended(Later, random, spoil_cell_zero),
            MixedSalt => self.mended(Later, random, |block, random| flip(&mut block[SALT], random)),
            MixedSlot => self.mended(Later, random, |block, random| flip(&mut block[SLOT], random)),
            SizesOfFirst => self.change_first_sizes(random),
            SizesOfAll => self.change_all_sizes(random),
            Payload => self.mended(Later, random, |block, random| flip(&mut block[PAYLOAD], random)),
            Swap => self.swap(random),
            Foreign => self.take_foreign_block(random),
            Empty => self.image.clear(),
            CutBytes => self.cut(random.between(1, BLOCK_BYTES - 1)),
            CutBlocks => self.cut(BLOCK_BYTES * random.pick(&[1, 1, 2])),
            AddBytes => self.add(random.between(1, BLOCK_BYTES - 1)),
            AddBlocks => self.add(BLOCK_BYTES * random.pick(&[1, 1, 2])),
            AddTooMany => self.add(MAX_IMAGE_BYTES + BLOCK_BYTES - self.image.len().min(MAX_IMAGE_BYTES)),
            WantedSlot => self.wanted_slot ^= 1 << random.below(32),
        }
    }

    fn blocks(&self) -> usize {
        self.image.len() / BLOCK_BYTES
    }

    fn block(&mut self, number: usize) -> &mut [u8] {
        &mut self.image[BLOCK_BYTES * number..][..BLOCK_BYTES]
    }

    /// Changes a block, if there is still one.
    fn in_block(&mut self, on: Where, random: &mut Random, change: impl FnOnce(&mut [u8], &mut Random)) {
        let number = match (on, self.blocks()) {
            (_, 0) | (Later, 1) => return,
            (First, _) => 0,
            (Later, blocks) if random.once_in(3) => random.between(1, blocks - 1),
            (Later, blocks) => self.later.min(blocks - 1),
        };
        change(self.block(number), random);
    }

    fn mended(&mut self, on: Where, random: &mut Random, change: impl FnOnce(&mut [u8], &mut Random)) {
        self.in_block(on, random, |block, random| {
            change(block, random);
            mend_check(block);
        });
    }

    fn change_first_sizes(&mut self, random: &mut Random) {
        let sizes = other_sizes(self.header.sizes, random);
        self.mended(First, random, |block, _| block[KF..=Q].copy_from_slice(&sizes.to_bytes()));
    }

    fn change_all_sizes(&mut self, random: &mut Random) {
        let sizes = other_sizes(self.header.sizes, random);
        for block in self.image.chunks_exact_mut(BLOCK_BYTES) {
            block[KF..=Q].copy_from_slice(&sizes.to_bytes());
            mend_check(block);
        }
    }

    fn swap(&mut self, random: &mut Random) {
        if self.blocks() > 0 {
            let (a, b) = (random.below(self.blocks()), random.below(self.blocks()));
            let kept = self.block(a).to_vec();
            self.image.copy_within(BLOCK_BYTES * b..BLOCK_BYTES * (b + 1), BLOCK_BYTES * a);
            self.block(b).copy_from_slice(&kept);
        }
    }

    /// A whole good block of another image: of other sizes, another salt, or another slot.
    fn take_foreign_block(&mut self, random: &mut Random) {
        let mut header = self.header;
        match random.below(3) {
            0 => header.sizes = other_sizes(header.sizes, random),
            1 => header.salt = random.u32(),
            _ => header.slot = random.u32(),
        }
        let foreign = sealed(header, random);
        let common = self.blocks().min(foreign.len() / BLOCK_BYTES);
        if common > 0 {
            let number = random.below(common);
            self.block(number).copy_from_slice(&foreign[BLOCK_BYTES * number..][..BLOCK_BYTES]);
        }
    }

    fn cut(&mut self, bytes: usize) {
        self.image.truncate(self.image.len().saturating_sub(bytes));
    }

    /// Grows by its own bytes once more.
    fn add(&mut self, bytes: usize) {
        let grown: Vec<u8> = self.image.iter().copied().cycle().take(self.image.len() + bytes).collect();
        self.image = grown;
    }
}

/// Of flows, or of any bytes that sealing accepts.
fn sealed(header: Header, random: &mut Random) -> Vec<u8> {
    let mode = if random.once_in(4) { CLEAN_NOISE } else { ZEROS };
    let noise_slot = Header { slot: u32::MAX, ..header };
    let run = Run::new(noise_slot, mode, random.u32(), Vec::new());
    let Memory { mut filter, mut cells, mut image } = Memory::of_run(&run);
    let mut traffic = Traffic::new(random);
    for _ in 0..random.between(0, 30) {
        // A full counter in noise may refuse a packet; the image is as good without it.
        let packet = traffic.good_packet(random);
        let _ = encoder::packet(header.sizes, header.salt, &mut filter, &mut cells, &packet);
    }
    seal(header, &filter, &cells, &mut image).expect("sizes, room and zero bytes are right");
    image
}

fn flip(bytes: &mut [u8], random: &mut Random) {
    if !bytes.is_empty() {
        let at = some_place(bytes.len(), random);
        change(&mut bytes[at], random);
    }
}

/// Any place, often the first or the last, where a loop goes wrong first.
pub fn some_place(places: usize, random: &mut Random) -> usize {
    let any = random.below(places);
    random.pick(&[0, places - 1, any, any])
}

/// Another value, often the next or the one before.
fn change(byte: &mut u8, random: &mut Random) {
    let step = random.between(1, 255) as u8;
    *byte = byte.wrapping_add(random.pick(&[1, 255, step]));
}

/// Block 0 has nothing to differ from, so its sizes must leave their range.
fn spoil_first_field(block: &mut [u8], at: usize, random: &mut Random) {
    match at {
        KF..=Q => block[at] = bad_size(at - KF, random),
        _ => change(&mut block[at], random),
    }
}

/// In a cell block; a filter block has no cells, and any payload byte there is good.
fn spoil_cell_zero(block: &mut [u8], random: &mut Random) {
    let cell = some_place(CELLS_PER_BLOCK, random);
    change(&mut block[PAYLOAD.start + CELL_BYTES * cell + CELL_ZERO], random);
}

/// One size moved by one step within its range.
fn other_sizes(sizes: Sizes, random: &mut Random) -> Sizes {
    loop {
        let mut bytes = sizes.to_bytes();
        let field = random.below(bytes.len());
        bytes[field] = bytes[field].wrapping_add(random.pick(&[1, 255]));
        let other = Sizes::from_bytes(&bytes);
        if other.check().is_ok() {
            return other;
        }
    }
}
