//! Sealing working memory into blocks, and reading them.

use crate::bytes::{put_u16, put_u32, u16_at, u32_at};
use crate::encoder::check_room;
use crate::hash::{fnv1a, fnv1a_of_four};
use crate::layout::*;
use crate::refusal::Refusal;
use crate::sizes::Sizes;

#[derive(Clone, Copy, PartialEq, Eq, Debug)]
pub struct Header {
    pub sizes: Sizes,
    pub salt: u32,
    pub slot: u32,
}

/// A refusal in reading names the block; 0 where no block is meant.
#[derive(Clone, Copy, PartialEq, Eq, Debug)]
pub struct ReadRefusal {
    pub refusal: Refusal,
    pub block: usize,
}

pub fn seal(header: Header, filter: &[u8], cells: &[u8], image: &mut [u8]) -> Result<(), Refusal> {
    let sizes = header.sizes;
    sizes.check()?;
    check_room(sizes, filter, cells)?;
    if image.len() != sizes.image_bytes() {
        return Err(Refusal::ImageRoom);
    }
    if has_cell_zero_fault(cells) {
        return Err(Refusal::CellZero);
    }
    let payloads = filter.chunks_exact(PAYLOAD_BYTES).chain(cells.chunks_exact(PAYLOAD_BYTES));
    for ((number, block), payload) in image.chunks_exact_mut(BLOCK_BYTES).enumerate().zip(payloads) {
        write_block(block, header, number, payload);
    }
    Ok(())
}

pub fn read(image: &[u8], wanted_slot: u32) -> Result<Header, ReadRefusal> {
    let in_block = |block| move |refusal| ReadRefusal { refusal, block };
    check_length(image).map_err(in_block(0))?;
    let (first, later) = image.split_at(BLOCK_BYTES);
    let check = fnv1a(&first[..CHECK.start]);
    let header = read_first(first, check, image.len(), wanted_slot).map_err(in_block(0))?;
    for (four, blocks) in later.chunks(4 * BLOCK_BYTES).enumerate() {
        let checks = checks_of(blocks);
        for (number, block) in blocks.chunks_exact(BLOCK_BYTES).enumerate() {
            read_later(block, checks[number], 4 * four + number + 1, header)
                .map_err(in_block(4 * four + number + 1))?;
        }
    }
    Ok(header)
}

/// The checks that belong to up to four blocks; the places of missing ones stand for nothing.
fn checks_of(blocks: &[u8]) -> [u32; 4] {
    let checked = |number: usize| blocks[BLOCK_BYTES * number..].first_chunk::<{ CHECK.start }>().expect("a block");
    if blocks.len() == 4 * BLOCK_BYTES {
        return fnv1a_of_four([0, 1, 2, 3].map(checked));
    }
    std::array::from_fn(|number| if number < blocks.len() / BLOCK_BYTES { fnv1a(checked(number)) } else { 0 })
}

/// Makes the check fit the block's other bytes.
pub fn mend_check(block: &mut [u8]) {
    let check = fnv1a(&block[..CHECK.start]);
    put_u32(block, CHECK.start, check);
}

fn write_block(block: &mut [u8], header: Header, number: usize, payload: &[u8]) {
    block.fill(0);
    block[KIND] = kind_of(number, header.sizes);
    block[KF..=Q].copy_from_slice(&header.sizes.to_bytes());
    put_u16(block, NUMBER.start, number as u16);
    put_u32(block, SALT.start, header.salt);
    put_u32(block, SLOT.start, header.slot);
    block[PAYLOAD].copy_from_slice(payload);
    mend_check(block);
}

fn kind_of(number: usize, sizes: Sizes) -> u8 {
    if number < usize::from(sizes.f) {
        KIND_FILTER
    } else {
        KIND_CELLS
    }
}

fn header_of(block: &[u8]) -> Header {
    Header {
        sizes: Sizes::from_bytes(&block[KF..=Q]),
        salt: u32_at(block, SALT.start),
        slot: u32_at(block, SLOT.start),
    }
}

fn check_length(image: &[u8]) -> Result<(), Refusal> {
    if image.is_empty() {
        Err(Refusal::LengthZero)
    } else if !image.len().is_multiple_of(BLOCK_BYTES) {
        Err(Refusal::LengthRagged)
    } else if image.len() > MAX_IMAGE_BYTES {
        Err(Refusal::LengthOver)
    } else {
        Ok(())
    }
}

fn read_first(block: &[u8], check: u32, image_bytes: usize, wanted_slot: u32) -> Result<Header, Refusal> {
    check_check(block, check)?;
    let header = header_of(block);
    header.sizes.check()?;
    check_form(block, 0, header.sizes)?;
    if image_bytes != header.sizes.image_bytes() {
        Err(Refusal::LengthAgainstSizes)
    } else if header.slot != wanted_slot {
        Err(Refusal::Stale)
    } else {
        Ok(header)
    }
}

fn read_later(block: &[u8], check: u32, number: usize, first: Header) -> Result<(), Refusal> {
    check_check(block, check)?;
    let header = header_of(block);
    check_same_sizes(header.sizes, first.sizes)?;
    check_form(block, number, first.sizes)?;
    if header.salt != first.salt {
        Err(Refusal::MixedSalt)
    } else if header.slot != first.slot {
        Err(Refusal::MixedSlot)
    } else {
        Ok(())
    }
}

fn check_check(block: &[u8], check: u32) -> Result<(), Refusal> {
    if u32_at(block, CHECK.start) == check {
        Ok(())
    } else {
        Err(Refusal::Check)
    }
}

/// Sizes equal to block 0's are in range, so a later block needs no other test of them.
fn check_same_sizes(sizes: Sizes, first: Sizes) -> Result<(), Refusal> {
    if sizes.kf != first.kf {
        Err(Refusal::Kf)
    } else if sizes.f != first.f {
        Err(Refusal::F)
    } else if sizes.k != first.k {
        Err(Refusal::K)
    } else if sizes.q != first.q {
        Err(Refusal::Q)
    } else {
        Ok(())
    }
}

/// The form but for the sizes.
fn check_form(block: &[u8], number: usize, sizes: Sizes) -> Result<(), Refusal> {
    let kind = kind_of(number, sizes);
    if block[KIND] != kind {
        Err(Refusal::Kind)
    } else if block[ZERO] != 0 {
        Err(Refusal::Zero)
    } else if usize::from(u16_at(block, NUMBER.start)) != number {
        Err(Refusal::Number)
    } else if block[TAIL].iter().any(|&byte| byte != 0) {
        Err(Refusal::Tail)
    } else if kind == KIND_CELLS && has_cell_zero_fault(&block[PAYLOAD]) {
        Err(Refusal::CellZero)
    } else {
        Ok(())
    }
}

fn has_cell_zero_fault(cells: &[u8]) -> bool {
    cells.chunks_exact(CELL_BYTES).any(|cell| cell[CELL_ZERO] != 0)
}
