//! Taking packets into working memory: the payload bytes of filter and cells.

use crate::bytes::{put_u16, put_u32, u16_at, u32_at};
use crate::flow::Chosen;
use crate::key::{Key, KeyBytes};
use crate::layout::{CELL_BYTES, FLOW_COUNT, PACKET_COUNT};
use crate::refusal::Refusal;
use crate::sizes::Sizes;

#[derive(Clone, Copy, PartialEq, Eq, Debug)]
pub enum Flow {
    New,
    Old,
}

pub fn start(sizes: Sizes, filter: &mut [u8], cells: &mut [u8]) -> Result<(), Refusal> {
    sizes.check()?;
    check_room(sizes, filter, cells)?;
    filter.fill(0);
    cells.fill(0);
    Ok(())
}

pub fn packet(sizes: Sizes, salt: u32, filter: &mut [u8], cells: &mut [u8], packet: &[u8]) -> Result<Flow, Refusal> {
    sizes.check()?;
    check_room(sizes, filter, cells)?;
    let key = Key::of_packet(packet)?.to_bytes();
    let chosen = Chosen::of(sizes, salt, &key);
    let (bits, places) = (chosen.bits(), chosen.cells());
    let flow = if bits.iter().all(|&bit| is_set(filter, bit)) { Flow::Old } else { Flow::New };
    // Nothing may change before every cell is known to have room.
    for &place in places {
        check_counters(cell(cells, place), flow)?;
    }
    for &bit in bits {
        filter[bit / 8] |= mask(bit);
    }
    for &place in places {
        count_packet(cell(cells, place), flow, &key);
    }
    Ok(flow)
}

pub fn check_room(sizes: Sizes, filter: &[u8], cells: &[u8]) -> Result<(), Refusal> {
    if filter.len() != sizes.filter_bytes() {
        Err(Refusal::FilterRoom)
    } else if cells.len() != sizes.cells_bytes() {
        Err(Refusal::CellsRoom)
    } else {
        Ok(())
    }
}

/// Filter blocks follow one another and hold whole bytes, so bit n lies in byte n / 8 of the filter.
pub fn is_set(filter: &[u8], bit: usize) -> bool {
    filter[bit / 8] & mask(bit) != 0
}

fn mask(bit: usize) -> u8 {
    128 >> (bit % 8)
}

fn cell(cells: &mut [u8], place: usize) -> &mut [u8] {
    &mut cells[place * CELL_BYTES..][..CELL_BYTES]
}

fn check_counters(cell: &[u8], flow: Flow) -> Result<(), Refusal> {
    if u32_at(cell, PACKET_COUNT.start) == u32::MAX {
        Err(Refusal::PacketCountFull)
    } else if flow == Flow::New && u16_at(cell, FLOW_COUNT.start) == u16::MAX {
        Err(Refusal::FlowCountFull)
    } else {
        Ok(())
    }
}

fn count_packet(cell: &mut [u8], flow: Flow, key: &KeyBytes) {
    if flow == Flow::New {
        for (mixed, byte) in cell.iter_mut().zip(key) {
            *mixed ^= byte;
        }
        let flows = u16_at(cell, FLOW_COUNT.start);
        put_u16(cell, FLOW_COUNT.start, flows + 1);
    }
    let packets = u32_at(cell, PACKET_COUNT.start);
    put_u32(cell, PACKET_COUNT.start, packets + 1);
}
