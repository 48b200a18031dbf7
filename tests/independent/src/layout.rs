//! The numbers of the layout: all that a longer key or another cell would change stands here.

use std::ops::Range;

pub const KEY_BYTES: usize = 13;
pub const CELL_BYTES: usize = 20;
pub const CELLS_PER_BLOCK: usize = 24;

/// Within a cell: FlowXOR is its first `KEY_BYTES`, then come these.
pub const CELL_ZERO: usize = KEY_BYTES;
pub const FLOW_COUNT: Range<usize> = CELL_ZERO + 1..CELL_ZERO + 3;
pub const PACKET_COUNT: Range<usize> = CELL_ZERO + 3..CELL_ZERO + 7;

pub const BLOCK_BYTES: usize = 512;
pub const MAX_IMAGE_BYTES: usize = 40_960;

/// Within a block.
pub const KIND: usize = 0;
pub const KF: usize = 1;
pub const F: usize = 2;
pub const K: usize = 3;
pub const Q: usize = 4;
pub const ZERO: usize = 5;
pub const NUMBER: Range<usize> = 6..8;
pub const SALT: Range<usize> = 8..12;
pub const SLOT: Range<usize> = 12..16;
pub const PAYLOAD: Range<usize> = 16..496;
pub const TAIL: Range<usize> = 496..508;
pub const CHECK: Range<usize> = 508..512;

pub const KIND_FILTER: u8 = 1;
pub const KIND_CELLS: u8 = 2;

pub const PAYLOAD_BYTES: usize = PAYLOAD.end - PAYLOAD.start;
pub const BITS_PER_BLOCK: usize = 8 * PAYLOAD_BYTES;

// A block's cells fill its payload, so that a cell's place in working memory is its place in the image.
const _: () = assert!(CELLS_PER_BLOCK * CELL_BYTES == PAYLOAD_BYTES);
const _: () = assert!(PACKET_COUNT.end == CELL_BYTES);
