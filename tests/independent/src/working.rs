//! Working memory with the calls on it.

use crate::encoder::{self, Flow};
use crate::image::{seal, Header};
use crate::layout::CELL_BYTES;
use crate::refusal::Refusal;

pub struct Encoder {
    pub header: Header,
    pub filter: Vec<u8>,
    pub cells: Vec<u8>,
}

impl Encoder {
    pub fn new(header: Header) -> Self {
        let sizes = header.sizes;
        Encoder { header, filter: vec![0; sizes.filter_bytes()], cells: vec![0; sizes.cells_bytes()] }
    }

    pub fn packet(&mut self, packet: &[u8]) -> Result<Flow, Refusal> {
        encoder::packet(self.header.sizes, self.header.salt, &mut self.filter, &mut self.cells, packet)
    }

    pub fn sealed(&self) -> Vec<u8> {
        let mut image = vec![0xee; self.header.sizes.image_bytes()];
        seal(self.header, &self.filter, &self.cells, &mut image).expect("a good call");
        image
    }

    pub fn cell(&mut self, number: usize) -> &mut [u8] {
        &mut self.cells[CELL_BYTES * number..][..CELL_BYTES]
    }
}
