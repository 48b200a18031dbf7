//! A session: an opened image, the engine at work on its cells, and the calls.

use crate::engine::{Damage, Engine};
use crate::flow;
use crate::image::{self, Header, ReadRefusal};
use crate::key::KeyBytes;
use crate::layout::{BLOCK_BYTES, CELL_BYTES, PAYLOAD};
use crate::places::Hashed;
use crate::refusal::Refusal;
use crate::report::Report;
use crate::table::{Cell, Record};

#[derive(Clone, PartialEq, Eq, Debug)]
pub struct Session<E> {
    pub header: Header,
    pub filter: Vec<u8>,
    pub engine: E,
}

impl<E: Engine> Session<E> {
    pub fn open(image: &[u8], wanted_slot: u32) -> Result<Self, ReadRefusal> {
        let header = image::read(image, wanted_slot)?;
        let (filter_blocks, cell_blocks) = image.split_at(BLOCK_BYTES * usize::from(header.sizes.f));
        let mut filter = Vec::with_capacity(header.sizes.filter_bytes());
        payloads(filter_blocks).for_each(|payload| filter.extend_from_slice(payload));
        let mut cells = Vec::with_capacity(header.sizes.cells());
        payloads(cell_blocks).for_each(|payload| cells.extend(payload.chunks_exact(CELL_BYTES).map(Cell::from_bytes)));
        Ok(Session { header, filter, engine: E::new(&Hashed::new(header.sizes, header.salt), cells) })
    }

    pub fn hand_over(&mut self, key: &KeyBytes) -> Result<(), Refusal> {
        self.checked()?.hand_over(key)
    }

    /// The outer refusal is 8 or 16, the inner one 14.
    pub fn settle(&mut self) -> Result<Result<(), Damage>, Refusal> {
        Ok(self.checked()?.settle())
    }

    pub fn report(&self) -> Result<Report, Refusal> {
        self.check_sizes()?;
        self.check_room()?;
        self.check_rest()?;
        Ok(Report::of(self.engine.table()))
    }

    pub fn list(&self) -> &[Record] {
        &self.engine.table().list
    }

    fn checked(&mut self) -> Result<Checked<'_, E>, Refusal> {
        self.check_sizes()?;
        self.check_room()?;
        self.checked_rest()
    }

    pub fn check_sizes(&self) -> Result<(), Refusal> {
        self.header.sizes.check().map_err(|_| Refusal::SessionSizes)
    }

    pub fn check_room(&self) -> Result<(), Refusal> {
        if self.filter.len() != self.header.sizes.filter_bytes() {
            return Err(Refusal::FilterRoom);
        }
        self.engine.check_room(self.header.sizes.cells())
    }

    fn check_rest(&self) -> Result<(Hashed, E::Aid), Refusal> {
        let placement = Hashed::new(self.header.sizes, self.header.salt);
        let aid = self.engine.check(&placement)?;
        Ok((placement, aid))
    }

    pub fn checked_rest(&mut self) -> Result<Checked<'_, E>, Refusal> {
        let (placement, aid) = self.check_rest()?;
        Ok(Checked { session: self, placement, aid })
    }
}

fn payloads(blocks: &[u8]) -> impl Iterator<Item = &[u8]> {
    blocks.chunks_exact(BLOCK_BYTES).map(|block| &block[PAYLOAD])
}

/// A session that has passed the test of 8. The steps keep it one, so an exchange tests each session once.
pub struct Checked<'a, E: Engine> {
    session: &'a mut Session<E>,
    placement: Hashed,
    aid: E::Aid,
}

impl<E: Engine> Checked<'_, E> {
    pub fn hand_over(&mut self, key: &KeyBytes) -> Result<(), Refusal> {
        let Header { sizes, salt, .. } = self.session.header;
        if flow::passes(sizes, salt, &self.session.filter, key) {
            self.session.engine.hand_over(&self.placement, &mut self.aid, key)
        } else {
            Err(Refusal::NotInFilter)
        }
    }

    pub fn settle(&mut self) -> Result<(), Damage> {
        self.session.engine.settle(&self.placement, &mut self.aid)
    }

    pub fn list(&self) -> &[Record] {
        self.session.list()
    }

    pub fn slot(&self) -> u32 {
        self.session.header.slot
    }
}
