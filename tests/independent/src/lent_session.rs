//! A session as a request carries it. Any bytes may stand there, so it becomes a session to call only where sizes,
//! lengths and the number of listed flows allow.

use crate::engine::Engine;
use crate::fresh::Fresh;
use crate::image::Header;
use crate::layout::KEY_BYTES;
use crate::lent::{right_lengths, Lent, Slice, HANDED, KNOWN, SLICES};
use crate::marked::{Marked, Unknown};
use crate::places::Hashed;
use crate::refusal::Refusal;
use crate::rescanning::Rescanning;
use crate::session::Session;
use crate::table::{Cell, Record, Table};
use crate::words::Words;

/// An engine that goes on from memory: its table, and what is lent beside it.
pub trait Resumed: Engine {
    fn resume(table: Table, marks: Words, unknown: Vec<Unknown>) -> Self;

    fn marks(&self) -> &Words;

    fn unknown(&self) -> &[Unknown];
}

impl Resumed for Marked {
    fn resume(table: Table, marks: Words, unknown: Vec<Unknown>) -> Self {
        Marked { table, marks, unknown }
    }

    fn marks(&self) -> &Words {
        &self.marks
    }

    fn unknown(&self) -> &[Unknown] {
        &self.unknown
    }
}

impl Resumed for Fresh {
    fn resume(table: Table, marks: Words, unknown: Vec<Unknown>) -> Self {
        Fresh { plain: Rescanning { table }, marks, unknown }
    }

    fn marks(&self) -> &Words {
        &self.marks
    }

    fn unknown(&self) -> &[Unknown] {
        &self.unknown
    }
}

#[derive(Clone, PartialEq, Eq, Debug)]
pub struct LentSession {
    pub header: Header,
    pub listed: u32,
    pub memory: Lent,
}

const LAST_BYTE: usize = KEY_BYTES - 1;

/// Of a list that a call has made longer than any call can.
pub const PAST: &str = "grown past 2 N - k + 1 listed";

impl LentSession {
    /// In memory that was all zeros before.
    pub fn of<E: Resumed>(session: &Session<E>) -> Self {
        let memory = Lent::zeros(right_lengths(session.header.sizes));
        let mut lent = LentSession { header: session.header, listed: 0, memory };
        lent.keep(session);
        lent
    }

    pub fn check_sizes(&self) -> Result<(), Refusal> {
        self.header.sizes.check().map_err(|_| Refusal::SessionSizes)
    }

    /// Where the sizes are in range.
    pub fn check_lengths(&self) -> Result<(), Refusal> {
        let (right, lengths) = (right_lengths(self.header.sizes), self.memory.lengths());
        match SLICES.into_iter().find(|&slice| lengths[slice as usize] != right[slice as usize]) {
            Some(slice) => Err(Refusal::Room(slice)),
            None => Ok(()),
        }
    }

    /// Where sizes and lengths are right. More listed flows than the list holds cannot be read.
    pub fn session<E: Resumed>(&self) -> Result<Session<E>, Refusal> {
        let n = self.header.sizes.cells();
        let listed = usize::try_from(self.listed).ok().filter(|&listed| listed <= 2 * n).ok_or(Refusal::OverListed)?;
        let table = Table {
            cells: (0..n).map(|number| self.cell(number)).collect(),
            list: (0..listed).map(|position| self.record(position)).collect(),
        };
        let marks = (0..Words::words_for(n)).map(|word| self.memory.get(Slice::Marks, word)).collect();
        let unknown = (0..n).map(|number| self.unknown(number)).collect();
        Ok(Session {
            header: self.header,
            filter: self.memory.bytes(Slice::Filter).to_vec(),
            engine: E::resume(table, Words(marks), unknown),
        })
    }

    /// One call, with what it leaves written back. 8 and 16 go before it.
    pub fn call<E: Resumed, T>(
        &mut self,
        call: impl FnOnce(&mut Session<E>) -> Result<T, Refusal>,
    ) -> Result<T, Refusal> {
        self.check_sizes()?;
        self.check_lengths()?;
        let mut session = self.session()?;
        let answer = call(&mut session);
        self.keep(&session);
        answer
    }

    /// As opening does, to all records.
    pub fn clear_list(&mut self) {
        for slice in [Slice::Keys, Slice::Counts, Slice::Flags] {
            self.memory.bytes_mut(slice).fill(0);
        }
        self.listed = 0;
    }

    /// All reasons for 8 that hold, where sizes and lengths are right.
    pub fn reasons(&self) -> Vec<Refusal> {
        let placement = Hashed::new(self.header.sizes, self.header.salt);
        self.session::<Fresh>().map_or_else(|reason| vec![reason], |session| session.engine.reasons(&placement))
    }

    /// Where the list has one of the lengths that end its growth, or has grown past them, which, and whether it had fewer
    /// flows `before`. The test of 8 lets 2 N pass, a peel makes 2 N - k + 1 at most, a hand-over 2 N - k; one length may
    /// have two names.
    pub fn edges(&self, before: u32) -> Vec<String> {
        if self.check_sizes().is_err() {
            return Vec::new();
        }
        let (most, k) = (2 * self.header.sizes.cells(), usize::from(self.header.sizes.k));
        let lengths = [("2 N", most), ("2 N - 1", most - 1), ("2 N - k + 1", most - k + 1), ("2 N - k", most - k)];
        let reached = match before {
            _ if self.listed == before => "with",
            0 => "grown from none to",
            _ => "grown to",
        };
        let here = lengths.into_iter().filter(|&(_, length)| self.listed as usize == length);
        let past = self.listed > before && self.listed as usize > most - k + 1;
        here.map(|(name, _)| format!("{reached} {name} listed")).chain(past.then(|| PAST.to_string())).collect()
    }

    pub fn has_open_cell(&self) -> bool {
        self.memory.bytes(Slice::Flows).iter().any(|&byte| byte != 0)
    }

    /// Where one byte of FlowXOR or one PacketCount is not 0 and all others are: which.
    pub fn only_rest(&self) -> Option<String> {
        let n = self.header.sizes.cells();
        let xors = self.memory.bytes(Slice::Xors).iter().enumerate().filter(|(_, &byte)| byte != 0);
        let bytes = xors.map(|(at, _)| match at % KEY_BYTES {
            0 => (at / KEY_BYTES, "first byte of FlowXOR"),
            LAST_BYTE => (at / KEY_BYTES, "last byte of FlowXOR"),
            _ => (at / KEY_BYTES, "middle byte of FlowXOR"),
        });
        let packets =
            (0..n).filter(|&cell| self.memory.get(Slice::Packets, cell) != 0).map(|cell| (cell, "PacketCount"));
        let rest: Vec<(usize, &str)> = bytes.chain(packets).collect();
        let [(cell, what)] = rest[..] else { return None };
        let which = match cell {
            0 => "first",
            _ if cell == n - 1 => "last",
            _ => "middle",
        };
        Some(format!("{what} of the {which} cell"))
    }

    /// Writes what a session holds. Records past its list stay as they are.
    pub fn keep<E: Resumed>(&mut self, session: &Session<E>) {
        let Table { cells, list } = session.engine.table();
        let memory = &mut self.memory;
        memory.bytes_mut(Slice::Filter).copy_from_slice(&session.filter);
        for (number, (cell, unknown)) in cells.iter().zip(session.engine.unknown()).enumerate() {
            memory.put_key(Slice::Xors, number, &cell.flow_xor);
            memory.put(Slice::Flows, number, cell.flow_count.into());
            memory.put(Slice::Packets, number, cell.packet_count.into());
            memory.put(Slice::Unknowns, number, unknown.number.into());
            memory.put(Slice::Positions, number, unknown.positions.into());
        }
        for (number, &word) in session.engine.marks().0.iter().enumerate() {
            memory.put(Slice::Marks, number, word);
        }
        for (position, record) in list.iter().enumerate() {
            self.put_record(position, record);
        }
        self.listed = list.len() as u32;
    }

    fn cell(&self, number: usize) -> Cell {
        Cell {
            flow_xor: self.memory.key(Slice::Xors, number),
            flow_count: self.memory.get(Slice::Flows, number) as u16,
            packet_count: self.memory.get(Slice::Packets, number) as u32,
        }
    }

    fn unknown(&self, number: usize) -> Unknown {
        Unknown {
            number: self.memory.get(Slice::Unknowns, number) as u16,
            positions: self.memory.get(Slice::Positions, number) as u16,
        }
    }

    pub fn record(&self, position: usize) -> Record {
        let flags = self.flags(position);
        Record {
            key: self.memory.key(Slice::Keys, position),
            count: self.memory.get(Slice::Counts, position) as u32,
            known: flags & KNOWN != 0,
            handed: flags & HANDED != 0,
        }
    }

    pub fn flags(&self, position: usize) -> u8 {
        self.memory.bytes(Slice::Flags)[position]
    }

    /// The flags' other bits belong to a listed record; one that is appended has none.
    pub fn put_record(&mut self, position: usize, record: &Record) {
        let other = if (position as u32) < self.listed { self.flags(position) & !(KNOWN | HANDED) } else { 0 };
        let known = if record.known { KNOWN } else { 0 };
        let handed = if record.handed { HANDED } else { 0 };
        self.memory.put_key(Slice::Keys, position, &record.key);
        self.memory.put(Slice::Counts, position, record.count.into());
        self.memory.put(Slice::Flags, position, (other | known | handed).into());
    }
}
