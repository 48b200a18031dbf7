//! One field of a session's memory changed. Some changes make it no session, some damage its table, and some must make
//! no difference.

use super::samples::Sample;
use crate::flow::filter_bits;
use crate::generate::images::some_place;
use crate::generate::with_bad_size;
use crate::key::KeyBytes;
use crate::layout::KEY_BYTES;
use crate::lent::{Slice, HANDED, KNOWN, SLICES};
use crate::lent_session::LentSession;
use crate::random::Random;

#[derive(Clone, Copy, PartialEq)]
pub enum Fault {
    Size(usize),
    Length(Slice),
    ListedOver,
    ListedFar,
    ListedUp,
    ListedDown,
    Repeated,
    KnownZero,
    OverHanded,
    OverPeeled,
    Mark,
    MarkPast,
    Unknowns,
    Positions,
    KeyByte,
    KnownFlag,
    HandedFlag,
    FlowCount,
    FlowXor,
    PacketCount,
    FilterBit,
    OtherFlags,
    StoredCount,
    Junk,
}

use Fault::*;

const FIELDS: [Fault; 22] = [
    ListedOver,
    ListedFar,
    ListedUp,
    ListedDown,
    Repeated,
    KnownZero,
    OverHanded,
    OverPeeled,
    Mark,
    MarkPast,
    Unknowns,
    Positions,
    KeyByte,
    KnownFlag,
    HandedFlag,
    FlowCount,
    FlowXor,
    PacketCount,
    FilterBit,
    OtherFlags,
    StoredCount,
    Junk,
];

/// Each in its turn: sizes, lengths, fields.
pub fn fault_of_turn(turn: usize) -> Fault {
    let all: Vec<Fault> = (0..4).map(Size).chain(SLICES.map(Length)).chain(FIELDS).collect();
    all[turn % all.len()]
}

/// A field and a length, or a length and a size, by turns: different tests find them. What the later test finds is put
/// first, for behind a wrong length or size a field has no sure place.
pub fn two_ranked(random: &mut Random, turn: usize) -> [Fault; 2] {
    let field = random.pick(&[KnownZero, Mark, Positions, ListedOver]);
    let length = Length(random.pick(&SLICES));
    if turn.is_multiple_of(2) {
        [field, length]
    } else {
        [length, Size(random.below(4))]
    }
}

/// A busy session with one fault, and a key that it would accept without.
pub fn faulty(random: &mut Random, fault: Fault) -> (LentSession, KeyBytes) {
    let sample = Sample::busy(random);
    let key = sample.acceptable(random).expect("a busy session has one");
    (with_fault(random, sample, fault, &key), key)
}

pub fn two_faults(random: &mut Random, turn: usize) -> (LentSession, KeyBytes) {
    let [first, second] = two_ranked(random, turn);
    let (mut session, key) = faulty(random, first);
    put_fault(random, &mut session, second, &key);
    (session, key)
}

/// Of a busy session; `key` is the one to be handed over.
pub fn with_fault(random: &mut Random, sample: Sample, fault: Fault, key: &KeyBytes) -> LentSession {
    let at_edge = matches!(fault, OverHanded | OverPeeled);
    let mut session = if at_edge { sample.padded(random, 0) } else { sample }.lent();
    put_fault(random, &mut session, fault, key);
    session
}

pub fn put_fault(random: &mut Random, session: &mut LentSession, fault: Fault, key: &KeyBytes) {
    match fault {
        Size(field) => session.header.sizes = with_bad_size(session.header.sizes, field, random),
        Length(slice) => change_length(random, session, slice),
        ListedOver | ListedFar | ListedUp | ListedDown => change_listed(random, session, fault),
        Mark | MarkPast | Unknowns | Positions => change_beside_cells(random, session, fault),
        FlowCount | FlowXor | PacketCount => change_cell(random, session, fault),
        FilterBit => change_filter(random, session, key),
        Junk => put_junk(random, session),
        _ => change_record(random, session, fault),
    }
}

/// What must make no difference.
pub fn dress(random: &mut Random, session: &mut LentSession) {
    for (fault, once_in) in [(Junk, 3), (OtherFlags, 6), (StoredCount, 6)] {
        if random.once_in(once_in) {
            put_fault(random, session, fault, &[0; KEY_BYTES]);
        }
    }
}

fn change_length(random: &mut Random, session: &mut LentSession, slice: Slice) {
    let length = slice.right_length(session.header.sizes);
    let other = random.pick(&[length - 1, length + 1, length - 1, length + 1, 0, slice.room()]);
    session.memory.resize(slice, other);
}

fn change_listed(random: &mut Random, session: &mut LentSession, fault: Fault) {
    let most = 2 * session.header.sizes.cells() as u32;
    let listed = session.listed;
    session.listed = match fault {
        ListedOver => most + 1,
        // What is left of it in fewer bits would do.
        ListedFar => listed | random.pick(&[0x1_0000, 0x1_0000, 0x8000_0000]),
        ListedUp => {
            if random.once_in(2) {
                put_junk(random, session);
            }
            most.min(listed + 1)
        }
        _ => random.pick(&[listed - 1, listed - 1, listed / 2, 0]),
    };
}

/// Marks and per-cell numbers.
fn change_beside_cells(random: &mut Random, session: &mut LentSession, fault: Fault) {
    let n = session.header.sizes.cells();
    let cell = some_place(n, random);
    let (slice, at, bit) = match fault {
        MarkPast if !n.is_multiple_of(64) => (Slice::Marks, n / 64, random.between(n % 64, 63)),
        Mark | MarkPast => (Slice::Marks, cell / 64, cell % 64),
        Unknowns => (Slice::Unknowns, cell, random.pick(&[0, 0, 1, 8, 15])),
        _ => (Slice::Positions, cell, random.below(16)),
    };
    let number = session.memory.get(slice, at);
    session.memory.put(slice, at, number ^ 1 << bit);
}

fn change_cell(random: &mut Random, session: &mut LentSession, fault: Fault) {
    let cell = random.below(session.header.sizes.cells());
    let memory = &mut session.memory;
    match fault {
        FlowCount => {
            let flows = memory.get(Slice::Flows, cell);
            memory.put(Slice::Flows, cell, random.pick(&[0, 1, 2, flows + 1, flows ^ 1, 0xffff]) & 0xffff);
        }
        FlowXor => {
            let mut key = memory.key(Slice::Xors, cell);
            key[random.below(KEY_BYTES)] ^= random.byte() | 1;
            memory.put_key(Slice::Xors, cell, &key);
        }
        _ => {
            let packets = memory.get(Slice::Packets, cell);
            memory.put(Slice::Packets, cell, random.pick(&[0, packets / 2, packets + 1, 0xffff_ffff]) & 0xffff_ffff);
        }
    }
}

/// Any bit, or one that the key needs.
fn change_filter(random: &mut Random, session: &mut LentSession, key: &KeyBytes) {
    let needed = filter_bits(session.header.sizes, session.header.salt, key);
    let any = random.below(session.header.sizes.filter_bits());
    let bit = if random.once_in(3) { any } else { random.pick(&needed) };
    session.memory.bytes_mut(Slice::Filter)[bit / 8] ^= 128 >> (bit % 8);
}

/// In the records past the listed ones.
fn put_junk(random: &mut Random, session: &mut LentSession) {
    let listed = session.listed as usize;
    for slice in [Slice::Keys, Slice::Counts, Slice::Flags] {
        let record_bytes = if slice == Slice::Keys { KEY_BYTES } else { slice.width() };
        session.memory.bytes_mut(slice)[record_bytes * listed..].fill_with(|| random.byte());
    }
}

/// Where the list has a record of the kind that the fault falls on.
fn change_record(random: &mut Random, session: &mut LentSession, fault: Fault) {
    let listed = session.listed as usize;
    let suits = |position: &usize| {
        let record = session.record(*position);
        match fault {
            KnownZero => record.known,
            Repeated => record.known && listed > 1,
            OverHanded => record.known && !record.handed,
            OverPeeled => record.handed,
            StoredCount => !record.known,
            _ => true,
        }
    };
    let suitable: Vec<usize> = (0..listed).filter(suits).collect();
    if suitable.is_empty() {
        return;
    }
    let position = suitable[some_place(suitable.len(), random)];
    let memory = &mut session.memory;
    let flags = memory.get(Slice::Flags, position);
    match fault {
        KnownZero => memory.put(Slice::Counts, position, 0),
        Repeated => {
            let other = memory.key(Slice::Keys, (position + random.between(1, listed - 1)) % listed);
            memory.put_key(Slice::Keys, position, &other);
        }
        KeyByte => {
            let mut key = memory.key(Slice::Keys, position);
            key[random.below(KEY_BYTES)] ^= random.byte() | 1;
            memory.put_key(Slice::Keys, position, &key);
        }
        KnownFlag => memory.put(Slice::Flags, position, flags ^ u64::from(KNOWN)),
        OtherFlags => memory.put(Slice::Flags, position, flags ^ u64::from(4 | random.byte() & 0xfc)),
        StoredCount => memory.put(Slice::Counts, position, u64::from(random.u32() | 1)),
        _ => memory.put(Slice::Flags, position, flags ^ u64::from(HANDED)),
    }
}
