//! Elderflute for Rust: safe functions over slices, one for each call of libelderflute.a (include/elderflute.h). No dependencies.
//!
//! Each function answers what the call gives or a [`Refusal`]; it allocates nothing. Lengths are those of include/elderflute.h: a slice of
//! another length is refused with [`Refusal::Room`], never written past. Cargo links the library by build.rs, which says where it looks for it.

#![warn(missing_docs)]

/// Bytes of a key: source address 4, destination 4, source port 2, destination port 2, protocol 1, high bytes first.
pub const KEY_BYTES: usize = 13;
/// Bytes that [`print`] and [`Session::lines`] are lent.
pub const LINES: usize = 181_309;
/// Bit of a listed flow's flags: its count is known.
pub const KNOWN: u8 = 1;
/// Bit of a listed flow's flags: it was handed over by a neighbour.
pub const HANDED: u8 = 2;

/// The 13 bytes of a key.
pub type Key = [u8; KEY_BYTES];

/// Why a call did not do what it is for. No call answers 13, and the number is not used again.
#[derive(Clone, Copy, PartialEq, Eq, Debug)]
#[repr(u32)]
pub enum Refusal {
    /// An image's length.
    Length = 1,
    /// The check of an image's block.
    Check = 2,
    /// The form of an image's block; a size out of range; a cell's zero byte that is not zero.
    Form = 3,
    /// Salt or slot of an image's later block.
    Mixed = 4,
    /// The image is not of the wanted slot.
    Stale = 5,
    /// The packet has no key.
    NoKey = 6,
    /// A counter is full.
    CounterFull = 7,
    /// Numbers and room are no session.
    NotSession = 8,
    /// The received filter does not pass the key.
    NotInFilter = 9,
    /// The key is listed already.
    Listed = 10,
    /// One of the key's cells has FlowCount 0.
    EmptyCell = 11,
    /// N flows were handed over already.
    TooMany = 12,
    /// The cells contradict each other.
    Damage = 14,
    /// Two sessions of different slots.
    SlotsDiffer = 15,
    /// Lent room of the wrong length.
    Room = 16,
    /// A number that this version does not know.
    Unknown = u32::MAX,
}

use Refusal::*;

impl Refusal {
    const ALL: [Refusal; 15] = [
        Length,
        Check,
        Form,
        Mixed,
        Stale,
        NoKey,
        CounterFull,
        NotSession,
        NotInFilter,
        Listed,
        EmptyCell,
        TooMany,
        Damage,
        SlotsDiffer,
        Room,
    ];

    /// Document 01's number.
    pub fn number(self) -> u32 {
        self as u32
    }

    /// What it says, in words: those of `elderflute_words` in include/elderflute.h.
    pub fn words(self) -> &'static str {
        match self {
            Length => {
                "length: the image is empty, no multiple of 512 bytes, over 40,960, or not what its sizes ask for"
            }
            Check => "check: the bytes of a block do not fit its check",
            Form => "form: a field out of its range, a wrong kind or number, or a zero byte that is not zero",
            Mixed => "mixed: a block is of another salt or slot than block 0",
            Stale => "stale: the image is not of the wanted slot",
            NoKey => "packet: it has no IPv4 header, or no ports where they must be",
            CounterFull => "counter full: a cell of the flow can count no further",
            NotSession => "not a session: numbers and room are not what the calls left",
            NotInFilter => "hand-over: the received filter does not pass the key",
            Listed => "hand-over: the key is listed already",
            EmptyCell => "hand-over: a cell of the key has no flow left",
            TooMany => "hand-over: as many flows as there are cells were handed over already",
            Damage => "damage: the cells contradict each other",
            SlotsDiffer => "exchange: the two sessions are of different slots",
            Room => "room: lent memory of the wrong length",
            Unknown => "a number that this version does not know",
        }
    }

    /// The refusal of a number; none for 0.
    pub fn of(number: u32) -> Option<Refusal> {
        let known = Refusal::ALL.into_iter().find(|refusal| refusal.number() == number);
        (number != 0).then_some(known.unwrap_or(Unknown))
    }
}

impl std::fmt::Display for Refusal {
    fn fmt(&self, out: &mut std::fmt::Formatter) -> std::fmt::Result {
        out.write_str(self.words())
    }
}

impl std::error::Error for Refusal {}

/// The version of this module, that of the file VERSION.
pub const VERSION: &str = "0.1.0";
/// The same as one number: 1,000,000 times its first number, 1,000 times its second, and its third.
pub const VERSION_NUMBER: u32 = 1_000;

/// The number of the library that was linked: where it is not [`VERSION_NUMBER`], module and library are not of one version.
pub fn version() -> u32 {
    unsafe { raw::elderflute_version() }
}

/// What a call's number says.
fn done(number: u32) -> Result<(), Refusal> {
    Refusal::of(number).map_or(Ok(()), Err)
}

/// Sizes of a flowset: kf from 1 to 8, F from 1 to 16, k from 2 to 4, q from 1 to 16.
#[derive(Clone, Copy, PartialEq, Eq, Debug)]
pub struct Sizes {
    /// Filter hashes.
    pub kf: u32,
    /// Filter blocks.
    pub f: u32,
    /// Cell hashes.
    pub k: u32,
    /// A part has 24 q cells.
    pub q: u32,
}

impl Sizes {
    /// N, the cells of the table.
    pub fn cells(self) -> usize {
        24 * self.k as usize * self.q as usize
    }

    /// Bytes of the filter.
    pub fn filter_bytes(self) -> usize {
        480 * self.f as usize
    }

    /// Bytes of the cells in working memory.
    pub fn cell_bytes(self) -> usize {
        20 * self.cells()
    }

    /// Bytes of an image.
    pub fn image_bytes(self) -> usize {
        512 * (self.f as usize + self.k as usize * self.q as usize)
    }
}

/// An image that is not read or opened: why, and the block (0 where no block is named).
#[derive(Clone, Copy, PartialEq, Eq, Debug)]
pub struct BadImage {
    /// Why.
    pub refusal: Refusal,
    /// Which block.
    pub block: usize,
}

/// Where settling stopped: why, and the cell for [`Refusal::Damage`].
#[derive(Clone, Copy, PartialEq, Eq, Debug)]
pub struct Stopped {
    /// Why.
    pub refusal: Refusal,
    /// The marked or ready cell that the step would have started from.
    pub cell: Option<usize>,
}

/// State of a report.
#[derive(Clone, Copy, PartialEq, Eq, Debug)]
pub enum State {
    /// Every listed flow has its count, and the cells are all zero: no other flows and counts give the cells of the image.
    Whole,
    /// No cell has a flow left, a count is unknown.
    Short,
    /// Some cells still hold flows.
    Stuck,
    /// No cell has a flow left, every listed flow has a count, but a cell is not zero: none of the counts is to be trusted.
    Stray,
}

/// What stands in list and cells.
#[derive(Clone, Copy, PartialEq, Eq, Debug)]
pub struct Report {
    /// Listed flows.
    pub listed: usize,
    /// Those with a known count.
    pub counted: usize,
    /// Cells with flows left.
    pub open: usize,
    /// What that makes.
    pub state: State,
}

/// The room that is lent for a session of F filter blocks and N cells.
pub struct Lent<'a> {
    /// The received filter: 480 F.
    pub filter: &'a mut [u8],
    /// FlowXOR: 13 N.
    pub xors: &'a mut [u8],
    /// FlowCount: N.
    pub flows: &'a mut [u16],
    /// PacketCount: N.
    pub packets: &'a mut [u32],
    /// Of each cell, its listed flows without a count: N.
    pub unknowns: &'a mut [u16],
    /// The XOR of their list positions: N.
    pub positions: &'a mut [u16],
    /// One bit per cell: N / 64, rounded up.
    pub marks: &'a mut [u64],
    /// Listed keys, 13 bytes each: 26 N.
    pub keys: &'a mut [u8],
    /// Their counts: 2 N.
    pub counts: &'a mut [u32],
    /// [`KNOWN`] and [`HANDED`]: 2 N.
    pub flags: &'a mut [u8],
}

/// The numbers of a session; the rest stands in the lent room.
#[derive(Clone, Copy, PartialEq, Eq, Debug)]
pub struct Session {
    /// The image's.
    pub sizes: Sizes,
    /// The image's.
    pub salt: u32,
    /// The image's.
    pub slot: u32,
    /// How many flows are listed.
    pub listed: usize,
}

/// The key of a packet that starts at its IPv4 header.
pub fn key(packet: &[u8]) -> Result<Key, Refusal> {
    let mut key = [0; KEY_BYTES];
    done(unsafe { raw::elderflute_key(packet.as_ptr(), packet.len(), key.as_mut_ptr()) })?;
    Ok(key)
}

/// Clears working memory.
pub fn start(sizes: Sizes, filter: &mut [u8], cells: &mut [u8]) -> Result<(), Refusal> {
    let Sizes { kf, f, k, q } = sizes;
    done(unsafe {
        raw::elderflute_start(kf, f, k, q, filter.as_mut_ptr(), filter.len(), cells.as_mut_ptr(), cells.len())
    })
}

/// Takes a packet, from its IPv4 header on, into working memory.
pub fn packet(sizes: Sizes, salt: u32, filter: &mut [u8], cells: &mut [u8], packet: &[u8]) -> Result<(), Refusal> {
    let Sizes { kf, f, k, q } = sizes;
    done(unsafe {
        raw::elderflute_packet(
            kf,
            f,
            k,
            q,
            salt,
            filter.as_mut_ptr(),
            filter.len(),
            cells.as_mut_ptr(),
            cells.len(),
            packet.as_ptr(),
            packet.len(),
        )
    })
}

/// Writes the image of working memory.
pub fn seal(sizes: Sizes, salt: u32, slot: u32, filter: &[u8], cells: &[u8], image: &mut [u8]) -> Result<(), Refusal> {
    let Sizes { kf, f, k, q } = sizes;
    done(unsafe {
        raw::elderflute_seal(
            kf,
            f,
            k,
            q,
            salt,
            slot,
            filter.as_ptr(),
            filter.len(),
            cells.as_ptr(),
            cells.len(),
            image.as_mut_ptr(),
            image.len(),
        )
    })
}

/// Reads an image that is wanted of a slot: the session that it would open as.
pub fn read(image: &[u8], slot: u32) -> Result<Session, BadImage> {
    let (mut numbers, mut block) = ([0; 6], 0);
    let number = unsafe { raw::elderflute_read(image.as_ptr(), image.len(), slot, numbers.as_mut_ptr(), &mut block) };
    done(number).map_err(|refusal| BadImage { refusal, block })?;
    Ok(Session::of(numbers, 0))
}

/// Opens an image that is wanted of a slot.
pub fn open(image: &[u8], slot: u32, lent: &mut Lent) -> Result<Session, BadImage> {
    let (mut numbers, mut listed, mut block) = ([0; 6], 0, 0);
    let number = unsafe {
        raw::elderflute_open(
            image.as_ptr(),
            image.len(),
            slot,
            numbers.as_mut_ptr(),
            &mut listed,
            &mut block,
            lent.filter.as_mut_ptr(),
            lent.filter.len(),
            lent.xors.as_mut_ptr(),
            lent.xors.len(),
            lent.flows.as_mut_ptr(),
            lent.flows.len(),
            lent.packets.as_mut_ptr(),
            lent.packets.len(),
            lent.unknowns.as_mut_ptr(),
            lent.unknowns.len(),
            lent.positions.as_mut_ptr(),
            lent.positions.len(),
            lent.marks.as_mut_ptr(),
            lent.marks.len(),
            lent.keys.as_mut_ptr(),
            lent.keys.len(),
            lent.counts.as_mut_ptr(),
            lent.counts.len(),
            lent.flags.as_mut_ptr(),
            lent.flags.len(),
        )
    };
    done(number).map_err(|refusal| BadImage { refusal, block })?;
    Ok(Session::of(numbers, listed))
}

impl Session {
    fn of([kf, f, k, q, salt, slot]: [u32; 6], listed: usize) -> Self {
        Session { sizes: Sizes { kf, f, k, q }, salt, slot, listed }
    }

    fn numbers(&self) -> [u32; 6] {
        let Sizes { kf, f, k, q } = self.sizes;
        [kf, f, k, q, self.salt, self.slot]
    }

    /// Hands a key over.
    pub fn hand_over(&mut self, key: &Key, lent: &mut Lent) -> Result<(), Refusal> {
        done(unsafe {
            raw::elderflute_hand_over(
                self.numbers().as_ptr(),
                &mut self.listed,
                key.as_ptr(),
                lent.filter.as_ptr(),
                lent.filter.len(),
                lent.xors.as_mut_ptr(),
                lent.xors.len(),
                lent.flows.as_mut_ptr(),
                lent.flows.len(),
                lent.packets.as_ptr(),
                lent.packets.len(),
                lent.unknowns.as_mut_ptr(),
                lent.unknowns.len(),
                lent.positions.as_mut_ptr(),
                lent.positions.len(),
                lent.marks.as_mut_ptr(),
                lent.marks.len(),
                lent.keys.as_mut_ptr(),
                lent.keys.len(),
                lent.counts.as_mut_ptr(),
                lent.counts.len(),
                lent.flags.as_mut_ptr(),
                lent.flags.len(),
            )
        })
    }

    /// Settles. Where it stops at damage, the steps before it stand.
    pub fn settle(&mut self, lent: &mut Lent) -> Result<(), Stopped> {
        let mut cell = 0;
        let number = unsafe {
            raw::elderflute_settle(
                self.numbers().as_ptr(),
                &mut self.listed,
                &mut cell,
                lent.filter.as_ptr(),
                lent.filter.len(),
                lent.xors.as_mut_ptr(),
                lent.xors.len(),
                lent.flows.as_mut_ptr(),
                lent.flows.len(),
                lent.packets.as_mut_ptr(),
                lent.packets.len(),
                lent.unknowns.as_mut_ptr(),
                lent.unknowns.len(),
                lent.positions.as_mut_ptr(),
                lent.positions.len(),
                lent.marks.as_mut_ptr(),
                lent.marks.len(),
                lent.keys.as_mut_ptr(),
                lent.keys.len(),
                lent.counts.as_mut_ptr(),
                lent.counts.len(),
                lent.flags.as_mut_ptr(),
                lent.flags.len(),
            )
        };
        done(number).map_err(|refusal| Stopped { refusal, cell: (refusal == Damage).then_some(cell) })
    }

    /// Reports.
    pub fn report(&self, lent: &Lent) -> Result<Report, Refusal> {
        let mut figures = [0; 4];
        done(unsafe {
            raw::elderflute_report(
                self.numbers().as_ptr(),
                self.listed,
                figures.as_mut_ptr(),
                lent.filter.as_ptr(),
                lent.filter.len(),
                lent.xors.as_ptr(),
                lent.xors.len(),
                lent.flows.as_ptr(),
                lent.flows.len(),
                lent.packets.as_ptr(),
                lent.packets.len(),
                lent.unknowns.as_ptr(),
                lent.unknowns.len(),
                lent.positions.as_ptr(),
                lent.positions.len(),
                lent.marks.as_ptr(),
                lent.marks.len(),
                lent.keys.as_ptr(),
                lent.keys.len(),
                lent.counts.as_ptr(),
                lent.counts.len(),
                lent.flags.as_ptr(),
                lent.flags.len(),
            )
        })?;
        let [listed, counted, open, state] = figures;
        let state = [State::Whole, State::Short, State::Stuck, State::Stray].get(state).copied().ok_or(Unknown)?;
        Ok(Report { listed, counted, open, state })
    }

    /// Writes the session's lines, as the printing program does of one that it has settled, into [`LINES`] bytes, and answers how many these are.
    pub fn lines(&self, lent: &Lent, lines: &mut [u8]) -> Result<usize, Refusal> {
        let mut written = 0;
        done(unsafe {
            raw::elderflute_lines(
                self.numbers().as_ptr(),
                self.listed,
                lines.as_mut_ptr(),
                lines.len(),
                &mut written,
                lent.filter.as_ptr(),
                lent.filter.len(),
                lent.xors.as_ptr(),
                lent.xors.len(),
                lent.flows.as_ptr(),
                lent.flows.len(),
                lent.packets.as_ptr(),
                lent.packets.len(),
                lent.unknowns.as_ptr(),
                lent.unknowns.len(),
                lent.positions.as_ptr(),
                lent.positions.len(),
                lent.marks.as_ptr(),
                lent.marks.len(),
                lent.keys.as_ptr(),
                lent.keys.len(),
                lent.counts.as_ptr(),
                lent.counts.len(),
                lent.flags.as_ptr(),
                lent.flags.len(),
            )
        })?;
        Ok(written)
    }
}

/// Why and where an exchange stopped.
#[derive(Clone, Copy, PartialEq, Eq, Debug)]
pub struct Halted {
    /// The refusal.
    pub refusal: Refusal,
    /// For [`Refusal::Damage`]: whether it was A, and the cell.
    pub at: Option<(bool, usize)>,
    /// Hand-overs that were answered with 12 until then.
    pub twelves: usize,
}

/// Exchanges the lists of two sessions of one slot, whose room is lent joined: of each kind A's part, then B's. Gives the hand-overs that were
/// answered with 12.
pub fn exchange(a: &mut Session, b: &mut Session, lent: &mut Lent) -> Result<usize, Halted> {
    let mut told = [0; 3];
    let number = unsafe {
        raw::elderflute_exchange(
            a.numbers().as_ptr(),
            &mut a.listed,
            b.numbers().as_ptr(),
            &mut b.listed,
            told.as_mut_ptr(),
            lent.filter.as_ptr(),
            lent.filter.len(),
            lent.xors.as_mut_ptr(),
            lent.xors.len(),
            lent.flows.as_mut_ptr(),
            lent.flows.len(),
            lent.packets.as_mut_ptr(),
            lent.packets.len(),
            lent.unknowns.as_mut_ptr(),
            lent.unknowns.len(),
            lent.positions.as_mut_ptr(),
            lent.positions.len(),
            lent.marks.as_mut_ptr(),
            lent.marks.len(),
            lent.keys.as_mut_ptr(),
            lent.keys.len(),
            lent.counts.as_mut_ptr(),
            lent.counts.len(),
            lent.flags.as_mut_ptr(),
            lent.flags.len(),
        )
    };
    let [twelves, switch, cell] = told;
    let at = |refusal| (refusal == Damage).then_some((switch == 1, cell));
    done(number).map(|()| twelves).map_err(|refusal| Halted { refusal, at: at(refusal), twelves })
}

/// Writes all that the printing program prints for its standard input into `lines`, and answers how many bytes these are.
pub fn print(input: &[u8], lines: &mut [u8]) -> Result<usize, Refusal> {
    let mut written = 0;
    done(unsafe { raw::elderflute_print(input.as_ptr(), input.len(), lines.as_mut_ptr(), lines.len(), &mut written) })?;
    Ok(written)
}

/// The declarations of include/elderflute.h.
mod raw {
    extern "C" {
        pub fn elderflute_version() -> u32;
        pub fn elderflute_key(packet: *const u8, packet_length: usize, key: *mut u8) -> u32;
        pub fn elderflute_start(
            kf: u32,
            f: u32,
            k: u32,
            q: u32,
            filter: *mut u8,
            filter_length: usize,
            cells: *mut u8,
            cells_length: usize,
        ) -> u32;
        pub fn elderflute_packet(
            kf: u32,
            f: u32,
            k: u32,
            q: u32,
            salt: u32,
            filter: *mut u8,
            filter_length: usize,
            cells: *mut u8,
            cells_length: usize,
            packet: *const u8,
            packet_length: usize,
        ) -> u32;
        pub fn elderflute_seal(
            kf: u32,
            f: u32,
            k: u32,
            q: u32,
            salt: u32,
            slot: u32,
            filter: *const u8,
            filter_length: usize,
            cells: *const u8,
            cells_length: usize,
            image: *mut u8,
            image_length: usize,
        ) -> u32;
        pub fn elderflute_read(
            image: *const u8,
            image_length: usize,
            slot: u32,
            numbers: *mut u32,
            block: *mut usize,
        ) -> u32;
        pub fn elderflute_open(
            image: *const u8,
            image_length: usize,
            slot: u32,
            numbers: *mut u32,
            listed: *mut usize,
            block: *mut usize,
            filter: *mut u8,
            filter_length: usize,
            xors: *mut u8,
            xors_length: usize,
            flows: *mut u16,
            flows_length: usize,
            packets: *mut u32,
            packets_length: usize,
            unknowns: *mut u16,
            unknowns_length: usize,
            positions: *mut u16,
            positions_length: usize,
            marks: *mut u64,
            marks_length: usize,
            keys: *mut u8,
            keys_length: usize,
            counts: *mut u32,
            counts_length: usize,
            flags: *mut u8,
            flags_length: usize,
        ) -> u32;
        pub fn elderflute_hand_over(
            numbers: *const u32,
            listed: *mut usize,
            key: *const u8,
            filter: *const u8,
            filter_length: usize,
            xors: *mut u8,
            xors_length: usize,
            flows: *mut u16,
            flows_length: usize,
            packets: *const u32,
            packets_length: usize,
            unknowns: *mut u16,
            unknowns_length: usize,
            positions: *mut u16,
            positions_length: usize,
            marks: *mut u64,
            marks_length: usize,
            keys: *mut u8,
            keys_length: usize,
            counts: *mut u32,
            counts_length: usize,
            flags: *mut u8,
            flags_length: usize,
        ) -> u32;
        pub fn elderflute_exchange(
            numbers_a: *const u32,
            listed_a: *mut usize,
            numbers_b: *const u32,
            listed_b: *mut usize,
            told: *mut usize,
            filter: *const u8,
            filter_length: usize,
            xors: *mut u8,
            xors_length: usize,
            flows: *mut u16,
            flows_length: usize,
            packets: *mut u32,
            packets_length: usize,
            unknowns: *mut u16,
            unknowns_length: usize,
            positions: *mut u16,
            positions_length: usize,
            marks: *mut u64,
            marks_length: usize,
            keys: *mut u8,
            keys_length: usize,
            counts: *mut u32,
            counts_length: usize,
            flags: *mut u8,
            flags_length: usize,
        ) -> u32;
        pub fn elderflute_settle(
            numbers: *const u32,
            listed: *mut usize,
            cell: *mut usize,
            filter: *const u8,
            filter_length: usize,
            xors: *mut u8,
            xors_length: usize,
            flows: *mut u16,
            flows_length: usize,
            packets: *mut u32,
            packets_length: usize,
            unknowns: *mut u16,
            unknowns_length: usize,
            positions: *mut u16,
            positions_length: usize,
            marks: *mut u64,
            marks_length: usize,
            keys: *mut u8,
            keys_length: usize,
            counts: *mut u32,
            counts_length: usize,
            flags: *mut u8,
            flags_length: usize,
        ) -> u32;
        pub fn elderflute_report(
            numbers: *const u32,
            listed: usize,
            figures: *mut usize,
            filter: *const u8,
            filter_length: usize,
            xors: *const u8,
            xors_length: usize,
            flows: *const u16,
            flows_length: usize,
            packets: *const u32,
            packets_length: usize,
            unknowns: *const u16,
            unknowns_length: usize,
            positions: *const u16,
            positions_length: usize,
            marks: *const u64,
            marks_length: usize,
            keys: *const u8,
            keys_length: usize,
            counts: *const u32,
            counts_length: usize,
            flags: *const u8,
            flags_length: usize,
        ) -> u32;
        pub fn elderflute_print(
            input: *const u8,
            input_length: usize,
            lines: *mut u8,
            lines_length: usize,
            written: *mut usize,
        ) -> u32;
        pub fn elderflute_lines(
            numbers: *const u32,
            listed: usize,
            lines: *mut u8,
            lines_length: usize,
            written: *mut usize,
            filter: *const u8,
            filter_length: usize,
            xors: *const u8,
            xors_length: usize,
            flows: *const u16,
            flows_length: usize,
            packets: *const u32,
            packets_length: usize,
            unknowns: *const u16,
            unknowns_length: usize,
            positions: *const u16,
            positions_length: usize,
            marks: *const u64,
            marks_length: usize,
            keys: *const u8,
            keys_length: usize,
            counts: *const u32,
            counts_length: usize,
            flags: *const u8,
            flags_length: usize,
        ) -> u32;
    }
}
