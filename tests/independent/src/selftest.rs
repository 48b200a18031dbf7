//! Checks of this program itself: it is the yardstick, so its own numbers are written by hand from 01.

use std::collections::{BTreeMap, BTreeSet};
use std::fmt::Debug;

use crate::answer::answer;
use crate::bytes::{u16_at, u32_at};
use crate::chart::{Ruled, Scale};
use crate::compare::parting;
use crate::counters::{seed_with, Counter};
use crate::edges::{edges, FNV_VECTORS};
use crate::encoder::{self, Flow};
use crate::expected::expected_kinds;
use crate::flow;
use crate::generate;
use crate::hash::{fnv1a, place};
use crate::image::{mend_check, read, seal, Header, ReadRefusal};
use crate::ipv4::Ipv4;
use crate::key::Key;
use crate::layout::*;
use crate::memory::{seed_reaching, Memory, Noise, NOISE};
use crate::refusal::{number_of, Refusal};
use crate::request::{parse_stream, write_stream, Request, Run, ENCODER, HASH, READ};
use crate::session_tests;
use crate::shrink::shrink;
use crate::sizes::Sizes;
use crate::working::Encoder;

pub const MIDDLE: Header = Header { sizes: Sizes { kf: 3, f: 2, k: 3, q: 2 }, salt: 9, slot: 7 };

/// Prints the counts, and says whether all is well.
pub fn selftest() -> bool {
    let mut tally = Tally::default();
    for group in [
        hashes,
        sizes,
        places,
        keys,
        zero_key,
        two_packets,
        mixed_keys,
        counters,
        refusals_keep,
        blocks,
        read_back,
        any_bytes,
        two_faults,
        noise,
        modes,
        seeds,
        ops,
        streams,
        runs,
        edge_answers,
        edge_kinds,
        shrinking,
        partings,
        generator,
        charts,
    ] {
        group(&mut tally);
    }
    session_tests::run(&mut tally);
    tally.answers.iter().for_each(|(answer, count)| println!("{count:8} {answer}"));
    println!("{} passed, {} failed", tally.passed, tally.failed);
    tally.failed == 0
}

#[derive(Default)]
pub struct Tally {
    passed: usize,
    failed: usize,
    answers: BTreeMap<String, usize>,
}

impl Tally {
    pub fn equal<T: PartialEq + Debug>(&mut self, name: &str, found: T, wanted: T) {
        if found == wanted {
            self.passed += 1;
        } else {
            self.failed += 1;
            println!("{name}: found {found:?}, wanted {wanted:?}");
        }
    }

    pub fn holds(&mut self, name: &str, holds: bool) {
        self.equal(name, holds, true);
    }

    /// For checks in great number: what is wrong is put into words only where something is.
    pub fn holds_in(&mut self, name: &str, what: &str, holds: bool) {
        if holds {
            self.passed += 1;
        } else {
            self.holds(&format!("{name}: {what}"), false);
        }
    }

    pub fn met(&mut self, answer: impl Into<String>) {
        *self.answers.entry(answer.into()).or_insert(0) += 1;
    }

    /// Fails for each answer that was never met.
    pub fn must_have_met(&mut self, answers: impl IntoIterator<Item = String>) {
        for answer in answers {
            let met = self.answers.contains_key(&answer);
            self.holds(&format!("{answer} occurred"), met);
        }
    }
}

pub fn tcp() -> Vec<u8> {
    Ipv4::with_ports(6, 0x0a00_0001, 0x0a00_0002, (1024, 80)).bytes()
}

/// The key of `tcp`, and its places under `MIDDLE`, worked out by another program.
const TCP_KEY: [u8; KEY_BYTES] = [10, 0, 0, 1, 10, 0, 0, 2, 4, 0, 0, 80, 6];
const TCP_CELLS: [usize; 3] = [7, 59, 143];
const TCP_BITS: [usize; 3] = [2_216, 5_346, 600];

fn hashes(tally: &mut Tally) {
    for (text, value) in FNV_VECTORS {
        tally.equal(text, format!("{:08x}", fnv1a(text.as_bytes())), value.to_string());
    }
    tally.equal("place of 0", place(0, 24), 0);
    tally.equal("place of the largest hash", place(u32::MAX, 24), 23);
    tally.equal("place in the middle", place(1 << 31, 24), 12);
    tally.equal("place just below the middle", place((1 << 31) - 1, 24), 11);
    tally.equal("place among all filter bits", place(u32::MAX, 61_440), 61_439);
}

fn sizes(tally: &mut Tally) {
    let largest = Sizes::LARGEST;
    tally.equal("most cells", largest.cells(), 1_536);
    tally.equal("largest image", largest.image_bytes(), 40_960);
    tally.equal("largest filter", largest.filter_bits(), 61_440);
    tally.equal("smallest image", Sizes::SMALLEST.image_bytes(), 1_536);
    let middle = MIDDLE.sizes;
    tally.equal("s", middle.part(), 48);
    tally.equal("N", middle.cells(), 144);
    tally.equal("filter bytes", middle.filter_bytes(), 960);
    tally.equal("cells bytes", middle.cells_bytes(), 2_880);
    tally.equal("blocks", middle.blocks(), 8);
    let mut good = 0;
    for bytes in 0..=u16::MAX {
        let [a, b] = bytes.to_be_bytes();
        good += usize::from(Sizes { kf: a, f: b, k: 2, q: 1 }.check().is_ok());
        good += usize::from(Sizes { kf: 1, f: 1, k: a, q: b }.check().is_ok());
    }
    tally.equal("sizes in range", good, 8 * 16 + 3 * 16);
}

fn places(tally: &mut Tally) {
    let Header { sizes, salt, .. } = MIDDLE;
    tally.equal("cells of a flow", flow::cells(sizes, salt, &TCP_KEY), TCP_CELLS.to_vec());
    tally.equal("bits of a flow", flow::filter_bits(sizes, salt, &TCP_KEY), TCP_BITS.to_vec());
    let largest = Sizes::LARGEST;
    let one_per_part = (0..200u32).all(|salt| {
        flow::cells(largest, salt, &TCP_KEY).iter().enumerate().all(|(part, cell)| cell / largest.part() == part)
    });
    tally.holds("one cell in each part", one_per_part);
}

fn keys(tally: &mut Tally) {
    let key = Key::of_packet(&tcp()).expect("a good packet");
    let fields =
        Key { source: 0x0a00_0001, destination: 0x0a00_0002, source_port: 1024, destination_port: 80, protocol: 6 };
    tally.equal("fields", key, fields);
    tally.equal("key bytes", key.to_bytes(), TCP_KEY);
    let refusal = |packet: &[u8]| Key::of_packet(packet).err();
    tally.equal("short", refusal(&tcp()[..19]), Some(Refusal::PacketShort));
    tally.equal("version", refusal(&[&[0x65], &tcp()[1..]].concat()), Some(Refusal::Version));
    tally.equal("header short", refusal(&[&[0x44], &tcp()[1..]].concat()), Some(Refusal::HeaderShort));
    tally.equal("header long", refusal(&[&[0x47], &tcp()[1..]].concat()), Some(Refusal::HeaderLong));
    tally.equal("ports short", refusal(&tcp()[..23]), Some(Refusal::PortsShort));
    tally.equal("header takes the ports", refusal(&[&[0x46], &tcp()[1..]].concat()), Some(Refusal::PortsShort));
}

/// All zeros is an ordinary key: cells 13 and 33 and bit 132.
fn zero_key(tally: &mut Tally) {
    let mut encoder = Encoder::new(Header { sizes: Sizes::SMALLEST, salt: 0, slot: 0 });
    let packet = Ipv4::new(0, 0, 0, []).bytes();
    tally.equal("new", encoder.packet(&packet), Ok(Flow::New));
    let mut filter = vec![0; 480];
    filter[16] = 0b0000_1000;
    tally.equal("bit 132", &encoder.filter, &filter);
    let mut cells = vec![0; 960];
    for cell in [13, 33] {
        cells[20 * cell + 15] = 1;
        cells[20 * cell + 19] = 1;
    }
    tally.equal("cells 13 and 33", &encoder.cells, &cells);
}

fn two_packets(tally: &mut Tally) {
    let mut encoder = Encoder::new(MIDDLE);
    encoder.cells[20 * 7 + 13] = 99;
    tally.equal("new", encoder.packet(&tcp()), Ok(Flow::New));
    tally.equal("old", encoder.packet(&tcp()), Ok(Flow::Old));
    let mut filter = vec![0; 960];
    filter[277] = 0x80;
    filter[668] = 0x20;
    filter[75] = 0x80;
    tally.equal("filter", &encoder.filter, &filter);
    let mut cells = vec![0; 2_880];
    for cell in TCP_CELLS {
        cells[20 * cell..][..13].copy_from_slice(&TCP_KEY);
        cells[20 * cell + 15] = 1;
        cells[20 * cell + 19] = 2;
    }
    cells[20 * 7 + 13] = 99;
    tally.equal("cells, with the zero byte left alone", &encoder.cells, &cells);
}

/// A new flow XORs its key into what is there, and all flows of a part together give the XOR of their keys.
fn mixed_keys(tally: &mut Tally) {
    let mut encoder = Encoder::new(MIDDLE);
    encoder.cell(59)[..KEY_BYTES].fill(255);
    tally.equal("new", encoder.packet(&tcp()), Ok(Flow::New));
    tally.equal("into ones", encoder.cell(59)[..KEY_BYTES].to_vec(), TCP_KEY.map(|byte| !byte).to_vec());
    tally.equal("into zeros", encoder.cell(7)[..KEY_BYTES].to_vec(), TCP_KEY.to_vec());

    let mut encoder = Encoder::new(MIDDLE);
    let mut wanted = [0; KEY_BYTES];
    let mut flows = 0;
    for port in 0..400 {
        let packet = Ipv4::with_ports(6, 0x0a00_0001, u32::from(port) << 7, (port, 80)).bytes();
        if encoder.packet(&packet) == Ok(Flow::New) {
            let key = Key::of_packet(&packet).expect("a good packet").to_bytes();
            wanted.iter_mut().zip(key).for_each(|(mixed, byte)| *mixed ^= byte);
            flows += 1;
        }
    }
    for part in encoder.cells.chunks(CELL_BYTES * MIDDLE.sizes.part()) {
        let found = std::array::from_fn(|at| part.chunks(CELL_BYTES).fold(0, |mixed, cell| mixed ^ cell[at]));
        tally.equal("keys of a part", found, wanted);
        let counted = |at: usize| part.chunks(CELL_BYTES).map(|cell| u32::from(u16_at(cell, at))).sum::<u32>();
        tally.equal("flows of a part", counted(FLOW_COUNT.start), flows);
        tally.equal("packets of a part", counted(PACKET_COUNT.start + 2), 400);
    }
}

/// One full cell refuses; FlowCount asks only new flows; counts carry over their bytes.
fn counters(tally: &mut Tally) {
    for cell in TCP_CELLS {
        let mut full = Encoder::new(MIDDLE);
        full.cell(cell)[PACKET_COUNT].fill(255);
        tally.equal("packets full, new", full.packet(&tcp()), Err(Refusal::PacketCountFull));
        full.filter.fill(255);
        tally.equal("packets full, old", full.packet(&tcp()), Err(Refusal::PacketCountFull));
        full.cell(cell)[PACKET_COUNT.end - 1] = 254;
        tally.equal("packets one short", full.packet(&tcp()), Ok(Flow::Old));
        tally.equal("packets full now", u32_at(full.cell(cell), PACKET_COUNT.start), u32::MAX);

        let mut full = Encoder::new(MIDDLE);
        full.cell(cell)[FLOW_COUNT].fill(255);
        tally.equal("flows full, new", full.packet(&tcp()), Err(Refusal::FlowCountFull));
        full.filter.fill(255);
        tally.equal("flows full, old", full.packet(&tcp()), Ok(Flow::Old));
        full.filter.fill(0);
        full.cell(cell)[FLOW_COUNT.end - 1] = 254;
        tally.equal("flows one short", full.packet(&tcp()), Ok(Flow::New));
        tally.equal("flows full now", u16_at(full.cell(cell), FLOW_COUNT.start), u16::MAX);
    }
    let mut carrying = Encoder::new(MIDDLE);
    carrying.cell(59)[FLOW_COUNT].copy_from_slice(&[0, 255]);
    carrying.cell(59)[PACKET_COUNT].copy_from_slice(&[0, 255, 255, 255]);
    tally.equal("carrying", carrying.packet(&tcp()), Ok(Flow::New));
    tally.equal("carried", carrying.cell(59)[FLOW_COUNT.start..].to_vec(), vec![1, 0, 1, 0, 0, 0]);
    let mut almost = Encoder::new(MIDDLE);
    almost.filter.fill(255);
    almost.filter[668] = !0x20;
    tally.equal("one bit of three is 0", almost.packet(&tcp()), Ok(Flow::New));
    tally.holds("the bit is set", almost.filter.iter().all(|&byte| byte == 255));
}

/// A refused call leaves every lent byte as it was.
fn refusals_keep(tally: &mut Tally) {
    let mut encoder = Encoder::new(MIDDLE);
    encoder.cell(143)[PACKET_COUNT].fill(255);
    let (filter, cells) = (encoder.filter.clone(), encoder.cells.clone());
    tally.equal("full", number_of(&encoder.packet(&tcp())), 7);
    tally.equal("bad packet", number_of(&encoder.packet(&tcp()[..23])), 6);
    tally.holds("memory kept", encoder.filter == filter && encoder.cells == cells);

    let mut noise = vec![5; 961];
    let started = encoder::start(MIDDLE.sizes, &mut noise, &mut encoder.cells);
    tally.equal("start, room", number_of(&started), 16);
    tally.holds("start keeps", noise == vec![5; 961] && encoder.cells == cells);
    let started = encoder::start(MIDDLE.sizes, &mut noise[..960], &mut encoder.cells);
    tally.equal("start", number_of(&started), 0);
    tally.holds("start clears", noise[..960] == [0; 960] && encoder.cells == vec![0; 2_880] && noise[960] == 5);

    encoder.cell(143)[CELL_ZERO] = 1;
    let mut image = vec![0xee; MIDDLE.sizes.image_bytes()];
    let refused = seal(MIDDLE, &encoder.filter, &encoder.cells, &mut image);
    tally.equal("seal, zero byte of the last cell", refused, Err(Refusal::CellZero));
    tally.holds("image kept", image.iter().all(|&byte| byte == 0xee));
}

/// The check values were worked out by another program.
fn blocks(tally: &mut Tally) {
    let empty = Encoder::new(Header { sizes: Sizes::SMALLEST, salt: 9, slot: 7 }).sealed();
    let mut first = vec![0; 508];
    first[..5].copy_from_slice(&[1, 1, 1, 2, 1]);
    first[11] = 9;
    first[15] = 7;
    first.extend([0x03, 0x50, 0xa2, 0x1f]);
    tally.equal("empty, block 0", &empty[..512], &first);
    let mut last = first[..508].to_vec();
    last[0] = 2;
    last[7] = 2;
    last.extend([0xca, 0x24, 0xc3, 0xd2]);
    tally.equal("empty, block 2", &empty[1_024..], &last);

    let mut encoder = Encoder::new(MIDDLE);
    tally.equal("packet", number_of(&encoder.packet(&tcp())), 0);
    tally.equal("packet again", number_of(&encoder.packet(&tcp())), 0);
    let image = encoder.sealed();
    tally.equal("whole image", fnv1a(&image), 0x0a7d_317e);
    // Bit 5,346 is in filter block 1, byte 188; cell 143 is the last of block 7; cell 59 is the 11th of block 4.
    tally.equal("bit 5346", image[512 + 16 + 188], 0x20);
    tally.equal("cell 143", &image[7 * 512 + 16 + 460..][..13], &TCP_KEY);
    tally.equal("cell 59", &image[4 * 512 + 16 + 220..][..13], &TCP_KEY);
}

fn read_back(tally: &mut Tally) {
    let both = [Sizes::SMALLEST, MIDDLE.sizes, Sizes::LARGEST];
    for sizes in both {
        let header = Header { sizes, salt: 0xfedc_ba98, slot: 0x0123_4567 };
        let mut encoder = Encoder::new(header);
        for port in 0..300 {
            let packet = Ipv4::with_ports(17, port.into(), 7, (port, 53)).bytes();
            tally.equal("packet", number_of(&encoder.packet(&packet)), 0);
        }
        let image = encoder.sealed();
        tally.equal("read", read(&image, header.slot), Ok(header));
        let payloads: Vec<u8> = image.chunks(BLOCK_BYTES).flat_map(|block| block[PAYLOAD].to_vec()).collect();
        tally.holds("payload", payloads == [encoder.filter, encoder.cells].concat());
    }
}

/// Any bytes but the zero bytes are sealed and read.
fn any_bytes(tally: &mut Tally) {
    let mut encoder = Encoder::new(MIDDLE);
    encoder.filter.fill(255);
    encoder.cells.fill(255);
    (0..144).for_each(|cell| encoder.cell(cell)[CELL_ZERO] = 0);
    tally.equal("all ones", read(&encoder.sealed(), MIDDLE.slot), Ok(MIDDLE));
    let image = encoder.sealed();
    for number in 0..8 {
        for at in 0..BLOCK_BYTES {
            let mut torn = image.clone();
            torn[512 * number + at] ^= 0x10;
            let refused = Err(ReadRefusal { refusal: Refusal::Check, block: number });
            if read(&torn, MIDDLE.slot) != refused {
                tally.holds("any one byte torn is found by its block's check", false);
            }
        }
    }
    tally.holds("every byte was torn", true);
}

/// Every pair of single faults: the answer is the earlier of the two in 01's order.
fn two_faults(tally: &mut Tally) {
    let image = Encoder::new(MIDDLE).sealed();
    let faults = ranked_faults();
    for (first, &(rank, fault)) in faults.iter().enumerate() {
        let mut one = image.clone();
        let wanted = apply(&mut one, fault);
        tally.equal(&format!("{fault:?}"), read_numbers(&one, wanted), rank_answer(rank));
        for &(other_rank, other) in &faults[first + 1..] {
            let mut both = image.clone();
            // Mending faults go first, or they would mend a torn check; cutting goes last.
            let mut order = [fault, other];
            order.sort_by_key(|fault| fault.turn());
            let wanted = order.map(|fault| apply(&mut both, fault));
            let wanted = if wanted.contains(&8) { 8 } else { 7 };
            let answer = rank_answer(rank.min(other_rank));
            tally.equal(&format!("{fault:?} and {other:?}"), read_numbers(&both, wanted), answer);
        }
    }
}

#[derive(Clone, Copy, Debug, PartialEq)]
enum ImageFault {
    Ragged,
    Missing,
    Stale,
    Torn(usize),
    Mended(usize, usize),
}

impl ImageFault {
    fn turn(self) -> usize {
        match self {
            ImageFault::Mended(..) => 0,
            ImageFault::Stale | ImageFault::Torn(_) => 1,
            ImageFault::Missing => 2,
            ImageFault::Ragged => 3,
        }
    }
}

/// Each fault with its place in the order of 01: (step, number and block).
fn ranked_faults() -> Vec<((usize, usize, usize), ImageFault)> {
    use ImageFault::*;
    let mut faults = vec![((0, 1, 0), Ragged), ((1, 2, 0), Torn(0)), ((3, 1, 0), Missing), ((4, 5, 0), Stale)];
    faults.extend([KIND, KF, F, K, Q, ZERO, NUMBER.start, TAIL.start].map(|at| ((2, 3, 0), Mended(0, at))));
    // The last block is cut off by `Missing`, so the later faults stand before it.
    for block in 1..7 {
        let step = 5 + 3 * block;
        faults.push(((step, 2, block), Torn(block)));
        faults.extend(
            [KIND, KF, F, K, Q, ZERO, NUMBER.start, TAIL.end - 1].map(|at| ((step + 1, 3, block), Mended(block, at))),
        );
        faults.extend([SALT.start, SLOT.end - 1].map(|at| ((step + 2, 4, block), Mended(block, at))));
        if block >= 2 {
            faults.push(((step + 1, 3, block), Mended(block, PAYLOAD.start + CELL_ZERO)));
        }
    }
    faults
}

fn rank_answer((_, number, block): (usize, usize, usize)) -> (usize, usize) {
    (number, block)
}

/// Spoils the image and gives the slot to ask for.
fn apply(image: &mut Vec<u8>, fault: ImageFault) -> u32 {
    match fault {
        ImageFault::Ragged => image.truncate(image.len() - 1),
        ImageFault::Missing => image.truncate(image.len() - BLOCK_BYTES),
        ImageFault::Torn(number) => image[BLOCK_BYTES * number + CHECK.start] ^= 1,
        ImageFault::Mended(number, at) => {
            let block = &mut image[BLOCK_BYTES * number..][..BLOCK_BYTES];
            block[at] ^= 0x40;
            mend_check(block);
        }
        ImageFault::Stale => return MIDDLE.slot + 1,
    }
    MIDDLE.slot
}

fn read_numbers(image: &[u8], wanted_slot: u32) -> (usize, usize) {
    read(image, wanted_slot).map_or_else(|refused| (refused.refusal.number().into(), refused.block), |_| (0, 0))
}

fn noise(tally: &mut Tally) {
    let mut noise = Noise::new(0);
    // x: 1013904223 = 3c6ef35f, then 1196435762 = 47502932, then d1ccf6e9.
    tally.equal("first bytes", [noise.byte(), noise.byte(), noise.byte()], [0x3c, 0x47, 0xd1]);
    for byte in [0, 1, 1_000] {
        let mut noise = Noise::new(seed_reaching(0xabcd_ef01, byte));
        let drawn: Vec<u8> = (0..=byte).map(|_| noise.byte()).collect();
        tally.equal("seed reaching a state", drawn[byte], 0xab);
        tally.equal("and the next", noise.byte(), Noise::new(0xabcd_ef01).byte());
    }
}

fn modes(tally: &mut Tally) {
    let header = Header { slot: 3, ..MIDDLE };
    let memory = |mode| Memory::of_run(&Run::new(header, mode, 0, Vec::new()));
    let mut stream = Noise::new(0);
    let all: Vec<u8> = (0..960 + 2_880 + 4_096).map(|_| stream.byte()).collect();
    let noise = memory(1);
    tally.holds("noise before a start", memory(0) == noise);
    tally.holds("noise runs on", [&noise.filter[..], &noise.cells, &noise.image].concat() == all);
    for (mode, byte) in [(2, 0), (3, 255)] {
        let plain = memory(mode);
        tally.holds("plain memory", [plain.filter, plain.cells].concat().iter().all(|&found| found == byte));
        tally.holds("noise starts at the image", plain.image == all[..4_096]);
    }
    let clean = memory(4);
    let kept = |at: usize| at % 20 != 13 || at / 20 == 3;
    let wanted: Vec<u8> = noise.cells.iter().enumerate().map(|(at, &byte)| if kept(at) { byte } else { 0 }).collect();
    tally.holds("clean noise", clean.cells == wanted && clean.filter == noise.filter && clean.image == noise.image);
}

fn seeds(tally: &mut Tally) {
    for cell in [0, 7, 143] {
        for full in [false, true] {
            let one_short = u32::from(!full);
            let cell_of = |counter| {
                let seed = seed_with(MIDDLE.sizes, cell, counter, full, 12_345);
                Memory::of_run(&Run::new(MIDDLE, NOISE, seed, Vec::new())).cells[20 * cell..][..20].to_vec()
            };
            tally.equal("packets", u32_at(&cell_of(Counter::Packets), 16), u32::MAX - one_short);
            tally.equal("flows", u16_at(&cell_of(Counter::Flows), 14), u16::MAX - one_short as u16);
        }
    }
}

/// The protocol's numbers, written out.
fn ops(tally: &mut Tally) {
    let line = |op, payload: &[u8]| answer(&Request::new(op, payload)).line;
    tally.equal("op 1", line(1, b"a"), "e40c292c".into());
    tally.equal("op 2", line(2, &[]), "6".into());
    tally.equal("op 3", line(3, &[0; 21]), "3".into());
    tally.equal("op 4, mode 0", line(4, &[0; 23]), "3 3 . . .".into());
    tally.equal("op 4, mode 1", line(4, &[&[0; 18][..], &[1, 0, 0, 0, 0]].concat()), "- 3 . . .".into());
    tally.equal("op 5", line(5, &[0; 4]), "1 0".into());
    tally.equal("op 11", line(11, &[]), "length".into());
    tally.equal("op 12", line(12, &[]), "length".into());
    tally.equal("op 13", line(13, &[]), "op".into());
}

fn streams(tally: &mut Tally) {
    let requests = vec![Request::new(HASH, "foobar"), Request::new(9, []), Request::read(7, &[1; 70_000])];
    let mut bytes = Vec::new();
    write_stream(&requests, &mut bytes).expect("writing to memory");
    tally.equal("head of a request", &bytes[..6], &[1, 0, 0, 6, b'f', b'o'][..]);
    tally.equal("stream", parse_stream(&bytes), Some(requests));
    tally.equal("cut stream", parse_stream(&bytes[..bytes.len() - 1]), None);
    tally.equal("cut head", parse_stream(&[1, 0, 0]), None);
    tally.equal("empty stream", parse_stream(&[]), Some(vec![]));
}

fn runs(tally: &mut Tally) {
    let run = Run::new(MIDDLE, 1, 0x0102_0304, vec![vec![7; 300], vec![], vec![8]]);
    let payload = run.to_request().payload;
    let head = [3, 2, 3, 2, 0, 0, 0, 9, 0, 0, 0, 7, 3, 192, 11, 64, 16, 0, 1, 1, 2, 3, 4, 1, 44, 7];
    tally.equal("head of a run", &payload[..26], &head[..]);
    tally.equal("run", Run::parse(&payload), Some(run.clone()));
    tally.equal("run cut", Run::parse(&payload[..payload.len() - 1]), None);
    let smallest = Header { sizes: Sizes::SMALLEST, salt: 0, slot: 0 };
    let zero_packet = Run::new(smallest, 0, 0, vec![Ipv4::new(0, 0, 0, []).bytes()]);
    let line = answer(&zero_packet.to_request()).line;
    let words: Vec<&str> = line.split(' ').collect();
    tally.equal("words of a line", words.len(), 6);
    tally.equal("numbers of a line", words[..3].join(" "), "0 0 0".into());
    tally.equal("filter word", words[3].to_string(), format!("{}08{}", "00".repeat(16), "00".repeat(463)));
    tally.equal("image word", words[5].len(), 2 * 1_536);
}

fn edge_answers(tally: &mut Tally) {
    for edge in edges() {
        let words = edge.expected.split(' ').count();
        let line = answer(&edge.request).line;
        let found: Vec<&str> = line.split(' ').take(words).collect();
        tally.equal(&edge.name, found.join(" "), edge.expected);
    }
}

fn missing_kinds(requests: &[Request]) -> Vec<String> {
    let met: BTreeSet<String> = requests.iter().flat_map(|request| answer(request).kinds).collect();
    expected_kinds().into_iter().filter(|kind| !met.contains(kind)).collect()
}

fn edge_kinds(tally: &mut Tally) {
    let requests: Vec<Request> = edges().into_iter().map(|edge| edge.request).collect();
    tally.equal("kinds that the edges miss", missing_kinds(&requests), vec![]);
}

/// With a made-up difference in the place of a trial.
fn shrinking(tally: &mut Tally) {
    let odd = Request::new(HASH, (0..200).collect::<Vec<u8>>());
    let shortest = shrink(&odd, |request| request.payload.contains(&13) && request.payload.contains(&77));
    tally.equal("two bytes matter", shortest, Request::new(HASH, [13, 77]));

    let packets = (0..20).map(|number| vec![number; 30]).collect();
    let run = Run::new(MIDDLE, 0, 5, packets);
    let has =
        |request: &Request, byte| Run::parse(&request.payload).is_some_and(|run| run.packets.concat().contains(&byte));
    let shortest = shrink(&run.to_request(), |request| has(request, 4) && has(request, 17));
    tally.equal("two packets matter", shortest, Run { packets: vec![vec![4], vec![17]], ..run }.to_request());

    let torn = Request::new(ENCODER, [5; 22]);
    tally.equal("a torn run", shrink(&torn, |request| request.payload.len() > 2).payload.len(), 3);

    let blocks: Vec<u8> = (0..10).flat_map(|number| [number; BLOCK_BYTES]).collect();
    let shortest = shrink(&Request::read(7, &blocks), |request| request.op == READ && request.payload.contains(&6));
    tally.equal("a block matters", shortest, Request::read(7, &[6; BLOCK_BYTES]));
}

fn partings(tally: &mut Tally) {
    tally.holds("a number", parting("0 0 16 aa", "0 0 3 aa").starts_with("word 2, character 0"));
    tally.holds("a buffer", parting("0 00ff00", "0 00ff10").starts_with("word 1, character 4"));
    tally.holds("a line that ends", parting("0 1 2", "0 1").starts_with("word 2, character 0"));
}

fn generator(tally: &mut Tally) {
    tally.holds("a seed repeats", generate::requests(5, 300) == generate::requests(5, 300));
    tally.holds("another seed differs", generate::requests(5, 300) != generate::requests(6, 300));
    for seed in 1..=5 {
        let requests = generate::requests(seed, 1_000);
        let mut stream = Vec::new();
        write_stream(&requests, &mut stream).expect("writing to memory");
        tally.holds("below 30 MB", stream.len() < 30_000_000);
        tally.equal("kinds that a stream misses", missing_kinds(&requests), vec![]);
        tally.equal("stream read back", parse_stream(&stream), Some(requests));
    }
}

/// Whatever was measured lies within a chart's axes.
fn charts(tally: &mut Tally) {
    for values in [vec![0.3], vec![7.0, 7.0], vec![185.0, 98_305.0], vec![1.0, 3_000_000.0]] {
        for scale in [Scale::Steps(20.0), Scale::Powers] {
            let ruled = Ruled::over(scale, values.iter().copied());
            let within = values.iter().all(|&value| (0.0..=1.0).contains(&ruled.place(value)));
            tally.holds_in("a chart's points lie within its axes", &format!("{values:?}"), within);
        }
    }
}
