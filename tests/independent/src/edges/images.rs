//! Reading: each length, each field in block 0 and in later blocks, and two faults at once.

use super::Edge;
use crate::encoder;
use crate::image::{mend_check, seal, Header};
use crate::ipv4::Ipv4;
use crate::layout::*;
use crate::request::{Request, MAX_IMAGE, READ};
use crate::sizes::Sizes;

/// Blocks 0 and 1 hold the filter, 2 to 5 the cells.
const HEADER: Header = Header { sizes: Sizes { kf: 3, f: 2, k: 2, q: 2 }, salt: 9, slot: 7 };
const GOOD: &str = "0 3 2 2 2 9";
const LAST: usize = 5;

/// An image under change. Changes mend the check unless they say otherwise.
struct Image(Vec<u8>);

impl Image {
    fn new(header: Header) -> Self {
        let sizes = header.sizes;
        let mut filter = vec![0; sizes.filter_bytes()];
        let mut cells = vec![0; sizes.cells_bytes()];
        let mut image = vec![0; sizes.image_bytes()];
        for port in 0..20 {
            let packet = Ipv4::with_ports(6, 0x0a00_0001, 0x0a00_0002, (port, 80)).bytes();
            encoder::packet(sizes, header.salt, &mut filter, &mut cells, &packet).expect("a good packet");
        }
        seal(header, &filter, &cells, &mut image).expect("a good call");
        Image(image)
    }

    fn good() -> Self {
        Image::new(HEADER)
    }

    fn set(mut self, number: usize, at: usize, value: u8) -> Self {
        let block = &mut self.0[BLOCK_BYTES * number..][..BLOCK_BYTES];
        block[at] = value;
        mend_check(block);
        self
    }

    fn set_in_all(self, at: usize, value: u8) -> Self {
        (0..self.0.len() / BLOCK_BYTES).fold(self, |image, number| image.set(number, at, value))
    }

    /// Flips the byte and leaves the check as it was.
    fn tear(mut self, number: usize, at: usize) -> Self {
        self.0[BLOCK_BYTES * number + at] ^= 1;
        self
    }

    /// Cuts, or grows by zeros.
    fn resize(mut self, length: usize) -> Self {
        self.0.resize(length, 0);
        self
    }

    fn swap(mut self, a: usize, b: usize) -> Self {
        for at in 0..BLOCK_BYTES {
            self.0.swap(BLOCK_BYTES * a + at, BLOCK_BYTES * b + at);
        }
        self
    }
}

fn edge(name: impl Into<String>, image: Image, expected: impl Into<String>) -> Edge {
    Edge::new(name, Request::read(HEADER.slot, &image.0), expected)
}

fn stale(name: &str, image: Image, expected: &str) -> Edge {
    Edge::new(name, Request::read(HEADER.slot + 1, &image.0), expected)
}

pub fn edges() -> Vec<Edge> {
    [lengths(), slots(), first_block(), later_blocks(), sizes_alike(), free_bytes(), orders(), protocol()]
        .into_iter()
        .flatten()
        .collect()
}

fn lengths() -> Vec<Edge> {
    let mut edges = vec![edge("good", Image::good(), GOOD)];
    for length in [0, 1, 511, 512, 513, 1_024, 2_560, 3_071, 3_073, 3_584] {
        edges.push(edge(format!("{length} of 3072 bytes"), Image::good().resize(length), "1 0"));
    }
    let largest = || Image::new(Header { sizes: Sizes::LARGEST, ..HEADER });
    let smallest = Image::new(Header { sizes: Sizes::SMALLEST, ..HEADER });
    edges.extend([
        edge("smallest", smallest, "0 1 1 2 1 9"),
        edge("40,960 bytes", largest(), "0 8 16 4 16 9"),
        edge("41,472 bytes", largest().resize(41_472), "1 0"),
        edge("41,984 bytes", largest().resize(MAX_IMAGE), "1 0"),
        edge("40,448 bytes", largest().resize(40_448), "1 0"),
        edge("number 79 torn", largest().tear(79, 100), "2 79"),
        edge("number 79 wrong", largest().set(79, NUMBER.start + 1, 78), "3 79"),
    ]);
    edges
}

fn slots() -> Vec<Edge> {
    let high = Header { slot: 0x0100_0007, ..HEADER };
    let most = Header { slot: u32::MAX, salt: u32::MAX, ..HEADER };
    vec![
        stale("stale", Image::good(), "5 0"),
        edge("stale in the high byte", Image::new(high), "5 0"),
        Edge::new("most", Request::read(u32::MAX, &Image::new(most).0), "0 3 2 2 2 4294967295"),
    ]
}

fn first_block() -> Vec<Edge> {
    let mut edges = Vec::new();
    for (at, value) in [
        (KIND, 0),
        (KIND, 2),
        (KIND, 3),
        (KIND, 255),
        (KF, 0),
        (KF, 9),
        (F, 0),
        (F, 17),
        (K, 0),
        (K, 1),
        (K, 5),
        (Q, 0),
        (Q, 17),
        (ZERO, 1),
        (ZERO, 128),
        (NUMBER.start, 1),
        (NUMBER.start + 1, 1),
        (TAIL.start, 1),
        (TAIL.end - 1, 1),
    ] {
        edges.push(edge(format!("block 0, byte {at} is {value}"), Image::good().set(0, at, value), "3 0"));
    }
    for at in [KIND, PAYLOAD.start, TAIL.end - 1].into_iter().chain(CHECK) {
        edges.push(edge(format!("block 0, byte {at} torn"), Image::good().tear(0, at), "2 0"));
    }
    for (at, value) in [(F, 1), (F, 3), (K, 3), (K, 4), (Q, 1), (Q, 3)] {
        edges.push(edge(format!("block 0, size {at} is {value}"), Image::good().set(0, at, value), "1 0"));
    }
    edges.push(edge("block 0, kf is 8", Image::good().set(0, KF, 8), "3 1"));
    edges.push(edge("block 0, other salt", Image::good().set(0, SALT.start, 1), "4 1"));
    edges
}

fn later_blocks() -> Vec<Edge> {
    let mut edges = Vec::new();
    for number in [1, 2, LAST] {
        let wrong_kind = if number == 1 { 2 } else { 1 };
        for (at, value) in [
            (KIND, wrong_kind),
            (KIND, 0),
            (KIND, 3),
            (KF, 2),
            (KF, 4),
            (KF, 0),
            (KF, 9),
            (F, 1),
            (F, 3),
            (F, 17),
            (K, 3),
            (K, 1),
            (K, 5),
            (Q, 1),
            (Q, 3),
            (Q, 17),
            (ZERO, 1),
            (NUMBER.start, 1),
            (NUMBER.start + 1, 0),
            (NUMBER.start + 1, 6),
            (TAIL.start, 1),
            (TAIL.end - 1, 128),
        ] {
            let image = Image::good().set(number, at, value);
            edges.push(edge(format!("block {number}, byte {at} is {value}"), image, format!("3 {number}")));
        }
        for at in SALT.chain(SLOT) {
            let image = Image::good().set(number, at, 77);
            edges.push(edge(format!("block {number}, byte {at} mixed"), image, format!("4 {number}")));
        }
        for at in [KIND, PAYLOAD.end - 1].into_iter().chain(CHECK) {
            let image = Image::good().tear(number, at);
            edges.push(edge(format!("block {number}, byte {at} torn"), image, format!("2 {number}")));
        }
    }
    for (number, cell) in [(2, 0), (2, 23), (3, 11), (LAST, 0), (LAST, 23)] {
        let image = Image::good().set(number, zero_byte(cell), 1);
        edges.push(edge(format!("block {number}, cell {cell}"), image, format!("3 {number}")));
    }
    edges.push(edge("filter blocks swapped", Image::good().swap(0, 1), "3 0"));
    edges.push(edge("later blocks swapped", Image::good().swap(3, 4), "3 3"));
    edges
}

fn zero_byte(cell: usize) -> usize {
    PAYLOAD.start + CELL_BYTES * cell + CELL_ZERO
}

/// Six blocks can also be k = 4, q = 1, or F = 4, k = 2, q = 1, or F = 3 and three cell blocks.
fn sizes_alike() -> Vec<Edge> {
    let narrow = || Image::good().set_in_all(K, 4).set_in_all(Q, 1);
    let more_filter = || Image::good().set_in_all(F, 4).set_in_all(Q, 1);
    vec![
        edge("k 4, q 1", narrow(), "0 3 2 4 1 9"),
        edge("k 4, q 1 in block 0 only", Image::good().set(0, K, 4).set(0, Q, 1), "3 1"),
        edge("k 4, q 1 but in block 5", narrow().set(LAST, K, 2).set(LAST, Q, 2), "3 5"),
        edge("F 4, q 1, kinds left", more_filter(), "3 2"),
        edge("F 4, q 1, kinds set", more_filter().set(2, KIND, 1).set(3, KIND, 1), "0 3 4 2 1 9"),
        edge("F 3, k 3, q 1", Image::good().set_in_all(F, 3).set_in_all(K, 3).set_in_all(Q, 1), "3 2"),
        edge("kf 8", Image::good().set_in_all(KF, 8), "0 8 2 2 2 9"),
    ]
}

/// Any other bytes of filter and cells are accepted; a filter block has no zero bytes in its payload.
fn free_bytes() -> Vec<Edge> {
    let cell = zero_byte(4);
    [(0, 16), (0, 29), (0, 495), (1, 29), (1, 489), (2, 16), (2, cell - 1), (2, cell + 1), (LAST, 488), (LAST, 495)]
        .map(|(number, at)| edge(format!("block {number}, byte {at} free"), Image::good().set(number, at, 255), GOOD))
        .into()
}

/// Two faults at once.
fn orders() -> Vec<Edge> {
    vec![
        edge("ragged and torn", Image::good().tear(0, 0).resize(3_071), "1 0"),
        edge("over and torn", Image::good().tear(0, 0).resize(41_472), "1 0"),
        edge("torn and formless", Image::good().set(0, ZERO, 1).tear(0, 508), "2 0"),
        edge("torn and too short", Image::good().tear(0, 508).resize(2_560), "2 0"),
        stale("torn and stale", Image::good().tear(0, 508), "2 0"),
        edge("formless and too short", Image::good().set(0, ZERO, 1).resize(2_560), "3 0"),
        edge("bad size, so no length", Image::good().set(0, Q, 17).resize(512), "3 0"),
        stale("formless and stale", Image::good().set(0, TAIL.start, 1), "3 0"),
        stale("too short and stale", Image::good().resize(2_560), "1 0"),
        stale("too long and stale", Image::good().resize(3_584), "1 0"),
        stale("stale, later block torn", Image::good().tear(1, 20), "5 0"),
        stale("stale, later block formless", Image::good().set(LAST, ZERO, 1), "5 0"),
        edge("too short, later block torn", Image::good().tear(1, 20).resize(2_560), "1 0"),
        edge("block 0 formless, 1 torn", Image::good().set(0, ZERO, 1).tear(1, 20), "3 0"),
        edge("torn and mixed", Image::good().set(2, SALT.start, 1).tear(2, 508), "2 2"),
        edge("torn and formless, later", Image::good().set(2, ZERO, 1).tear(2, 508), "2 2"),
        edge("formless and mixed", Image::good().set(2, ZERO, 1).set(2, SALT.start, 1), "3 2"),
        edge("a cell's zero byte and mixed", Image::good().set(2, zero_byte(0), 1).set(2, SLOT.start, 1), "3 2"),
        edge("other sizes and mixed", Image::good().set(2, KF, 4).set(2, SALT.start, 1), "3 2"),
        edge("mixed, next torn", Image::good().set(1, SLOT.start, 1).tear(2, 20), "4 1"),
        edge("mixed, next formless", Image::good().set(3, SALT.start, 1).set(4, ZERO, 1), "4 3"),
        edge("formless, next torn", Image::good().set(4, zero_byte(9), 1).tear(5, 20), "3 4"),
        edge("torn, next torn", Image::good().tear(3, 20).tear(4, 20), "2 3"),
        edge("mixed twice", Image::good().set(4, SALT.start, 1).set(2, SLOT.start, 1), "4 2"),
    ]
}

fn protocol() -> Vec<Edge> {
    vec![
        Edge::new("no slot", Request::new(READ, []), "length"),
        Edge::new("3 bytes of slot", Request::new(READ, [0, 0, 0]), "length"),
        Edge::new("a slot alone", Request::new(READ, [0, 0, 0, 7]), "1 0"),
        Edge::new("over the most", Request::read(7, &vec![0; MAX_IMAGE + 1]), "length"),
    ]
}
