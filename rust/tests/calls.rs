//! Calls every function of the wrapper once at least: packets to an image, the image to flows, and the refusals on the way.

use elderflute::*;

const SIZES: Sizes = Sizes { kf: 4, f: 2, k: 3, q: 2 };
const SALT: u32 = 9;
const SLOT: u32 = 7;

/// A UDP packet of a flow with this source port.
fn udp(port: u16) -> Vec<u8> {
    let mut packet = vec![0; 28];
    packet[0] = 0x45;
    packet[9] = 17;
    packet[12..20].copy_from_slice(&[192, 168, 10, 27, 192, 168, 10, 10]);
    packet[20..22].copy_from_slice(&port.to_be_bytes());
    packet[22..24].copy_from_slice(&50_027u16.to_be_bytes());
    packet
}

/// The image of so many flows, the i-th with i + 1 packets.
fn image_of(flows: u16) -> Vec<u8> {
    let (mut filter, mut cells) = (vec![1; SIZES.filter_bytes()], vec![1; SIZES.cell_bytes()]);
    let mut image = vec![1; SIZES.image_bytes()];
    start(SIZES, &mut filter, &mut cells).unwrap();
    for flow in 0..flows {
        (0..=flow).for_each(|_| packet(SIZES, SALT, &mut filter, &mut cells, &udp(flow * 257)).unwrap());
    }
    seal(SIZES, SALT, SLOT, &filter, &cells, &mut image).unwrap();
    image
}

struct Owned {
    filter: Vec<u8>,
    xors: Vec<u8>,
    flows: Vec<u16>,
    packets: Vec<u32>,
    unknowns: Vec<u16>,
    positions: Vec<u16>,
    marks: Vec<u64>,
    keys: Vec<u8>,
    counts: Vec<u32>,
    flags: Vec<u8>,
}

impl Owned {
    fn new(sizes: Sizes) -> Self {
        let n = sizes.cells();
        Owned {
            filter: vec![0; sizes.filter_bytes()],
            xors: vec![0; 13 * n],
            flows: vec![0; n],
            packets: vec![0; n],
            unknowns: vec![0; n],
            positions: vec![0; n],
            marks: vec![0; (n + 63) / 64],
            keys: vec![0; 26 * n],
            counts: vec![0; 2 * n],
            flags: vec![0; 2 * n],
        }
    }

    fn lend(&mut self) -> Lent<'_> {
        Lent {
            filter: &mut self.filter,
            xors: &mut self.xors,
            flows: &mut self.flows,
            packets: &mut self.packets,
            unknowns: &mut self.unknowns,
            positions: &mut self.positions,
            marks: &mut self.marks,
            keys: &mut self.keys,
            counts: &mut self.counts,
            flags: &mut self.flags,
        }
    }
}

#[test]
fn a_key_is_thirteen_bytes_or_refusal_6() {
    assert_eq!(key(&udp(258)), Ok([192, 168, 10, 27, 192, 168, 10, 10, 1, 2, 195, 107, 17]));
    assert_eq!(key(&udp(0)[..23]), Err(Refusal::NoKey));
    assert_eq!(key(&[]), Err(Refusal::NoKey));
}

#[test]
fn working_memory_and_images_are_refused_by_number() {
    let (mut filter, mut cells) = (vec![5; SIZES.filter_bytes()], vec![0; SIZES.cell_bytes()]);
    let mut image = vec![5; SIZES.image_bytes()];
    assert_eq!(start(Sizes { q: 17, ..SIZES }, &mut filter, &mut cells), Err(Refusal::Form));
    assert_eq!(start(SIZES, &mut filter[1..], &mut cells), Err(Refusal::Room));
    assert_eq!(packet(SIZES, SALT, &mut filter, &mut cells, &[]), Err(Refusal::NoKey));
    cells[13] = 1;
    assert_eq!(seal(SIZES, SALT, SLOT, &filter, &cells, &mut image), Err(Refusal::Form));
    cells[13] = 0;
    cells.chunks_mut(20).for_each(|cell| cell[16..20].fill(255));
    assert_eq!(packet(SIZES, SALT, &mut filter, &mut cells, &udp(1)), Err(Refusal::CounterFull));
    assert!(filter.iter().chain(&image).all(|&byte| byte == 5));
}

#[test]
fn an_image_is_read_or_refused_with_its_block() {
    let image = image_of(3);
    assert_eq!(read(&image, SLOT), Ok(Session { sizes: SIZES, salt: SALT, slot: SLOT, listed: 0 }));
    assert_eq!(read(&image, SLOT + 1), Err(BadImage { refusal: Refusal::Stale, block: 0 }));
    assert_eq!(read(&image[512..], SLOT), Err(BadImage { refusal: Refusal::Form, block: 0 }));
    let mut spoiled = image.clone();
    spoiled[512 * 3 + 100] ^= 1;
    assert_eq!(read(&spoiled, SLOT), Err(BadImage { refusal: Refusal::Check, block: 3 }));
    let mut short = Owned::new(SIZES);
    short.flags.pop();
    assert_eq!(open(&image, SLOT, &mut short.lend()), Err(BadImage { refusal: Refusal::Room, block: 0 }));
}

#[test]
fn what_is_left_over_is_stray() {
    let image = image_of(30);
    let mut room = Owned::new(SIZES);
    let mut session = open(&image, SLOT, &mut room.lend()).unwrap();
    session.settle(&mut room.lend()).unwrap();
    let state = |room: &mut Owned| session.report(&room.lend()).unwrap().state;
    assert_eq!(state(&mut room), State::Whole);
    room.packets[0] = 1;
    assert_eq!(state(&mut room), State::Stray);
    room.packets[0] = 0;
    *room.xors.last_mut().unwrap() = 1;
    assert_eq!(state(&mut room), State::Stray);
}

#[test]
fn flows_come_back_with_their_packets() {
    let image = image_of(30);
    let mut room = Owned::new(SIZES);
    let mut session = open(&image, SLOT, &mut room.lend()).unwrap();
    session.settle(&mut room.lend()).unwrap();
    let report = session.report(&room.lend()).unwrap();
    assert_eq!(report, Report { listed: 30, counted: 30, open: 0, state: State::Whole });
    for flow in 0..30u16 {
        let key = key(&udp(flow * 257)).unwrap();
        let at = room.keys.chunks(KEY_BYTES).take(session.listed).position(|listed| listed == key).unwrap();
        assert_eq!((room.counts[at], room.flags[at]), (u32::from(flow) + 1, KNOWN));
    }
    let listed = key(&udp(0)).unwrap();
    assert_eq!(session.hand_over(&listed, &mut room.lend()), Err(Refusal::Listed));
    assert_eq!(session.hand_over(&key(&udp(9_999)).unwrap(), &mut room.lend()), Err(Refusal::NotInFilter));
}

#[test]
fn a_key_handed_over_is_listed_and_its_count_found() {
    let image = image_of(30);
    let mut room = Owned::new(SIZES);
    let mut session = open(&image, SLOT, &mut room.lend()).unwrap();
    session.hand_over(&key(&udp(257)).unwrap(), &mut room.lend()).unwrap();
    assert_eq!((session.listed, room.flags[0]), (1, HANDED));
    session.settle(&mut room.lend()).unwrap();
    assert_eq!((session.listed, room.counts[0], room.flags[0]), (30, 2, HANDED | KNOWN));
}

/// The rooms of two sessions joined: of each kind A's part, then B's.
fn joined(a: &Owned, b: &Owned) -> Owned {
    Owned {
        filter: [&a.filter[..], &b.filter].concat(),
        xors: [&a.xors[..], &b.xors].concat(),
        flows: [&a.flows[..], &b.flows].concat(),
        packets: [&a.packets[..], &b.packets].concat(),
        unknowns: [&a.unknowns[..], &b.unknowns].concat(),
        positions: [&a.positions[..], &b.positions].concat(),
        marks: [&a.marks[..], &b.marks].concat(),
        keys: [&a.keys[..], &b.keys].concat(),
        counts: [&a.counts[..], &b.counts].concat(),
        flags: [&a.flags[..], &b.flags].concat(),
    }
}

#[test]
fn an_exchange_lists_what_either_finds() {
    let (mut room_a, mut room_b) = (Owned::new(SIZES), Owned::new(SIZES));
    let mut a = open(&image_of(30), SLOT, &mut room_a.lend()).unwrap();
    let mut b = open(&image_of(20), SLOT, &mut room_b.lend()).unwrap();
    let mut room = joined(&room_a, &room_b);
    assert_eq!(
        exchange(&mut a, &mut Session { slot: SLOT + 1, ..b }, &mut room.lend()).unwrap_err().refusal,
        Refusal::SlotsDiffer
    );
    assert_eq!(
        exchange(&mut a, &mut b, &mut room_a.lend()),
        Err(Halted { refusal: Refusal::Room, at: None, twelves: 0 })
    );
    assert_eq!(exchange(&mut a, &mut b, &mut room.lend()), Ok(0));
    assert_eq!((a.listed, b.listed), (30, 20));
    let second = 2 * SIZES.cells();
    for flow in 0..20u16 {
        let key = key(&udp(flow * 257)).unwrap();
        let at = room.keys.chunks(KEY_BYTES).skip(second).take(b.listed).position(|listed| listed == key).unwrap();
        assert_eq!((room.counts[second + at], room.flags[second + at]), (u32::from(flow) + 1, KNOWN));
    }
}

#[test]
fn damage_names_its_cell_and_a_wrong_mark_is_no_session() {
    let image = image_of(3);
    let mut room = Owned::new(SIZES);
    let mut session = open(&image, SLOT, &mut room.lend()).unwrap();
    room.marks[0] ^= 1 << 63;
    assert_eq!(session.settle(&mut room.lend()), Err(Stopped { refusal: Refusal::NotSession, cell: None }));
    assert_eq!(session.report(&room.lend()), Err(Refusal::NotSession));
    room.marks[0] ^= 1 << 63;
    let first = room.flows.iter().position(|&flows| flows == 1).unwrap();
    room.packets[first] = 0;
    assert_eq!(session.settle(&mut room.lend()), Err(Stopped { refusal: Refusal::Damage, cell: Some(first) }));
}

#[test]
fn printing_writes_the_program_s_lines() {
    let (image, mut lines) = (image_of(1), vec![0; LINES]);
    let input = [&SLOT.to_be_bytes()[..], &image].concat();
    let written = print(&input, &mut lines).unwrap();
    assert_eq!(&lines[..written], b"7 9 1 1 0 whole\n192.168.10.27 0 192.168.10.10 50027 17 1\n");
    assert_eq!(print(&input, &mut lines[1..]), Err(Refusal::Room));
}

#[test]
fn numbers_are_document_01_s() {
    assert_eq!([Refusal::Length, Refusal::NotSession, Refusal::Room].map(Refusal::number), [1, 8, 16]);
    assert_eq!([0, 1, 16].map(Refusal::of), [None, Some(Refusal::Length), Some(Refusal::Room)]);
    assert_eq!([12, 14].map(Refusal::of), [Some(Refusal::TooMany), Some(Refusal::Damage)]);
    assert_eq!([13, 17, u32::MAX].map(Refusal::of), [Some(Refusal::Unknown); 3]);
}
