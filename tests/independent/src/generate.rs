//! Seeded streams of requests.

pub mod calls;
mod images;
mod packets;
mod runs;
mod sessions;

use crate::layout::KEY_BYTES;
use crate::random::Random;
use crate::request::{Request, HASH, KEY, PRINT};
use crate::sizes::Sizes;
use packets::Traffic;

pub fn requests(seed: u64, count: usize) -> Vec<Request> {
    let mut generator = Generator::new(seed);
    (0..count).map(|number| generator.request(number)).collect()
}

/// Inputs of the printing program: mostly a slot and an image, now and then one that is cut, empty or too long. Of eight,
/// one settles with something left over; the others count their turns without these.
pub fn printing_inputs(seed: u64, count: usize) -> Vec<Vec<u8>> {
    let random = &mut Random::new(seed);
    // From a generator of their own: how many are drawn until one will do changes no other input.
    let strays = &mut Random::new(!seed);
    let input = |number: usize| match number % 8 {
        7 => slot_and_image(sessions::opens::stray(strays, number / 8)),
        _ => printing_input(random, number - number / 8),
    };
    (0..count).map(input).collect()
}

fn slot_and_image((slot, image): (u32, Vec<u8>)) -> Vec<u8> {
    [&slot.to_be_bytes()[..], &image].concat()
}

fn printing_input(random: &mut Random, turn: usize) -> Vec<u8> {
    let mut input = slot_and_image(sessions::opens::printable(random, turn));
    match turn % 16 {
        3 => input.truncate(random.below(6)),
        7 => input.truncate(random.below(input.len() + 1)),
        11 => input.extend(vec![0; random.pick(&[1, 4, 511, 512, 40_960])]),
        _ => {}
    }
    input
}

/// Of requests 6 to 10.
pub fn session_requests(seed: u64, count: usize) -> Vec<Request> {
    let random = &mut Random::new(seed);
    (0..count).map(|number| sessions::request(random, number)).collect()
}

/// Each op counts its turns and goes through its faults by them, so that a stream of moderate length misses none.
struct Generator {
    random: Random,
    traffic: Traffic,
    keys: usize,
    places: usize,
    runs: usize,
    images: usize,
}

impl Generator {
    fn new(seed: u64) -> Self {
        let mut random = Random::new(seed);
        let traffic = Traffic::new(&mut random);
        Generator { random, traffic, keys: 0, places: 0, runs: 0, images: 0 }
    }

    fn request(&mut self, number: usize) -> Request {
        let random = &mut self.random;
        if number % 50 == 49 {
            return other_request(random);
        }
        match random.below(100) {
            0..=5 => hash_request(random),
            6..=30 => {
                self.keys += 1;
                Request::new(KEY, self.traffic.turn_packet(random, self.keys))
            }
            31..=44 => {
                self.places += 1;
                places_request(random, self.places)
            }
            45..=71 => {
                self.runs += 1;
                runs::request(random, self.runs)
            }
            _ => {
                self.images += 1;
                images::request(random, self.images)
            }
        }
    }
}

fn hash_request(random: &mut Random) -> Request {
    let most = random.pick(&[4, 40, 600, 5_000]);
    let length = random.between(0, most);
    Request::new(HASH, random.bytes(length))
}

fn places_request(random: &mut Random, turn: usize) -> Request {
    let mut sizes = any_sizes(random);
    if turn.is_multiple_of(2) {
        sizes = with_bad_size(sizes, turn / 2 % 4, random);
    }
    let key = match random.below(10) {
        0 => [0; KEY_BYTES],
        1 => [255; KEY_BYTES],
        _ => std::array::from_fn(|_| random.byte()),
    };
    let mut request = Request::places(sizes, random.u32(), &key);
    match turn % 12 {
        1 => request.payload.truncate(random.below(21)),
        7 => request.payload.push(random.byte()),
        _ => {}
    }
    request
}

fn other_request(random: &mut Random) -> Request {
    let op = if random.once_in(3) { 0 } else { PRINT + 1 + random.below(243) as u8 };
    let length = random.between(0, 30);
    Request::new(op, random.bytes(length))
}

/// Sizes anywhere in their ranges.
fn any_sizes(random: &mut Random) -> Sizes {
    Sizes {
        kf: random.between(1, 8) as u8,
        f: random.between(1, 16) as u8,
        k: random.between(2, 4) as u8,
        q: random.between(1, 16) as u8,
    }
}

/// Mostly small q and F, which keep the lines short; seldom the largest.
fn run_sizes(random: &mut Random) -> Sizes {
    let any = any_sizes(random);
    match random.below(40) {
        0 => Sizes { kf: any.kf, ..Sizes::LARGEST },
        1 | 2 => any,
        _ => Sizes { f: random.between(1, 2) as u8, q: random.between(1, 2) as u8, ..any },
    }
}

/// One of kf, F, k, q, by its place, put outside its range.
fn with_bad_size(sizes: Sizes, field: usize, random: &mut Random) -> Sizes {
    let mut bytes = sizes.to_bytes();
    bytes[field] = bad_size(field, random);
    Sizes::from_bytes(&bytes)
}

fn bad_size(field: usize, random: &mut Random) -> u8 {
    let (below, above) = [(0, 9), (0, 17), (1, 5), (0, 17)][field];
    let far = random.between(above, 255) as u8;
    random.pick(&[0, below, above as u8, 255, far])
}
