//! FNV-1a, 32 bits, and the place that a hash chooses.

const BASIS: u32 = 2_166_136_261;
const PRIME: u32 = 16_777_619;

#[derive(Clone, Copy, PartialEq, Eq, Debug)]
pub struct Fnv(u32);

impl Fnv {
    pub fn new() -> Self {
        Fnv(BASIS)
    }

    pub fn byte(self, byte: u8) -> Self {
        Fnv((self.0 ^ u32::from(byte)).wrapping_mul(PRIME))
    }

    pub fn bytes(self, bytes: &[u8]) -> Self {
        bytes.iter().fold(self, |state, &byte| state.byte(byte))
    }

    pub fn value(self) -> u32 {
        self.0
    }
}

pub fn fnv1a(bytes: &[u8]) -> u32 {
    Fnv::new().bytes(bytes).value()
}

/// Of four byte strings of one length: a chain waits for its multiplication at every byte, so four go side by side.
pub fn fnv1a_of_four<const N: usize>([a, b, c, d]: [&[u8; N]; 4]) -> [u32; 4] {
    let mut states = [Fnv::new(); 4];
    for (((a, b), c), d) in a.iter().zip(b).zip(c).zip(d) {
        states = [states[0].byte(*a), states[1].byte(*b), states[2].byte(*c), states[3].byte(*d)];
    }
    states.map(Fnv::value)
}

/// A place among `n`: (hash × n) / 2^32, rounded down.
pub fn place(hash: u32, n: usize) -> usize {
    ((u64::from(hash) * n as u64) >> 32) as usize
}
