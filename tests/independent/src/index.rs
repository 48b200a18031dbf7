//! Which keys are listed, by hash.

use crate::key::KeyBytes;
use crate::layout::KEY_BYTES;
use crate::table::Record;

const EMPTY: u16 = u16::MAX;

/// List positions in open addressing, at most half full; the keys themselves stand in the list.
pub struct Index {
    slots: Vec<u16>,
    bits: u32,
}

impl Index {
    pub fn with_room(flows: usize) -> Self {
        let slots = (2 * flows).next_power_of_two().max(2);
        Index { slots: vec![EMPTY; slots], bits: slots.trailing_zeros() }
    }

    pub fn contains(&self, list: &[Record], key: &KeyBytes) -> bool {
        self.slots[self.slot(list, key)] != EMPTY
    }

    /// False, and nothing done, where an equal key stood before.
    pub fn insert(&mut self, list: &[Record], position: usize) -> bool {
        let slot = self.slot(list, &list[position].key);
        let fresh = self.slots[slot] == EMPTY;
        if fresh {
            self.slots[slot] = position as u16;
        }
        fresh
    }

    /// The key's slot, or the empty one where it would stand.
    fn slot(&self, list: &[Record], key: &KeyBytes) -> usize {
        let mut slot = (mix(key) >> (64 - self.bits)) as usize;
        while self.slots[slot] != EMPTY && list[usize::from(self.slots[slot])].key != *key {
            slot = (slot + 1) % self.slots.len();
        }
        slot
    }
}

/// The high bits depend on every bit of the key; the two words overlap, which does no harm.
fn mix(key: &KeyBytes) -> u64 {
    let word = |at: usize| u64::from_le_bytes(key[at..at + 8].try_into().expect("8 bytes"));
    let mixed = word(0).wrapping_mul(0x9e37_79b9_7f4a_7c15);
    (word(KEY_BYTES - 8) ^ mixed ^ (mixed >> 32)).wrapping_mul(0xd6e8_feb8_6659_fd93)
}
