//! Random calls on whole sessions, opened from sealed images, clean and damaged, with both engines.

use crate::counters::key_of;
use crate::flowsets::{damage, encode, flows_at, random_flow, random_flows, random_header, Flowset};
use crate::image::Header;
use crate::key::KeyBytes;
use crate::marked::Marked;
use crate::places::Hashed;
use crate::random::Random;
use crate::refusal::Refusal;
use crate::rescanning::Rescanning;
use crate::selftest::Tally;
use crate::session::Session;

use super::pair::{agree, meet_hand_over, meet_settle, meet_state};

const SESSIONS: u64 = 2_000;

pub fn engines_agree(tally: &mut Tally) {
    for seed in 0..SESSIONS {
        let random = &mut Random::new(seed);
        let header = random_header(random, if seed % 50 == 0 { 4 } else { 1 });
        let percent = random.between(1, 130);
        let flows = random_flows(random, flows_at(header, percent));
        let mut flowset = encode(random, header, &flows);
        if random.once_in(2) {
            damage(random, &mut flowset.encoder);
        }
        let mut both = Both::open(&flowset, format!("session {seed}"));
        for _ in 0..random.between(1, 6) {
            both.random_call(tally, random, &flowset.keys());
        }
        both.settle(tally);
    }
}

#[derive(Clone)]
pub struct Both {
    name: String,
    pub marked: Session<Marked>,
    pub rescanning: Session<Rescanning>,
}

impl Both {
    pub fn open(flowset: &Flowset, name: String) -> Self {
        let (image, slot) = (flowset.sealed(), flowset.header().slot);
        let marked = Session::open(&image, slot).expect("a sealed image");
        Both { name, marked, rescanning: Session::open(&image, slot).expect("a sealed image") }
    }

    fn random_call(&mut self, tally: &mut Tally, random: &mut Random, keys: &[KeyBytes]) {
        match random.below(3) {
            0 => self.settle(tally),
            1 => (0..random.below(6)).for_each(|_| self.hand_over(tally, &random_key(random, keys))),
            // Enough to pass N handed where the table is crowded.
            _ => keys.iter().for_each(|key| self.hand_over(tally, key)),
        }
    }

    fn hand_over(&mut self, tally: &mut Tally, key: &KeyBytes) {
        let answer = self.marked.hand_over(key);
        tally.equal(&self.name, self.rescanning.hand_over(key), answer);
        meet_hand_over(tally, answer);
        if answer == Err(Refusal::HandedFull) {
            tally.equal(&self.name, self.marked.engine.table.handed(), self.marked.header.sizes.cells());
        }
        self.agree(tally);
    }

    pub fn settle(&mut self, tally: &mut Tally) {
        let answer = self.marked.settle().expect("a session");
        tally.equal(&self.name, self.rescanning.settle(), Ok(answer));
        meet_settle(tally, answer);
        self.agree(tally);
        let report = self.marked.report().expect("a session");
        tally.equal(&self.name, self.rescanning.report(), Ok(report));
        meet_state(tally, report);
    }

    pub fn agree(&self, tally: &mut Tally) {
        let Header { sizes, salt, .. } = self.marked.header;
        let same = self.marked.header == self.rescanning.header && self.marked.filter == self.rescanning.filter;
        tally.holds_in(&self.name, "header and filter", same);
        agree(tally, &self.name, &Hashed::new(sizes, salt), &self.marked.engine, &self.rescanning.engine);
    }
}

/// Mostly a flow of the flowset, sometimes a stranger.
fn random_key(random: &mut Random, keys: &[KeyBytes]) -> KeyBytes {
    if random.once_in(4) {
        key_of(&random_flow(random))
    } else {
        random.pick(keys)
    }
}
