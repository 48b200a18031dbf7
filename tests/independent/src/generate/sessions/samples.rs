//! Sessions at work: opened from a table's image, with flows handed over and settled.

use super::tables::{self, Left, Spoiled, Table, Which};
use crate::counters::key_of;
use crate::flow;
use crate::flowsets::{random_flow, shuffle};
use crate::image::Header;
use crate::ipv4::Ipv4;
use crate::key::KeyBytes;
use crate::lent_session::LentSession;
use crate::marked::Marked;
use crate::random::Random;
use crate::session::Session;
use crate::table::Record;

/// All of them pass the test of 8.
#[derive(Clone, Copy)]
pub enum Family {
    /// Opened, and no more: with few flows, or with many.
    Light,
    Heavy,
    Settled,
    /// After hand-overs and settlings at random.
    Worked,
    /// Handed as many as it takes; and then settled.
    Driven,
    Short,
    /// Settled, with one thing left over.
    Stray(Which, Left),
    /// Opened; settling mostly leaves a missed flow's packets over.
    Overlooked,
    /// Tables that settling may find damaged.
    Missed,
    Damaged,
    Spoiled(Spoiled),
    /// A handed flow that stands alone in one of its cells once more.
    Twice,
    /// With as many records as the test of 8 lets pass: beside open cells, and where none is left.
    Padded,
    Full,
}

pub struct Sample {
    pub session: Session<Marked>,
    pub flows: Vec<Ipv4>,
}

impl Sample {
    pub fn of(family: Family, random: &mut Random) -> Self {
        match family {
            Family::Light => Sample::open(tables::clean(random, (5, 45))),
            Family::Heavy => Sample::open(tables::clean(random, (80, 150))),
            Family::Settled => Sample::open(tables::clean(random, (5, 150))).settled(),
            Family::Worked => Sample::open(tables::clean(random, (5, 150))).worked(random),
            Family::Driven => Sample::open(tables::clean(random, (115, 150))).driven(random),
            Family::Short => Sample::open(tables::clean(random, (102, 120))).driven(random).settled(),
            Family::Stray(which, left) => Sample::open(tables::stray(random, which, left)).settled(),
            Family::Overlooked => Sample::open(tables::overlooked(random)),
            Family::Missed => Sample::open(tables::missed(random)),
            Family::Damaged => Sample::open(tables::damaged(random)).worked(random),
            Family::Spoiled(spoiled) => Sample::open(tables::spoiled(random, spoiled)),
            Family::Twice => {
                let (table, key) = tables::twice(random);
                let mut sample = Sample::open(table);
                sample.session.hand_over(&key).expect("a counted flow");
                sample
            }
            Family::Padded => Sample::of(Family::Worked, random).padded(random, 0),
            Family::Full => Sample::open(tables::clean(random, (5, 30))).settled().padded(random, 0),
        }
    }

    pub fn open(table: Table) -> Self {
        let Table { flowset, flows } = table;
        let session = Session::open(&flowset.sealed(), flowset.header().slot).expect("a sealed image");
        Sample { session, flows }
    }

    /// With known and unknown, peeled and handed flows, and one left to hand over: every field has something to damage.
    pub fn busy(random: &mut Random) -> Self {
        loop {
            let mut sample = Sample::open(tables::clean(random, (70, 120))).settled();
            let some = sample.n() / 6;
            sample.hand_some(random, some);
            let has = |known, handed| sample.session.list().iter().any(|at| (at.known, at.handed) == (known, handed));
            if has(true, false) && has(false, true) && sample.acceptable(random).is_some() {
                return sample;
            }
        }
    }

    pub fn lent(&self) -> LentSession {
        LentSession::of(&self.session)
    }

    pub fn n(&self) -> usize {
        self.session.header.sizes.cells()
    }

    /// What a 14 leaves is as good a state to go on from as any.
    pub fn settled(mut self) -> Self {
        let _ = self.session.settle();
        self
    }

    pub fn worked(mut self, random: &mut Random) -> Self {
        for _ in 0..random.between(1, 4) {
            if random.once_in(2) {
                self = self.settled();
            } else {
                let most = random.pick(&[2, 10, 40]);
                self.hand_some(random, most);
            }
        }
        self
    }

    pub fn driven(mut self, random: &mut Random) -> Self {
        let all = self.flows.len();
        self.hand_some(random, all);
        self
    }

    /// Adds known records until peeled plus open is N, and N are handed but for `left`.
    pub fn padded(mut self, random: &mut Random, left: usize) -> Self {
        let n = self.n();
        let table = &mut self.session.engine.table;
        let handed = table.handed();
        let peeled = table.list.len() - handed;
        let more_peeled = n - peeled - table.open_cells();
        let more_handed = (n - left).saturating_sub(handed);
        for number in 0..more_peeled + more_handed {
            let key = std::array::from_fn(|_| random.byte());
            table.list.push(Record { key, count: random.u32() | 1, known: true, handed: number >= more_peeled });
        }
        self
    }

    /// One filter bit that the key needs is 0, mostly that of the last hash.
    pub fn without_bit(mut self, random: &mut Random, key: &KeyBytes) -> Self {
        let Header { sizes, salt, .. } = self.session.header;
        let bits = flow::filter_bits(sizes, salt, key);
        let bit = if random.once_in(2) { bits[bits.len() - 1] } else { random.pick(&bits) };
        self.session.filter[bit / 8] &= !(128 >> (bit % 8));
        self
    }

    /// Offers up to so many of its own flows, and now and then one of another flowset.
    fn hand_some(&mut self, random: &mut Random, most: usize) {
        let mut keys = self.shuffled_keys(random);
        keys.truncate(most);
        for key in keys {
            let _ = self.session.hand_over(&key);
            if random.once_in(8) {
                let _ = self.session.hand_over(&stranger(random, &key));
            }
        }
    }

    fn shuffled_keys(&self, random: &mut Random) -> Vec<KeyBytes> {
        let mut keys: Vec<KeyBytes> = self.flows.iter().map(key_of).collect();
        shuffle(random, &mut keys);
        keys
    }

    /// A flow of its own that a hand-over accepts, if one is left.
    pub fn acceptable(&self, random: &mut Random) -> Option<KeyBytes> {
        self.shuffled_keys(random).into_iter().find(|key| self.session.clone().hand_over(key).is_ok())
    }

    /// A flow of its own that is not listed, if there is one.
    pub fn unlisted(&self, random: &mut Random) -> Option<KeyBytes> {
        let listed = |key: &KeyBytes| self.session.list().iter().any(|record| record.key == *key);
        self.shuffled_keys(random).into_iter().find(|key| !listed(key))
    }

    pub fn listed(&self, random: &mut Random) -> Option<KeyBytes> {
        let list = self.session.list();
        (!list.is_empty()).then(|| list[random.below(list.len())].key)
    }
}

/// A flow from anywhere, or the neighbour of a flow.
pub fn stranger(random: &mut Random, of: &KeyBytes) -> KeyBytes {
    if random.once_in(2) {
        return key_of(&random_flow(random));
    }
    let mut key = *of;
    let at = random.below(key.len());
    key[at] ^= 1 << random.below(8);
    key
}
