//! The exchange of two switches' flows.

use crate::engine::{Damage, Engine};
use crate::refusal::Refusal;
use crate::session::{Checked, Session};

#[derive(Clone, Copy, PartialEq, Eq, Debug)]
pub enum Switch {
    A,
    B,
}

#[derive(Clone, Copy, PartialEq, Eq, Debug)]
pub struct Exchanged {
    /// Answers 12, over all rounds and both ways.
    pub handed_full: usize,
    /// What ended it early, if anything did.
    pub damage: Option<(Switch, Damage)>,
}

/// The refusals are 8, 16 and 15, before anything changes.
pub fn exchange<E: Engine>(a: &mut Session<E>, b: &mut Session<E>) -> Result<Exchanged, Refusal> {
    a.check_sizes().and(b.check_sizes())?;
    a.check_room().and(b.check_room())?;
    let (mut a, mut b) = (a.checked_rest()?, b.checked_rest()?);
    if a.slot() != b.slot() {
        return Err(Refusal::OtherSlot);
    }
    let mut handed_full = 0;
    let damage = rounds(&mut a, &mut b, &mut handed_full).err();
    Ok(Exchanged { handed_full, damage })
}

type Ended = Result<(), (Switch, Damage)>;

fn rounds<E: Engine>(a: &mut Checked<E>, b: &mut Checked<E>, handed_full: &mut usize) -> Ended {
    settle_both(a, b)?;
    loop {
        let before = (a.list().len(), b.list().len());
        *handed_full += hand_all(a, b);
        *handed_full += hand_all(b, a);
        settle_both(a, b)?;
        if (a.list().len(), b.list().len()) == before {
            return Ok(());
        }
    }
}

fn settle_both<E: Engine>(a: &mut Checked<E>, b: &mut Checked<E>) -> Ended {
    a.settle().map_err(|damage| (Switch::A, damage))?;
    b.settle().map_err(|damage| (Switch::B, damage))
}

/// Passes answers over, but counts those of 12.
fn hand_all<E: Engine>(from: &Checked<E>, to: &mut Checked<E>) -> usize {
    let answers = from.list().iter().map(|record| to.hand_over(&record.key));
    answers.filter(|&answer| answer == Err(Refusal::HandedFull)).count()
}
