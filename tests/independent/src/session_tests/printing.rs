//! What the printing program prints, written by hand.

use std::collections::BTreeSet;

use crate::compare_printing::kind;
use crate::counters::{find_flow, key_of};
use crate::expected::PRINTED;
use crate::flow;
use crate::generate::printing_inputs;
use crate::image::Header;
use crate::ipv4::Ipv4;
use crate::layout::{FLOW_COUNT, KEY_BYTES, PACKET_COUNT};
use crate::print::print;
use crate::selftest::{tcp, Tally, MIDDLE};
use crate::sizes::Sizes;
use crate::working::Encoder;

fn printed(encoder: &Encoder) -> String {
    print(&[&7u32.to_be_bytes()[..], &encoder.sealed()].concat())
}

pub fn lines(tally: &mut Tally) {
    let smallest = Header { sizes: Sizes::SMALLEST, ..MIDDLE };
    let empty = Encoder::new(smallest);
    tally.equal("empty", printed(&empty), "7 9 0 0 0 whole\n".into());
    let image = empty.sealed();
    let with_slot = |slot: &[u8]| print(&[slot, &image].concat());
    tally.equal("slot of 3 bytes", print(&[0, 0, 7]), "refused 1\n".into());
    tally.equal("no image", print(&[0, 0, 0, 7]), "refused 1\n".into());
    tally.equal("too long", print(&[0; 4 + 41_472]), "refused 1\n".into());
    tally.equal("stale", with_slot(&[7, 0, 0, 0]), "refused 5\n".into());
    tally.equal("torn", with_slot(&[0, 0, 0, 7, 1]), "refused 1\n".into());

    let mut two = Encoder::new(MIDDLE);
    tally.holds("taken", two.packet(&tcp()).is_ok() && two.packet(&tcp()).is_ok());
    tally.equal("one flow", printed(&two), "7 9 1 1 0 whole\n10.0.0.1 1024 10.0.0.2 80 6 2\n".into());
    let other = Ipv4::new(1, 0xffff_ffff, 0, []).bytes();
    tally.holds("taken", two.packet(&other).is_ok());
    let text = printed(&two);
    let lines: Vec<&str> = text.lines().collect();
    tally.equal("two flows", (lines.len(), lines[0]), (3, "7 9 2 2 0 whole"));
    tally.holds("the other", lines.contains(&"255.255.255.255 0 0.0.0.0 0 1 1"));

    // Cell 0 has no flow.
    two.cell(0)[KEY_BYTES - 1] = 1;
    tally.equal("a byte left over", printed(&two), text.replace("whole", "stray"));
    two.cell(0).fill(0);
    two.cell(0)[PACKET_COUNT.start] = 1;
    tally.equal("packets left over", printed(&two), text.replace("whole", "stray"));
    two.cell(0).fill(0);
    tally.equal("nothing left over", &printed(&two), &text);

    two.cell(143)[FLOW_COUNT].fill(0);
    tally.equal("an emptied cell", printed(&two), "refused 14\n".into());

    let cells = |packet: &Ipv4| flow::cells(smallest.sizes, smallest.salt, &key_of(packet));
    let first = find_flow(0, |_| true);
    let twin = find_flow(1, |key| flow::cells(smallest.sizes, smallest.salt, key) == cells(&first));
    let mut twins = Encoder::new(smallest);
    tally.holds("taken", twins.packet(&first.bytes()).is_ok() && twins.packet(&twin.bytes()).is_ok());
    tally.equal("twins", printed(&twins), "7 9 0 0 2 stuck\n".into());
}

/// Inputs for the printing program meet all that it can print.
pub fn inputs(tally: &mut Tally) {
    for seed in 1..=3 {
        let met: BTreeSet<String> = printing_inputs(seed, 200).iter().map(|input| kind(&print(input))).collect();
        let missing: Vec<&str> = PRINTED.into_iter().filter(|kind| !met.contains(*kind)).collect();
        tally.equal("kinds that inputs for printing miss", missing, vec![]);
    }
}
