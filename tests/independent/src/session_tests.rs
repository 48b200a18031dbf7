//! Checks of sessions, engines, exchange and printing.

mod cases;
mod clean;
mod exchanges;
mod lines;
mod pair;
mod peels;
mod printing;
mod refused;
mod requests;
mod sequences;
mod strays;
mod tiny;

use crate::answer::refused_kind;
use crate::refusal::Refusal::{self, *};
use crate::selftest::Tally;

pub fn run(tally: &mut Tally) {
    for group in [
        cases::ten_cases,
        cases::off_clean,
        peels::any_marks,
        peels::last_record,
        tiny::engines_agree,
        sequences::engines_agree,
        clean::clean_sessions,
        exchanges::clean_exchanges,
        exchanges::damaged_exchanges,
        exchanges::crowded_exchange,
        refused::edges_of_eight,
        refused::marks_and_numbers,
        refused::rooms,
        refused::order_in_exchange,
        strays::every_place,
        strays::order,
        strays::inspection_cell,
        strays::missed_flows,
        printing::lines,
        printing::inputs,
        lines::by_hand,
        lines::strays_by_hand,
        lines::damaged_by_hand,
        lines::carried,
        lines::lengths,
        lines::longest,
        requests::chains,
        requests::shrinking,
        requests::generated,
        requests::for_calls,
    ] {
        group(tally);
    }
    tally.must_have_met(possible_answers());
}

/// All that a session can answer.
fn possible_answers() -> Vec<String> {
    let kinds = |call, refusals: &[Refusal]| refusals.iter().map(|&one| refused_kind(call, one)).collect::<Vec<_>>();
    [
        kinds("session", &[SessionSizes, OverListed, Repeated, KnownZero, OverHanded, OverPeeled]),
        kinds("session", &[WrongMark, WrongNumber]),
        kinds("session", &[FilterRoom, CellsRoom, MarksRoom, NumbersRoom]),
        kinds("hand-over", &[NotInFilter, Listed, EmptyCell, HandedFull]),
        kinds("settle", &[PeelListed, PeelEmptyCell, CountZero, CountOver]),
        kinds("exchange", &[OtherSlot]),
        ["hand-over ok", "settle ok"].map(String::from).to_vec(),
        ["state stuck", "state short", "state stray", "state whole"].map(String::from).to_vec(),
        ["exchange ok", "exchange with answers 12", "exchange 14 at A", "exchange 14 at B"].map(String::from).to_vec(),
    ]
    .concat()
}
