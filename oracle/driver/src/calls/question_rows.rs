//! What came of a question.

use super::judge::Judgement;
use super::rows::{those_seen, Row};
use crate::allocator::call::Call;
use crate::allocator::state::{State, GENERAL_REGIONS, RESERVED_REGIONS};
use crate::frames::Range;

/// None where it is refused.
pub fn of_question(call: &Call, state: &State, judgement: &Judgement) -> Vec<Row> {
    if judgement.answer.number != 0 {
        return Vec::new();
    }
    match *call {
        Call::Kind(_) if judgement.overruled.is_some() => vec![Row::KindMissed],
        Call::Kind(range) => vec![of_kind(range, state)],
        Call::Total(reserved) => vec![of_total(reserved, judgement.answer.count)],
        _ => of_held(state),
    }
}

fn of_kind(range: Range, state: &State) -> Row {
    let meets = |list: usize| state.entries(list).iter().any(|region| region.meets(range));
    match (meets(GENERAL_REGIONS), meets(RESERVED_REGIONS)) {
        _ if range.is_empty() => Row::KindOfNothing,
        (true, false) => Row::KindOfGeneral,
        (false, false) => Row::KindOfUnknown,
        (false, true) => Row::KindOfReserved,
        (true, true) => Row::KindOfBoth,
    }
}

fn of_total(reserved: bool, frames: u64) -> Row {
    match (reserved, frames) {
        (false, 0) => Row::NoGeneral,
        (false, _) => Row::SomeGeneral,
        (true, 0) => Row::NoReserved,
        (true, _) => Row::SomeReserved,
    }
}

fn of_held(state: &State) -> Vec<Row> {
    let runs = state.held();
    let regions = state.entries(GENERAL_REGIONS);
    let is_across = |run: &Range| {
        !regions.iter().any(|region| region.end >= run.end && region.start <= run.start)
    };
    // The stored place of the region that a run begins in.
    let place = |run: &Range| {
        regions.iter().position(|region| region.start <= run.start && run.start <= region.end)
    };
    let seen = [
        (Row::HeldNone, runs.is_empty()),
        (Row::HeldOne, runs.len() == 1),
        (Row::HeldSeveral, (2..=32).contains(&runs.len())),
        (Row::HeldMany, runs.len() > 32),
        (Row::HeldAcross, runs.iter().any(is_across)),
        (Row::HeldUnlikeSlots, !runs.is_sorted_by_key(place)),
    ];
    those_seen(&seen)
}
