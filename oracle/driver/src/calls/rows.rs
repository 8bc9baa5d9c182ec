//! What came of a call, told apart by the lists before it and after it.

use super::domain::{part_to_grow, MOST_ENTRIES};
use super::judge::Judgement;
use super::question_rows::of_question;
use crate::allocator::call::Call;
use crate::allocator::state::{
    State, GENERAL_FREE, GENERAL_REGIONS, RESERVED_FREE, RESERVED_REGIONS, SLOTS,
};
use crate::frames::Range;

#[derive(Clone, Copy, PartialEq, Eq, Hash)]
pub enum Row {
    FromGeneral,
    FromReserved,
    TwoGeneral,
    TwoReserved,
    LeftNone,
    LeftBefore,
    LeftAfter,
    LeftBoth,
    GrownWhole,
    GrownTail,
    GrownBesideFull,
    Full,
    TwelveNoChunk,
    TwelveNotHeld,
    TwelveTail,
    ThirteenWhole,
    ThirteenTail,
    ThirteenGranted,
    ThirteenForSixteen,
    SixteenWhole,
    SixteenTail,
    SixteenGranted,
    SeventeenReserved,
    SeventeenGeneral,
    EighteenGeneral,
    EighteenReserved,
    EighteenChunks,
    EighteenRegions,
    GivenNothing,
    GivenGeneral,
    GivenReserved,
    GivenAcross,
    JoinedAbove,
    JoinedAboveOnly,
    JoinedBelow,
    JoinedNone,
    EighteenGiven,
    NineteenFree,
    NineteenOutside,
    KindOfNothing,
    KindOfGeneral,
    KindOfUnknown,
    KindOfReserved,
    KindOfBoth,
    KindMissed,
    NoGeneral,
    SomeGeneral,
    NoReserved,
    SomeReserved,
    HeldNone,
    HeldOne,
    HeldSeveral,
    HeldMany,
    HeldAcross,
    HeldUnlikeSlots,
}

/// In which form a row can occur.
#[derive(Clone, Copy, PartialEq, Eq)]
enum Form {
    Both,
    Early,
    Sorted,
}

impl Row {
    pub const ALL: [Row; 55] = [
        Row::FromGeneral,
        Row::FromReserved,
        Row::TwoGeneral,
        Row::TwoReserved,
        Row::LeftNone,
        Row::LeftBefore,
        Row::LeftAfter,
        Row::LeftBoth,
        Row::GrownWhole,
        Row::GrownTail,
        Row::GrownBesideFull,
        Row::Full,
        Row::TwelveNoChunk,
        Row::TwelveNotHeld,
        Row::TwelveTail,
        Row::ThirteenWhole,
        Row::ThirteenTail,
        Row::ThirteenGranted,
        Row::ThirteenForSixteen,
        Row::SixteenWhole,
        Row::SixteenTail,
        Row::SixteenGranted,
        Row::SeventeenReserved,
        Row::SeventeenGeneral,
        Row::EighteenGeneral,
        Row::EighteenReserved,
        Row::EighteenChunks,
        Row::EighteenRegions,
        Row::GivenNothing,
        Row::GivenGeneral,
        Row::GivenReserved,
        Row::GivenAcross,
        Row::JoinedAbove,
        Row::JoinedAboveOnly,
        Row::JoinedBelow,
        Row::JoinedNone,
        Row::EighteenGiven,
        Row::NineteenFree,
        Row::NineteenOutside,
        Row::KindOfNothing,
        Row::KindOfGeneral,
        Row::KindOfUnknown,
        Row::KindOfReserved,
        Row::KindOfBoth,
        Row::KindMissed,
        Row::NoGeneral,
        Row::SomeGeneral,
        Row::NoReserved,
        Row::SomeReserved,
        Row::HeldNone,
        Row::HeldOne,
        Row::HeldSeveral,
        Row::HeldMany,
        Row::HeldAcross,
        Row::HeldUnlikeSlots,
    ];

    pub fn label(self) -> &'static str {
        self.about().0
    }

    pub fn can_occur_in(self, sorted: bool) -> bool {
        self.about().1 != if sorted { Form::Early } else { Form::Sorted }
    }

    /// Whether a list of 32 or 512 entries comes into it.
    pub fn needs_many_entries(self) -> bool {
        matches!(
            self,
            Row::GrownBesideFull
                | Row::Full
                | Row::EighteenGeneral
                | Row::EighteenReserved
                | Row::EighteenChunks
                | Row::EighteenRegions
                | Row::EighteenGiven
                | Row::HeldMany
        )
    }

    fn about(self) -> (&'static str, Form) {
        match self {
            Row::FromGeneral => ("granted from the general list", Form::Both),
            Row::FromReserved => ("granted from the reserved list", Form::Both),
            Row::TwoGeneral => ("    from two general chunks", Form::Sorted),
            Row::TwoReserved => ("    from two reserved chunks", Form::Sorted),
            Row::LeftNone => ("    nothing left over", Form::Both),
            Row::LeftBefore => ("    left over before", Form::Both),
            Row::LeftAfter => ("    left over after", Form::Both),
            Row::LeftBoth => ("    left over before and after", Form::Both),
            Row::GrownWhole => ("    grown by the whole request", Form::Both),
            Row::GrownTail => ("    grown by the missing tail", Form::Sorted),
            Row::GrownBesideFull => ("    grown beside 512 reserved chunks", Form::Sorted),
            Row::Full => ("    a full list of chunks, 32 or 512", Form::Both),
            Row::TwelveNoChunk => ("12, general-only, no chunk is free", Form::Both),
            Row::TwelveNotHeld => ("12, general-only, not found", Form::Both),
            Row::TwelveTail => ("12, the general list misses a tail", Form::Sorted),
            Row::ThirteenWhole => ("13, the whole request", Form::Both),
            Row::ThirteenTail => ("13, the missing tail", Form::Sorted),
            Row::ThirteenGranted => ("13, where the Rust grants", Form::Sorted),
            Row::ThirteenForSixteen => ("13, where the Rust says 16", Form::Sorted),
            Row::SixteenWhole => ("16, the whole request", Form::Both),
            Row::SixteenTail => ("16, the missing tail", Form::Sorted),
            Row::SixteenGranted => ("16, where the Rust grants", Form::Sorted),
            Row::SeventeenReserved => ("17, in the reserved list", Form::Sorted),
            Row::SeventeenGeneral => ("17, in the general list", Form::Sorted),
            Row::EighteenGeneral => ("18, a general chunk leaves two", Form::Both),
            Row::EighteenReserved => ("18, a reserved chunk leaves two", Form::Both),
            Row::EighteenChunks => ("18, growth beside 32 reserved chunks", Form::Early),
            Row::EighteenRegions => ("18, growth of a full list of regions", Form::Both),
            Row::GivenNothing => ("returned, an empty range", Form::Both),
            Row::GivenGeneral => ("returned to the general list", Form::Both),
            Row::GivenReserved => ("returned to the reserved list", Form::Both),
            Row::GivenAcross => ("    from more than one region", Form::Both),
            Row::JoinedAbove => ("    joined above", Form::Sorted),
            Row::JoinedAboveOnly => ("    joined above, where it touches below too", Form::Sorted),
            Row::JoinedBelow => ("    joined below", Form::Sorted),
            Row::JoinedNone => ("    a chunk of its own", Form::Both),
            Row::EighteenGiven => ("18, a return to a full list", Form::Both),
            Row::NineteenFree => ("19, a frame is free", Form::Both),
            Row::NineteenOutside => ("19, not in regions of one kind", Form::Both),
            Row::KindOfNothing => ("kind 0, an empty range", Form::Both),
            Row::KindOfGeneral => ("kind 0, general frames", Form::Both),
            Row::KindOfUnknown => ("kind 0, frames in no region", Form::Both),
            Row::KindOfReserved => ("kind 1, reserved frames", Form::Both),
            Row::KindOfBoth => ("kind 1, frames of both kinds", Form::Both),
            Row::KindMissed => ("kind 1, where the Rust says 0", Form::Sorted),
            Row::NoGeneral => ("total 0, general", Form::Both),
            Row::SomeGeneral => ("total above 0, general", Form::Both),
            Row::NoReserved => ("total 0, reserved", Form::Both),
            Row::SomeReserved => ("total above 0, reserved", Form::Both),
            Row::HeldNone => ("held, no run", Form::Both),
            Row::HeldOne => ("held, one run", Form::Both),
            Row::HeldSeveral => ("held, 2 to 32 runs", Form::Both),
            Row::HeldMany => ("held, more than 32 runs", Form::Both),
            Row::HeldAcross => ("    a run across regions that touch", Form::Both),
            Row::HeldUnlikeSlots => ("    runs in another order than the slots", Form::Early),
        }
    }

    pub fn of(call: &Call, before: &State, judgement: &Judgement) -> Vec<Row> {
        let answer = &judgement.answer;
        match *call {
            Call::Return(range) => {
                return of_return(range, answer.number, before, &judgement.after)
            }
            _ if call.is_question() => return of_question(call, before, judgement),
            _ => {}
        }
        let general_only = matches!(call, Call::GeneralAt(..));
        let Some(frames) = call.frames() else {
            return match answer {
                _ if answer.number != 0 || answer.range == [1, 0] => Vec::new(),
                _ => of_grant(range(answer.range), before, &judgement.after),
            };
        };
        let granted = judgement.overruled.map(|answer| answer.number == 0);
        match answer.number {
            0 => of_grant(frames, before, &judgement.after),
            12 if !general_only => vec![Row::TwelveTail],
            12 if before.len(GENERAL_FREE) == 0 => vec![Row::TwelveNoChunk],
            12 => vec![Row::TwelveNotHeld],
            13 if granted == Some(true) => vec![Row::ThirteenGranted],
            13 if granted == Some(false) => vec![Row::ThirteenForSixteen],
            13 if part(before, frames) == frames => vec![Row::ThirteenWhole],
            13 => vec![Row::ThirteenTail],
            16 if granted == Some(true) => vec![Row::SixteenGranted],
            16 if part(before, frames) == frames => vec![Row::SixteenWhole],
            16 => vec![Row::SixteenTail],
            17 if !general_only && has_frame(before, RESERVED_FREE, frames.start) => {
                vec![Row::SeventeenReserved]
            }
            17 => vec![Row::SeventeenGeneral],
            18 if before.holds(RESERVED_FREE, frames) => vec![Row::EighteenReserved],
            18 if before.holds(GENERAL_FREE, frames) => vec![Row::EighteenGeneral],
            18 if before.len(RESERVED_REGIONS) == most(before) => vec![Row::EighteenRegions],
            18 => vec![Row::EighteenChunks],
            _ => Vec::new(),
        }
    }
}

fn of_grant(granted: Range, before: &State, after: &State) -> Vec<Row> {
    let has_grown = after.len(RESERVED_REGIONS) > before.len(RESERVED_REGIONS);
    let is_reserved = has_grown || has_frame(before, RESERVED_FREE, granted.start);
    let list = if is_reserved { RESERVED_FREE } else { GENERAL_FREE };
    let chunks: Vec<Range> =
        before.entries(list).into_iter().filter(|chunk| chunk.meets(granted)).collect();
    let left_before = chunks.iter().any(|chunk| chunk.start < granted.start);
    let left_after = chunks.iter().any(|chunk| granted.end < chunk.end);
    let is_full = [GENERAL_FREE, RESERVED_FREE].iter().any(|list| after.len(*list) == most(after));
    let seen = [
        (Row::FromGeneral, !is_reserved),
        (Row::FromReserved, is_reserved),
        (Row::TwoGeneral, !is_reserved && chunks.len() == 2),
        (Row::TwoReserved, is_reserved && chunks.len() == 2),
        (Row::LeftNone, !left_before && !left_after),
        (Row::LeftBefore, left_before && !left_after),
        (Row::LeftAfter, !left_before && left_after),
        (Row::LeftBoth, left_before && left_after),
        (Row::GrownWhole, has_grown && chunks.is_empty()),
        (Row::GrownTail, has_grown && !chunks.is_empty()),
        (Row::GrownBesideFull, has_grown && before.len(RESERVED_FREE) == MOST_ENTRIES),
        (Row::Full, is_full),
    ];
    those_seen(&seen)
}

fn of_return(range: Range, number: u64, before: &State, after: &State) -> Vec<Row> {
    let kinds = [(GENERAL_REGIONS, GENERAL_FREE), (RESERVED_REGIONS, RESERVED_FREE)];
    let kind = kinds.into_iter().find(|(regions, _)| before.holds(*regions, range));
    match (number, kind) {
        (0, _) if range.is_empty() => return vec![Row::GivenNothing],
        (18, _) => return vec![Row::EighteenGiven],
        (19, None) => return vec![Row::NineteenOutside],
        (19, _) => return vec![Row::NineteenFree],
        _ => {}
    }
    let Some((regions, list)) = kind else { return Vec::new() };
    let is_across = before.entries(regions).iter().filter(|r| r.meets(range)).count() > 1;
    let chunks = before.entries(list);
    let touches_below = chunks.iter().any(|chunk| chunk.end + 1 == range.start);
    let touches_above = chunks.iter().any(|chunk| range.end + 1 == chunk.start);
    let is_alone = after.len(list) > before.len(list);
    let seen = [
        (Row::GivenGeneral, list == GENERAL_FREE),
        (Row::GivenReserved, list == RESERVED_FREE),
        (Row::GivenAcross, is_across),
        (Row::JoinedAbove, !is_alone && touches_above && !touches_below),
        (Row::JoinedAboveOnly, !is_alone && touches_above && touches_below),
        (Row::JoinedBelow, !is_alone && !touches_above),
        (Row::JoinedNone, is_alone),
    ];
    those_seen(&seen)
}

pub fn those_seen(rows: &[(Row, bool)]) -> Vec<Row> {
    rows.iter().filter(|(_, is_so)| *is_so).map(|(row, _)| *row).collect()
}

/// The part of a request that would grow the reserved lists.
fn part(before: &State, frames: Range) -> Range {
    match before {
        State::Early(_) => frames,
        State::Sorted(tables) => part_to_grow(tables, frames),
    }
}

/// How many entries the form allows.
fn most(state: &State) -> usize {
    if state.is_sorted() {
        MOST_ENTRIES
    } else {
        SLOTS
    }
}

fn has_frame(state: &State, list: usize, frame: u64) -> bool {
    state.entries(list).iter().any(|chunk| chunk.start <= frame && frame <= chunk.end)
}

fn range([start, end]: [u64; 2]) -> Range {
    Range { start, end }
}
