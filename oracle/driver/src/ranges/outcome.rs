//! What can come of each call, told apart as finely as the sources do: each branch that answers is
//! an outcome of its own, so that a run can show that it went through all of them.

use super::call::{Answer, Call, Kind};
use super::domain::Refusal;

#[derive(Clone, Copy, PartialEq, Eq)]
pub enum Outcome {
    Yes,
    YesNoFrame,
    YesOneFrame,
    YesFrames,
    YesOfEmpty,
    YesUnchanged,
    YesDownwards,
    YesUpwards,
    YesOtherBelow,
    YesOtherAbove,
    YesBeforeAndAfter,
    YesBefore,
    YesAfter,
    YesWhole,
    YesFirstEmpty,
    YesSecondEmpty,
    YesTwoHalves,
    NoEmpty,
    NoOutside,
    NoApart,
    NoOverlapping,
    RefusedFrame,
    RefusedAddress,
    RefusedBytes,
    RefusedEnd,
}

impl Outcome {
    pub const COUNT: usize = Outcome::RefusedEnd as usize + 1;

    pub fn label(self) -> &'static str {
        match self {
            Outcome::Yes => "yes",
            Outcome::YesNoFrame => "yes, no frame",
            Outcome::YesOneFrame => "yes, one frame",
            Outcome::YesFrames => "yes, several frames",
            Outcome::YesOfEmpty => "yes, of an empty range",
            Outcome::YesUnchanged => "yes, unchanged",
            Outcome::YesDownwards => "yes, downwards",
            Outcome::YesUpwards => "yes, upwards",
            Outcome::YesOtherBelow => "yes, the other is below",
            Outcome::YesOtherAbove => "yes, the other is above",
            Outcome::YesBeforeAndAfter => "yes, all three parts",
            Outcome::YesBefore => "yes, after absent",
            Outcome::YesAfter => "yes, before absent",
            Outcome::YesWhole => "yes, before and after absent",
            Outcome::YesFirstEmpty => "yes, first empty",
            Outcome::YesSecondEmpty => "yes, second empty",
            Outcome::YesTwoHalves => "yes, both halves",
            Outcome::NoEmpty => "no, a range is empty",
            Outcome::NoOutside => "no, outside",
            Outcome::NoApart => "no, apart",
            Outcome::NoOverlapping => "no, overlapping",
            Outcome::RefusedFrame => "2, a frame above the top",
            Outcome::RefusedAddress => "2, an address of 2^40 or more",
            Outcome::RefusedBytes => "2, more than 2^40 bytes",
            Outcome::RefusedEnd => "2, would end above the top",
        }
    }

    pub fn verdict(self) -> Verdict {
        match self {
            Outcome::NoEmpty | Outcome::NoOutside | Outcome::NoApart | Outcome::NoOverlapping => {
                Verdict::No
            }
            Outcome::RefusedFrame
            | Outcome::RefusedAddress
            | Outcome::RefusedBytes
            | Outcome::RefusedEnd => Verdict::Refused,
            _ => Verdict::Yes,
        }
    }

    /// Every outcome that the call can have.
    pub fn possible(kind: Kind) -> &'static [Outcome] {
        use Outcome::*;
        match kind {
            Kind::SizeInFrames => &[YesNoFrame, YesOneFrame, YesFrames, RefusedFrame],
            Kind::ContainsRange => &[Yes, NoEmpty, NoOutside, RefusedFrame],
            Kind::Overlap => &[Yes, NoEmpty, NoApart, RefusedFrame],
            Kind::ToExtended => &[YesOfEmpty, YesUnchanged, YesDownwards, YesUpwards, RefusedFrame],
            Kind::FromPhysAddr => {
                &[YesNoFrame, YesOneFrame, YesFrames, RefusedAddress, RefusedBytes, RefusedEnd]
            }
            Kind::OffsetOfAddress => &[Yes, NoEmpty, NoOutside, RefusedFrame, RefusedAddress],
            Kind::AddressAtOffset => &[Yes, NoEmpty, NoOutside, RefusedFrame],
            Kind::Merge => {
                &[YesOtherBelow, YesOtherAbove, NoEmpty, NoApart, NoOverlapping, RefusedFrame]
            }
            Kind::SplitRange => &[
                YesBeforeAndAfter,
                YesBefore,
                YesAfter,
                YesWhole,
                NoEmpty,
                NoOutside,
                RefusedFrame,
            ],
            Kind::SplitAt => {
                &[YesFirstEmpty, YesSecondEmpty, YesTwoHalves, NoEmpty, NoOutside, RefusedFrame]
            }
        }
    }

    pub fn of_refusal(refusal: Refusal) -> Outcome {
        match refusal {
            Refusal::Frame => Outcome::RefusedFrame,
            Refusal::Address => Outcome::RefusedAddress,
            Refusal::Bytes => Outcome::RefusedBytes,
            Refusal::End => Outcome::RefusedEnd,
        }
    }

    /// The outcome of a call that the Rust answered. A yes is sorted by the values answered, a no
    /// by the operands, since it shows nothing.
    pub fn of_answer(call: &Call, answer: &Answer) -> Outcome {
        let values = answer.values(call.kind());
        match (*call, answer.is_yes()) {
            (Call::SizeInFrames { .. }, true) => of_size(values[0]),
            (Call::FromPhysAddr { .. }, true) => of_size((values[1] + 1).saturating_sub(values[0])),
            (Call::ToExtended { range, frame }, true) => {
                if range.is_empty() {
                    Outcome::YesOfEmpty
                } else if values == [range.start, range.end] {
                    Outcome::YesUnchanged
                } else if values == [frame, range.end] {
                    Outcome::YesDownwards
                } else {
                    Outcome::YesUpwards
                }
            }
            (Call::Merge { other, .. }, true) => {
                if values[0] == other.start {
                    Outcome::YesOtherBelow
                } else {
                    Outcome::YesOtherAbove
                }
            }
            (Call::SplitRange { .. }, true) => match (&values[0..2], &values[4..6]) {
                ([1, 0], [1, 0]) => Outcome::YesWhole,
                ([1, 0], _) => Outcome::YesAfter,
                (_, [1, 0]) => Outcome::YesBefore,
                _ => Outcome::YesBeforeAndAfter,
            },
            (Call::SplitAt { .. }, true) => match (&values[0..2], &values[2..4]) {
                ([1, 0], _) => Outcome::YesFirstEmpty,
                (_, [1, 0]) => Outcome::YesSecondEmpty,
                _ => Outcome::YesTwoHalves,
            },
            (_, true) => Outcome::Yes,

            (Call::ContainsRange { other, .. }, _) if other.is_empty() => Outcome::NoEmpty,
            (Call::SplitRange { extract, .. }, _) if extract.is_empty() => Outcome::NoEmpty,
            (Call::Overlap { range, other } | Call::Merge { range, other }, _) => {
                if range.is_empty() || other.is_empty() {
                    Outcome::NoEmpty
                } else if range.end < other.start || other.end < range.start {
                    Outcome::NoApart
                } else {
                    Outcome::NoOverlapping
                }
            }
            (
                Call::OffsetOfAddress { range, .. }
                | Call::AddressAtOffset { range, .. }
                | Call::SplitAt { range, .. },
                _,
            ) if range.is_empty() => Outcome::NoEmpty,
            _ => Outcome::NoOutside,
        }
    }
}

fn of_size(frames: u64) -> Outcome {
    match frames {
        0 => Outcome::YesNoFrame,
        1 => Outcome::YesOneFrame,
        _ => Outcome::YesFrames,
    }
}

/// The three answers as document 01 has them.
#[derive(Clone, Copy, PartialEq, Eq)]
pub enum Verdict {
    Yes,
    No,
    Refused,
}
