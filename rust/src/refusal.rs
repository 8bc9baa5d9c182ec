//! Why a call was refused.

use crate::run::Answer;
use core::fmt;

/// A refusal, with document 01's number. A refused call has changed nothing.
#[derive(Clone, Copy, Debug, PartialEq, Eq)]
pub enum Refusal {
    /// 1: no frame was asked for.
    ZeroFrames,
    /// 2: a frame or end above the top; an address of 2^40 or more; more than 2^40 bytes.
    OutOfBounds,
    /// 3: the workspace has fewer than 4,096 words, or the held list's buffer fewer than 2,048.
    LentTooShort,
    /// 4: a reserved area is empty.
    EmptyReservedArea,
    /// 5: there are more than 32 reserved areas.
    ManyReservedAreas,
    /// 6: boot pieces meet one another or a reserved area.
    PiecesMeet,
    /// 7: there are more than 32 general pieces.
    ManyPieces,
    /// 10: a boot, and any list is not empty.
    AlreadyBooted,
    /// 11: the record and its workspace break the list rules.
    BrokenRules,
    /// 12: the address was not found.
    NotFound,
    /// 13: the address is not free.
    NotFree,
    /// 14: no general chunk has the count.
    NoChunk,
    /// 15: frames are missing, for a general-only request.
    Missing {
        /// The first frame that is missing.
        frame: u64,
        /// How many are.
        count: u64,
    },
    /// 16: growth meets a reserved region.
    MeetsReserved,
    /// 17: two chunks are not enough.
    TwoChunksShort,
    /// 18: a list would hold more than 32 entries in early form, or 512 in sorted form; early growth also where either reserved list has
    /// 32 already.
    ListFull,
    /// 19: a returned frame is free, or the range isn't wholly in regions of one kind.
    NotHeld,
}

impl Refusal {
    /// Document 01's number.
    pub fn number(self) -> u64 {
        match self {
            Refusal::ZeroFrames => 1,
            Refusal::OutOfBounds => 2,
            Refusal::LentTooShort => 3,
            Refusal::EmptyReservedArea => 4,
            Refusal::ManyReservedAreas => 5,
            Refusal::PiecesMeet => 6,
            Refusal::ManyPieces => 7,
            Refusal::AlreadyBooted => 10,
            Refusal::BrokenRules => 11,
            Refusal::NotFound => 12,
            Refusal::NotFree => 13,
            Refusal::NoChunk => 14,
            Refusal::Missing { .. } => 15,
            Refusal::MeetsReserved => 16,
            Refusal::TwoChunksShort => 17,
            Refusal::ListFull => 18,
            Refusal::NotHeld => 19,
        }
    }

    /// The refusal that an answer is, or none. Its number is the library's, which has no other (docs/CLAIMS.md).
    pub(crate) fn of(answer: &Answer) -> Option<Refusal> {
        Some(match answer.number {
            0 => return None,
            1 => Refusal::ZeroFrames,
            2 => Refusal::OutOfBounds,
            3 => Refusal::LentTooShort,
            4 => Refusal::EmptyReservedArea,
            5 => Refusal::ManyReservedAreas,
            6 => Refusal::PiecesMeet,
            7 => Refusal::ManyPieces,
            10 => Refusal::AlreadyBooted,
            11 => Refusal::BrokenRules,
            12 => Refusal::NotFound,
            13 => Refusal::NotFree,
            14 => Refusal::NoChunk,
            15 => Refusal::Missing { frame: answer.frame, count: answer.count },
            16 => Refusal::MeetsReserved,
            17 => Refusal::TwoChunksShort,
            18 => Refusal::ListFull,
            19 => Refusal::NotHeld,
            number => unreachable!("{number} is no number of document 01"),
        })
    }
}

impl fmt::Display for Refusal {
    fn fmt(&self, f: &mut fmt::Formatter<'_>) -> fmt::Result {
        let number = self.number();
        let text = match self {
            Refusal::ZeroFrames => "zero frames",
            Refusal::OutOfBounds => "a frame, an address or a size out of bounds",
            Refusal::LentTooShort => "workspace or buffer too short",
            Refusal::EmptyReservedArea => "an empty reserved area",
            Refusal::ManyReservedAreas => "more than 32 reserved areas",
            Refusal::PiecesMeet => "boot pieces meet",
            Refusal::ManyPieces => "more than 32 general pieces",
            Refusal::AlreadyBooted => "a list is not empty",
            Refusal::BrokenRules => "the list rules are broken",
            Refusal::NotFound => "address not found",
            Refusal::NotFree => "address not free",
            Refusal::NoChunk => "no general chunk has the count",
            Refusal::Missing { frame, count } => {
                return write!(f, "{number}: {count} frames missing from {frame} on");
            }
            Refusal::MeetsReserved => "growth meets a reserved region",
            Refusal::TwoChunksShort => "two chunks are not enough",
            Refusal::ListFull => "a list would be too long",
            Refusal::NotHeld => {
                "a returned frame is free, or the range isn't in regions of one kind"
            }
        };
        write!(f, "{number}: {text}")
    }
}

impl core::error::Error for Refusal {}
