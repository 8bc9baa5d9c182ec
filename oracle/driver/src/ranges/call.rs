//! The ten calls, and what an answer consists of.

use crate::frames::Range;
use std::fmt;

/// One call with its operands.
#[derive(Clone, Copy, PartialEq, Eq, Hash)]
pub enum Call {
    SizeInFrames { range: Range },
    ContainsRange { range: Range, other: Range },
    Overlap { range: Range, other: Range },
    ToExtended { range: Range, frame: u64 },
    FromPhysAddr { address: u64, bytes: u64 },
    OffsetOfAddress { range: Range, address: u64 },
    AddressAtOffset { range: Range, offset: u64 },
    Merge { range: Range, other: Range },
    SplitRange { range: Range, extract: Range },
    SplitAt { range: Range, frame: u64 },
}

/// Which call it is, without operands.
#[derive(Clone, Copy, PartialEq, Eq)]
pub enum Kind {
    SizeInFrames,
    ContainsRange,
    Overlap,
    ToExtended,
    FromPhysAddr,
    OffsetOfAddress,
    AddressAtOffset,
    Merge,
    SplitRange,
    SplitAt,
}

impl Kind {
    pub const ALL: [Kind; 10] = [
        Kind::SizeInFrames,
        Kind::ContainsRange,
        Kind::Overlap,
        Kind::ToExtended,
        Kind::FromPhysAddr,
        Kind::OffsetOfAddress,
        Kind::AddressAtOffset,
        Kind::Merge,
        Kind::SplitRange,
        Kind::SplitAt,
    ];

    pub fn name(self) -> &'static str {
        match self {
            Kind::SizeInFrames => "size_in_frames",
            Kind::ContainsRange => "contains_range",
            Kind::Overlap => "overlap",
            Kind::ToExtended => "to_extended",
            Kind::FromPhysAddr => "from_phys_addr",
            Kind::OffsetOfAddress => "offset_of_address",
            Kind::AddressAtOffset => "address_at_offset",
            Kind::Merge => "merge",
            Kind::SplitRange => "split_range",
            Kind::SplitAt => "split_at",
        }
    }

    /// The values that a no or a refusal shows: [1,0] for each range, 0 for a number.
    pub fn absent_values(self) -> &'static [u64] {
        match self {
            Kind::ContainsRange => &[],
            Kind::SizeInFrames | Kind::OffsetOfAddress | Kind::AddressAtOffset => &[0],
            Kind::Overlap | Kind::ToExtended | Kind::FromPhysAddr | Kind::Merge => &[1, 0],
            Kind::SplitAt => &[1, 0, 1, 0],
            Kind::SplitRange => &[1, 0, 1, 0, 1, 0],
        }
    }
}

impl Call {
    pub fn kind(&self) -> Kind {
        match self {
            Call::SizeInFrames { .. } => Kind::SizeInFrames,
            Call::ContainsRange { .. } => Kind::ContainsRange,
            Call::Overlap { .. } => Kind::Overlap,
            Call::ToExtended { .. } => Kind::ToExtended,
            Call::FromPhysAddr { .. } => Kind::FromPhysAddr,
            Call::OffsetOfAddress { .. } => Kind::OffsetOfAddress,
            Call::AddressAtOffset { .. } => Kind::AddressAtOffset,
            Call::Merge { .. } => Kind::Merge,
            Call::SplitRange { .. } => Kind::SplitRange,
            Call::SplitAt { .. } => Kind::SplitAt,
        }
    }

    fn operands(&self) -> Vec<u64> {
        match *self {
            Call::SizeInFrames { range } => vec![range.start, range.end],
            Call::ContainsRange { range, other }
            | Call::Overlap { range, other }
            | Call::Merge { range, other }
            | Call::SplitRange { range, extract: other } => {
                vec![range.start, range.end, other.start, other.end]
            }
            Call::ToExtended { range, frame: word }
            | Call::OffsetOfAddress { range, address: word }
            | Call::AddressAtOffset { range, offset: word }
            | Call::SplitAt { range, frame: word } => vec![range.start, range.end, word],
            Call::FromPhysAddr { address, bytes } => vec![address, bytes],
        }
    }
}

/// The call's name and its operands in decimal, parted by one space.
impl fmt::Display for Call {
    fn fmt(&self, f: &mut fmt::Formatter) -> fmt::Result {
        write!(f, "{}", self.kind().name())?;
        self.operands().iter().try_for_each(|operand| write!(f, " {operand}"))
    }
}

/// No answer writes more words than seven; the eighth shows a call that writes past its end.
pub const WORDS: usize = 8;

/// What the words hold before a call. No answer has a value this high.
pub const UNWRITTEN: u64 = 0xfeed_face_cafe_beef;

/// A call's number and the words that it wrote: 1 for yes or 0 for no, then the values.
#[derive(Clone, Copy, PartialEq, Eq)]
pub struct Answer {
    pub number: u64,
    pub words: [u64; WORDS],
}

impl Answer {
    pub fn yes(values: &[u64]) -> Answer {
        Answer::new(0, 1, values)
    }

    pub fn no(kind: Kind) -> Answer {
        Answer::new(0, 0, kind.absent_values())
    }

    pub fn refused(kind: Kind) -> Answer {
        Answer::new(2, 0, kind.absent_values())
    }

    fn new(number: u64, yes: u64, values: &[u64]) -> Answer {
        let mut words = [UNWRITTEN; WORDS];
        words[0] = yes;
        words[1..=values.len()].copy_from_slice(values);
        Answer { number, words }
    }

    pub fn is_yes(&self) -> bool {
        self.words[0] == 1
    }

    /// The words after yes or no.
    pub fn values(&self, kind: Kind) -> &[u64] {
        &self.words[1..=kind.absent_values().len()]
    }
}

impl fmt::Display for Answer {
    fn fmt(&self, f: &mut fmt::Formatter) -> fmt::Result {
        write!(f, "number {}, words", self.number)?;
        self.words.iter().try_for_each(|&word| match word {
            UNWRITTEN => write!(f, " -"),
            _ => write!(f, " {word}"),
        })
    }
}
