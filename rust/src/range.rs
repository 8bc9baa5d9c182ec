//! Ranges of frames.

use crate::raw;
use crate::refusal::Refusal;
use core::fmt;

/// The frames from `start` to `end`, both included; none where `start` is above `end`.
#[repr(C)]
#[derive(Clone, Copy, Debug, PartialEq, Eq, Hash)]
pub struct FrameRange {
    pub start: u64,
    pub end: u64,
}

/// 2: a frame above the top, an address of 2^40 or more, more than 2^40 bytes, or an answer that would end above the top.
#[derive(Clone, Copy, Debug, PartialEq, Eq)]
pub struct OutOfBounds;

impl From<OutOfBounds> for Refusal {
    fn from(_: OutOfBounds) -> Refusal {
        Refusal::OutOfBounds
    }
}

impl fmt::Display for OutOfBounds {
    fn fmt(&self, f: &mut fmt::Formatter<'_>) -> fmt::Result {
        Refusal::OutOfBounds.fmt(f)
    }
}

impl core::error::Error for OutOfBounds {}

/// What `split_range` yields. An absent part is `FrameRange::EMPTY`.
#[derive(Clone, Copy, Debug, PartialEq, Eq)]
pub struct Split {
    pub before: FrameRange,
    pub middle: FrameRange,
    pub after: FrameRange,
}

/// What `split_at` yields. One half may be `FrameRange::EMPTY`.
#[derive(Clone, Copy, Debug, PartialEq, Eq)]
pub struct Halves {
    pub first: FrameRange,
    pub second: FrameRange,
}

/// Calls the library, which writes all of `out`; a first word of 1 says that there is a value.
fn asked<const N: usize>(
    call: impl FnOnce(*mut [u64; N]) -> u64,
) -> Result<Option<[u64; N]>, OutOfBounds> {
    let mut out = [0; N];
    if call(&mut out) != 0 {
        return Err(OutOfBounds);
    }
    Ok((out[0] == 1).then_some(out))
}

fn range_at(out: &[u64], at: usize) -> FrameRange {
    FrameRange { start: out[at], end: out[at + 1] }
}

// SAFETY of the calls: the numbers may be any, and `out` has the length that the signature says.
impl FrameRange {
    /// "The empty range is the constant `[1,0]`."
    pub const EMPTY: FrameRange = FrameRange { start: 1, end: 0 };

    pub const fn new(start: u64, end: u64) -> FrameRange {
        FrameRange { start, end }
    }

    pub const fn is_empty(self) -> bool {
        self.start > self.end
    }

    /// The frames that so many bytes from this address on touch.
    pub fn from_phys_addr(address: u64, bytes: u64) -> Result<FrameRange, OutOfBounds> {
        let found = asked(|out| unsafe { raw::likhmout_from_phys_addr(address, bytes, out) })?;
        Ok(found.map_or(FrameRange::EMPTY, |out| range_at(&out, 1)))
    }

    pub fn size_in_frames(self) -> Result<u64, OutOfBounds> {
        let found =
            asked(|out| unsafe { raw::likhmout_size_in_frames(self.start, self.end, out) })?;
        Ok(found.map_or(0, |out| out[1]))
    }

    /// Whether all frames of the other range are here; false for an empty one.
    pub fn contains_range(self, other: FrameRange) -> Result<bool, OutOfBounds> {
        let found = asked(|out| unsafe {
            raw::likhmout_contains_range(self.start, self.end, other.start, other.end, out)
        })?;
        Ok(found.is_some())
    }

    pub fn overlap(self, other: FrameRange) -> Result<Option<FrameRange>, OutOfBounds> {
        let found = asked(|out| unsafe {
            raw::likhmout_overlap(self.start, self.end, other.start, other.end, out)
        })?;
        Ok(found.map(|out| range_at(&out, 1)))
    }

    /// The range, extended so that it has this frame.
    pub fn to_extended(self, frame: u64) -> Result<FrameRange, OutOfBounds> {
        let found =
            asked(|out| unsafe { raw::likhmout_to_extended(self.start, self.end, frame, out) })?;
        Ok(found.map_or(FrameRange::EMPTY, |out| range_at(&out, 1)))
    }

    pub fn offset_of_address(self, address: u64) -> Result<Option<u64>, OutOfBounds> {
        let found = asked(|out| unsafe {
            raw::likhmout_offset_of_address(self.start, self.end, address, out)
        })?;
        Ok(found.map(|out| out[1]))
    }

    pub fn address_at_offset(self, offset: u64) -> Result<Option<u64>, OutOfBounds> {
        let found = asked(|out| unsafe {
            raw::likhmout_address_at_offset(self.start, self.end, offset, out)
        })?;
        Ok(found.map(|out| out[1]))
    }

    /// One range of two that touch; none where a side is empty or they don't.
    pub fn merge(self, other: FrameRange) -> Result<Option<FrameRange>, OutOfBounds> {
        let found = asked(|out| unsafe {
            raw::likhmout_merge(self.start, self.end, other.start, other.end, out)
        })?;
        Ok(found.map(|out| range_at(&out, 1)))
    }

    /// None where the extract is empty or not inside.
    pub fn split_range(self, extract: FrameRange) -> Result<Option<Split>, OutOfBounds> {
        let found = asked(|out| unsafe {
            raw::likhmout_split_range(self.start, self.end, extract.start, extract.end, out)
        })?;
        Ok(found.map(|out| Split {
            before: range_at(&out, 1),
            middle: range_at(&out, 3),
            after: range_at(&out, 5),
        }))
    }

    /// None where the frame is neither here nor right after the end, and for an empty range.
    pub fn split_at(self, frame: u64) -> Result<Option<Halves>, OutOfBounds> {
        let found =
            asked(|out| unsafe { raw::likhmout_split_at(self.start, self.end, frame, out) })?;
        Ok(found.map(|out| Halves { first: range_at(&out, 1), second: range_at(&out, 3) }))
    }
}
