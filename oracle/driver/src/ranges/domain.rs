//! Refusal 2 of the range and frame calls, decided from document 01:
//!
//! "A range or frame call given a frame above the top, an address of 2^40 or more, or more than 2^40
//! bytes (offsets may be any), or whose answer would end above the top, gives 2 before all else."
//!
//! The bounds are added by the port: the Rust takes higher frames and addresses, and has no refusal
//! to compare with. So the comparison never gives it these inputs.

use super::call::Call;
use crate::frames::{Range, ADDRESS_LIMIT, BYTE_LIMIT, TOP};

/// Why document 01 refuses a call.
#[derive(Clone, Copy)]
pub enum Refusal {
    Frame,
    Address,
    Bytes,
    End,
}

/// The first reason to refuse the call, in the order of document 01's sentence.
pub fn refusal(call: &Call) -> Option<Refusal> {
    match *call {
        Call::SizeInFrames { range } => frames(&[range]),
        Call::ContainsRange { range, other }
        | Call::Overlap { range, other }
        | Call::Merge { range, other }
        | Call::SplitRange { range, extract: other } => frames(&[range, other]),
        Call::ToExtended { range, frame } | Call::SplitAt { range, frame } => {
            frames(&[range, Range { start: frame, end: frame }])
        }
        Call::FromPhysAddr { address, bytes } => self::address(address)
            .or((bytes > BYTE_LIMIT).then_some(Refusal::Bytes))
            .or_else(|| end(address, bytes)),
        Call::OffsetOfAddress { range, address } => frames(&[range]).or(self::address(address)),
        Call::AddressAtOffset { range, .. } => frames(&[range]),
    }
}

/// Both ends count, of an empty range too.
fn frames(ranges: &[Range]) -> Option<Refusal> {
    let above = ranges.iter().any(|range| range.start > TOP || range.end > TOP);
    above.then_some(Refusal::Frame)
}

fn address(address: u64) -> Option<Refusal> {
    (address >= ADDRESS_LIMIT).then_some(Refusal::Address)
}

/// The one call whose answer can end above the top though its operands are in bounds: every other
/// answer ends at an operand or below one. No bytes give the empty range, which ends at 0.
fn end(address: u64, bytes: u64) -> Option<Refusal> {
    (bytes > 0 && address + (bytes - 1) >= ADDRESS_LIMIT).then_some(Refusal::End)
}
