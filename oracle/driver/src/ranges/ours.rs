//! Our side of the range and frame calls: the static library of the crate `exports`.

use super::call::{Answer, Call, UNWRITTEN, WORDS};

// Each returns the number, and writes 1 or 0 and then the values from `out` on.
#[rustfmt::skip]
extern "C" {
    fn likhmout_size_in_frames(start: u64, end: u64, out: *mut u64) -> u64;
    fn likhmout_contains_range(start: u64, end: u64, other_start: u64, other_end: u64, out: *mut u64) -> u64;
    fn likhmout_overlap(start: u64, end: u64, other_start: u64, other_end: u64, out: *mut u64) -> u64;
    fn likhmout_to_extended(start: u64, end: u64, frame: u64, out: *mut u64) -> u64;
    fn likhmout_from_phys_addr(address: u64, bytes: u64, out: *mut u64) -> u64;
    fn likhmout_offset_of_address(start: u64, end: u64, address: u64, out: *mut u64) -> u64;
    fn likhmout_address_at_offset(start: u64, end: u64, offset: u64, out: *mut u64) -> u64;
    fn likhmout_merge(start: u64, end: u64, other_start: u64, other_end: u64, out: *mut u64) -> u64;
    fn likhmout_split_range(start: u64, end: u64, extract_start: u64, extract_end: u64, out: *mut u64) -> u64;
    fn likhmout_split_at(start: u64, end: u64, frame: u64, out: *mut u64) -> u64;
}

pub fn answer(call: &Call) -> Answer {
    let mut words = [UNWRITTEN; WORDS];
    let out = words.as_mut_ptr();
    // SAFETY: the calls write at most seven words from `out` on, and `words` has eight.
    let number = unsafe {
        match *call {
            Call::SizeInFrames { range: r } => likhmout_size_in_frames(r.start, r.end, out),
            Call::ContainsRange { range: r, other: o } => {
                likhmout_contains_range(r.start, r.end, o.start, o.end, out)
            }
            Call::Overlap { range: r, other: o } => {
                likhmout_overlap(r.start, r.end, o.start, o.end, out)
            }
            Call::ToExtended { range: r, frame } => {
                likhmout_to_extended(r.start, r.end, frame, out)
            }
            Call::FromPhysAddr { address, bytes } => likhmout_from_phys_addr(address, bytes, out),
            Call::OffsetOfAddress { range: r, address } => {
                likhmout_offset_of_address(r.start, r.end, address, out)
            }
            Call::AddressAtOffset { range: r, offset } => {
                likhmout_address_at_offset(r.start, r.end, offset, out)
            }
            Call::Merge { range: r, other: o } => {
                likhmout_merge(r.start, r.end, o.start, o.end, out)
            }
            Call::SplitRange { range: r, extract: e } => {
                likhmout_split_range(r.start, r.end, e.start, e.end, out)
            }
            Call::SplitAt { range: r, frame } => likhmout_split_at(r.start, r.end, frame, out),
        }
    };
    Answer { number, words }
}
