//! Their side of the range and frame calls: the Theseus crates. Only `departures.rs` asks them outside
//! document 01's domain.

use super::call::{Answer, Call};
use crate::frames::Range;
use frame_allocator::FreeFrames;
use memory_structs::{Frame, FrameRange, PhysicalAddress};

pub fn answer(call: &Call) -> Answer {
    let answer = match *call {
        Call::SizeInFrames { range } => {
            Some(Answer::yes(&[frame_range(range).size_in_frames() as u64]))
        }
        Call::ContainsRange { range, other } => {
            frame_range(range).contains_range(&frame_range(other)).then(|| Answer::yes(&[]))
        }
        Call::Overlap { range, other } => {
            frame_range(range).overlap(&frame_range(other)).map(|r| Answer::yes(&ends(&r)))
        }
        Call::ToExtended { range, frame } => {
            Some(Answer::yes(&ends(&frame_range(range).to_extended(self::frame(frame)))))
        }
        Call::FromPhysAddr { address, bytes } => {
            let range = FrameRange::from_phys_addr(self::address(address), bytes as usize);
            Some(Answer::yes(&ends(&range)))
        }
        Call::OffsetOfAddress { range, address } => frame_range(range)
            .offset_of_address(self::address(address))
            .map(|offset| Answer::yes(&[offset as u64])),
        Call::AddressAtOffset { range, offset } => frame_range(range)
            .address_at_offset(offset as usize)
            .map(|address| Answer::yes(&[address.value() as u64])),
        Call::Merge { range, other } => {
            FreeFrames::window_merge(frame_range(range), frame_range(other))
                .map(|r| Answer::yes(&ends(&r)))
        }
        Call::SplitRange { range, extract } => {
            FreeFrames::window_split_range(frame_range(range), frame_range(extract)).map(
                |(before, middle, after)| {
                    let parts = [part(before), ends(&middle), part(after)];
                    Answer::yes(parts.as_flattened())
                },
            )
        }
        Call::SplitAt { range, frame } => {
            FreeFrames::window_split_at(frame_range(range), self::frame(frame))
                .map(|(first, second)| Answer::yes([ends(&first), ends(&second)].as_flattened()))
        }
    };
    answer.unwrap_or(Answer::no(call.kind()))
}

/// Whether the allocator's four lists are as empty as they began: no `Frames` has been dropped.
pub fn lists_are_untouched() -> bool {
    FreeFrames::window_list_lengths() == [0; 4]
}

pub fn address(address: u64) -> PhysicalAddress {
    PhysicalAddress::new(address as usize).expect("a physical address, below 2^52")
}

/// A frame by its number; the sources make one of an address only.
pub fn frame(number: u64) -> Frame {
    Frame::containing_address(address(number * 4096))
}

fn frame_range(range: Range) -> FrameRange {
    FrameRange::new(frame(range.start), frame(range.end))
}

pub fn ends(range: &FrameRange) -> [u64; 2] {
    [range.start().number() as u64, range.end().number() as u64]
}

/// A part that is none shows [1,0].
fn part(range: Option<FrameRange>) -> [u64; 2] {
    range.map_or([1, 0], |range| ends(&range))
}
