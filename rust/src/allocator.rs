//! The allocator: a record, and its workspace, owned or lent.

use crate::range::FrameRange;
use crate::raw;
use crate::refusal::Refusal;
use crate::run::{Answer, Call, Ran, RunEnd};
use crate::words::{self, Words};
use crate::workspace::Workspace;
use core::slice;

/// Whether memory is for any use, or handed out only at an address that is named.
#[repr(u64)]
#[derive(Clone, Copy, Debug, PartialEq, Eq)]
pub enum Kind {
    General = 0,
    Reserved = 1,
}

/// An area of the boot map: its first and last frame.
#[repr(C)]
#[derive(Clone, Copy, Debug, PartialEq, Eq)]
pub struct Area {
    pub start: u64,
    pub end: u64,
    pub kind: Kind,
}

// SAFETY: three words; a kind is one.
unsafe impl Words for Area {}

/// An area of a boot map in bytes.
#[repr(C)]
#[derive(Clone, Copy, Debug, PartialEq, Eq)]
pub struct ByteArea {
    pub address: u64,
    pub bytes: u64,
    pub kind: Kind,
}

// SAFETY: three words; a kind is one.
unsafe impl Words for ByteArea {}

impl From<Area> for [u64; 3] {
    fn from(area: Area) -> [u64; 3] {
        [area.start, area.end, area.kind as u64]
    }
}

impl From<ByteArea> for [u64; 3] {
    fn from(area: ByteArea) -> [u64; 3] {
        [area.address, area.bytes, area.kind as u64]
    }
}

/// A record with its workspace. A workspace of fewer than [`crate::WORKSPACE_WORDS`] words is refused by every call, with 3.
///
/// Grants are plain numbers here, which anybody can copy, so a return is `unsafe`. [`crate::Shared`] returns in safe code.
///
/// With its words it has 34,984 bytes; over a slice that it borrows, 2,232.
pub struct Allocator<W> {
    record: raw::FrameAllocator,
    workspace: W,
}

// SAFETY of the calls: the record is ours. What it holds, words and numbers may be any. A slice's pointer and length go together, and no
// two of those that a call is lent overlap, since they are borrowed here.
impl<W: Workspace> Allocator<W> {
    /// A fresh record, which has no frames until it is booted. The words may be any.
    pub fn new(workspace: W) -> Self {
        let record = unsafe { raw::likhmout_fresh() };
        Allocator { record, workspace }
    }

    /// The workspace, with the lists in it once the allocator is sorted. The allocator ends here; a new one over the same words knows
    /// nothing of what this one granted.
    pub fn into_workspace(self) -> W {
        self.workspace
    }

    /// The test that every call makes first: 3 where the workspace is short, 11 where the list rules are broken.
    pub fn check(&self) -> Result<(), Refusal> {
        let words = self.workspace.words();
        let number = unsafe { raw::likhmout_check(&self.record, words.as_ptr(), words.len()) };
        Answer { number, ..Answer::BLANK }.accepted().map(|_| ())
    }

    /// Boots from the areas. Where a list has an entry already, as after a boot, that is refused with 10.
    pub fn init(&mut self, areas: &[Area]) -> Result<(), Refusal> {
        let (words, areas) = (self.workspace.words(), words::of(areas));
        let answer = unsafe {
            raw::likhmout_init(
                &mut self.record,
                areas.as_ptr(),
                areas.len(),
                words.as_ptr(),
                words.len(),
            )
        };
        answer.accepted().map(|_| ())
    }

    /// The same, where the areas are in bytes: each is the frames that it touches.
    pub fn init_from_bytes(&mut self, areas: &[ByteArea]) -> Result<(), Refusal> {
        let (words, areas) = (self.workspace.words(), words::of(areas));
        let answer = unsafe {
            raw::likhmout_init_from_bytes(
                &mut self.record,
                areas.as_ptr(),
                areas.len(),
                words.as_ptr(),
                words.len(),
            )
        };
        answer.accepted().map(|_| ())
    }

    /// From early to sorted form, in which the lists are in the workspace.
    pub fn convert_frame_allocator_to_heap_based(&mut self) -> Result<(), Refusal> {
        let words = self.workspace.words_mut();
        let answer = unsafe {
            raw::likhmout_convert_frame_allocator_to_heap_based(
                &mut self.record,
                words.as_mut_ptr(),
                words.len(),
            )
        };
        answer.accepted().map(|_| ())
    }

    /// A request: the library's function, and the numbers that it is asked with.
    fn requested(
        &mut self,
        request: impl FnOnce(*mut raw::FrameAllocator, *mut u64, usize) -> Answer,
    ) -> Result<FrameRange, Refusal> {
        let words = self.workspace.words_mut();
        let answer = request(&mut self.record, words.as_mut_ptr(), words.len());
        answer.accepted().map(|accepted| accepted.range)
    }

    /// So many general frames, wherever they are.
    pub fn allocate_frames(&mut self, num_frames: u64) -> Result<FrameRange, Refusal> {
        self.requested(|a, words, len| unsafe {
            raw::likhmout_allocate_frames(a, words, len, num_frames)
        })
    }

    /// General frames for so many bytes.
    pub fn allocate_frames_by_bytes(&mut self, num_bytes: u64) -> Result<FrameRange, Refusal> {
        self.requested(|a, words, len| unsafe {
            raw::likhmout_allocate_frames_by_bytes(a, words, len, num_bytes)
        })
    }

    /// The frames from this one on. Where no list knows them they become a reserved region, for good.
    pub fn allocate_frames_at(
        &mut self,
        frame: u64,
        num_frames: u64,
    ) -> Result<FrameRange, Refusal> {
        self.requested(|a, words, len| unsafe {
            raw::likhmout_allocate_frames_at(a, words, len, frame, num_frames)
        })
    }

    /// The frames of so many bytes from this address on.
    pub fn allocate_frames_by_bytes_at(
        &mut self,
        address: u64,
        num_bytes: u64,
    ) -> Result<FrameRange, Refusal> {
        self.requested(|a, words, len| unsafe {
            raw::likhmout_allocate_frames_by_bytes_at(a, words, len, address, num_bytes)
        })
    }

    /// The frames from this one on, from the general list alone: the reserved side never grows.
    pub fn allocate_general_frames_at(
        &mut self,
        frame: u64,
        num_frames: u64,
    ) -> Result<FrameRange, Refusal> {
        self.requested(|a, words, len| unsafe {
            raw::likhmout_allocate_general_frames_at(a, words, len, frame, num_frames)
        })
    }

    /// The frames of the range are free again.
    ///
    /// # Safety
    ///
    /// Whoever these frames were granted to has let go of them, and returns them once. A frame that is free is refused (19), but one that
    /// was granted again meanwhile is taken from its new holder, and then granted twice.
    pub unsafe fn return_frames(&mut self, range: FrameRange) -> Result<(), Refusal> {
        let words = self.workspace.words_mut();
        let answer = unsafe {
            raw::likhmout_return_frames(
                &mut self.record,
                words.as_mut_ptr(),
                words.len(),
                range.start,
                range.end,
            )
        };
        answer.accepted().map(|_| ())
    }

    /// Reserved where any frame of the range is in a reserved region.
    pub fn kind_of_range(&self, range: FrameRange) -> Result<Kind, Refusal> {
        let words = self.workspace.words();
        let answer = unsafe {
            raw::likhmout_kind_of_range(
                &self.record,
                words.as_ptr(),
                words.len(),
                range.start,
                range.end,
            )
        };
        let accepted = answer.accepted()?;
        Ok(if accepted.count == 0 { Kind::General } else { Kind::Reserved })
    }

    /// How many frames of the kind are free.
    pub fn free_total(&self, kind: Kind) -> Result<u64, Refusal> {
        let words = self.workspace.words();
        let answer = unsafe {
            raw::likhmout_free_total(&self.record, words.as_ptr(), words.len(), kind as u64)
        };
        answer.accepted().map(|accepted| accepted.count)
    }

    /// The maximal runs of general frames that are not free, at the beginning of the buffer, in ascending order of first frame. A
    /// buffer of fewer than [`crate::HELD_WORDS`] words is refused with 3.
    pub fn held_list<'b>(&self, buffer: &'b mut [u64]) -> Result<&'b [FrameRange], Refusal> {
        let words = self.workspace.words();
        let answer = unsafe {
            raw::likhmout_held_list(
                &self.record,
                words.as_ptr(),
                words.len(),
                buffer.as_mut_ptr(),
                buffer.len(),
            )
        };
        let runs = answer.accepted()?.count as usize;
        let pairs = &buffer[..2 * runs];
        // SAFETY: a range is two words, and so many pairs of words lie there.
        Ok(unsafe { slice::from_raw_parts(pairs.as_ptr().cast(), runs) })
    }

    /// Makes the calls one after the other. The rules are tested once, so that each call costs less than by itself. Areas are those
    /// that boots name, three words each; `held` is the held list's buffer. Each call has one answer in `answers`.
    pub fn run<'b>(
        &mut self,
        calls: &[Call],
        areas: &[[u64; 3]],
        answers: &'b mut [Answer],
        held: &mut [u64],
    ) -> Ran<'b> {
        let calls = words::of(calls);
        let areas = areas.as_flattened();
        // SAFETY: each word of an answer may be any.
        let room = unsafe { words::of_mut(answers) };
        let workspace = self.workspace.words_mut();
        let counts = unsafe {
            raw::likhmout_run(
                &mut self.record,
                workspace.as_mut_ptr(),
                workspace.len(),
                calls.as_ptr(),
                calls.len(),
                areas.as_ptr(),
                areas.len(),
                room.as_mut_ptr(),
                room.len(),
                held.as_mut_ptr(),
                held.len(),
            )
        };
        let end = match counts.end {
            0 => RunEnd::Done,
            1 => RunEnd::Damaged,
            _ => RunEnd::NoRoom,
        };
        Ran { answers: &answers[..counts.made], end }
    }
}

#[cfg(test)]
mod tests {
    use super::*;

    /// What the library takes for each field is what lies there.
    #[test]
    fn a_fresh_record_lies_as_declared() {
        let record = unsafe { raw::likhmout_fresh() };
        assert_eq!(record.sorted, 0);
        for list in [
            record.general_free,
            record.reserved_free,
            record.general_regions,
            record.reserved_regions,
        ] {
            assert_eq!(list.starts, [1; raw::SLOTS]);
            assert_eq!(list.ends, [0; raw::SLOTS]);
            assert_eq!(list.used, [0; raw::SLOTS]);
        }
        let lengths = [record.general_free_len, record.reserved_free_len];
        assert_eq!(lengths, [0; 2]);
        assert_eq!([record.general_regions_len, record.reserved_regions_len], [0; 2]);
    }

    #[test]
    fn each_list_lies_in_its_own_field() {
        let mut allocator = Allocator::new([0; crate::WORKSPACE_WORDS]);
        let general = |start, end| Area { start, end, kind: Kind::General };
        let reserved = |start, end| Area { start, end, kind: Kind::Reserved };
        let areas = [general(0, 9), reserved(100, 104), reserved(200, 204), reserved(201, 206)];
        allocator.init(&areas).unwrap();
        allocator.allocate_frames_at(102, 1).unwrap();
        let entry = |list: &raw::EarlyList, slot: usize| {
            (list.used[slot], list.starts[slot], list.ends[slot])
        };
        assert_eq!(entry(&allocator.record.general_free, 0), (1, 0, 9));
        assert_eq!(entry(&allocator.record.general_regions, 0), (1, 0, 9));
        assert_eq!(entry(&allocator.record.reserved_regions, 1), (1, 200, 206));
        assert_eq!(entry(&allocator.record.reserved_free, 0), (1, 100, 101));
        assert_eq!(entry(&allocator.record.reserved_free, 2), (1, 103, 104));

        allocator.convert_frame_allocator_to_heap_based().unwrap();
        let record = &allocator.record;
        assert_eq!(record.sorted, 1);
        assert_eq!((record.general_free_len, record.reserved_free_len), (1, 3));
        assert_eq!((record.general_regions_len, record.reserved_regions_len), (1, 2));
        assert_eq!(allocator.into_workspace()[1024..1030], [100, 101, 103, 104, 200, 206]);
    }
}
