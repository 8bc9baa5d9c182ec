//! The library's functions and structs as `include/likhmout.h` has them. A slice is a pointer and its number of words.

use crate::range::FrameRange;
use crate::run::Answer;
use core::mem::{offset_of, size_of};

pub const SLOTS: usize = 32;

/// A list in early form. A slot that is not used holds `[1,0]`. A flag is 0 or 1; any other byte breaks the list rules.
#[repr(C)]
#[derive(Clone, Copy)]
pub struct EarlyList {
    pub starts: [u64; SLOTS],
    pub ends: [u64; SLOTS],
    pub used: [u8; SLOTS],
}

#[repr(C)]
#[derive(Clone, Copy)]
pub struct FrameAllocator {
    pub sorted: u8,
    pub general_free: EarlyList,
    pub reserved_free: EarlyList,
    pub general_regions: EarlyList,
    pub reserved_regions: EarlyList,
    pub general_free_len: usize,
    pub reserved_free_len: usize,
    pub general_regions_len: usize,
    pub reserved_regions_len: usize,
}

/// How many calls a run made, and why it ended.
#[repr(C)]
pub struct RunCounts {
    pub made: usize,
    pub end: u64,
}

const _: () = {
    assert!(size_of::<usize>() == 8);
    assert!(size_of::<FrameRange>() == 16 && offset_of!(FrameRange, end) == 8);
    assert!(size_of::<Answer>() == 40 && offset_of!(Answer, range) == 8);
    assert!(offset_of!(Answer, frame) == 24 && offset_of!(Answer, count) == 32);
    assert!(size_of::<EarlyList>() == 544);
    assert!(offset_of!(EarlyList, ends) == 256 && offset_of!(EarlyList, used) == 512);
    assert!(size_of::<FrameAllocator>() == 2216 && offset_of!(FrameAllocator, general_free) == 8);
    assert!(offset_of!(FrameAllocator, reserved_free) == 552);
    assert!(offset_of!(FrameAllocator, general_regions) == 1096);
    assert!(offset_of!(FrameAllocator, reserved_regions) == 1640);
    assert!(offset_of!(FrameAllocator, general_free_len) == 2184);
    assert!(offset_of!(FrameAllocator, reserved_free_len) == 2192);
    assert!(offset_of!(FrameAllocator, general_regions_len) == 2200);
    assert!(offset_of!(FrameAllocator, reserved_regions_len) == 2208);
    assert!(size_of::<RunCounts>() == 16 && offset_of!(RunCounts, end) == 8);
};

type Record = *mut FrameAllocator;
type Lent = *const FrameAllocator;
type Words = *mut u64;
type Read = *const u64;

extern "C" {
    pub fn likhmout_fresh() -> FrameAllocator;
    pub fn likhmout_check(a: Lent, words: Read, len: usize) -> u64;
    pub fn likhmout_init(
        a: Record,
        areas: Read,
        areas_len: usize,
        words: Read,
        len: usize,
    ) -> Answer;
    pub fn likhmout_init_from_bytes(
        a: Record,
        areas: Read,
        areas_len: usize,
        words: Read,
        len: usize,
    ) -> Answer;
    pub fn likhmout_convert_frame_allocator_to_heap_based(
        a: Record,
        words: Words,
        len: usize,
    ) -> Answer;
    pub fn likhmout_allocate_frames(a: Record, words: Words, len: usize, num_frames: u64)
        -> Answer;
    pub fn likhmout_allocate_frames_by_bytes(
        a: Record,
        words: Words,
        len: usize,
        num_bytes: u64,
    ) -> Answer;
    pub fn likhmout_allocate_frames_at(
        a: Record,
        words: Words,
        len: usize,
        frame: u64,
        num_frames: u64,
    ) -> Answer;
    pub fn likhmout_allocate_frames_by_bytes_at(
        a: Record,
        words: Words,
        len: usize,
        address: u64,
        num_bytes: u64,
    ) -> Answer;
    pub fn likhmout_allocate_general_frames_at(
        a: Record,
        words: Words,
        len: usize,
        frame: u64,
        num_frames: u64,
    ) -> Answer;
    pub fn likhmout_return_frames(
        a: Record,
        words: Words,
        len: usize,
        start: u64,
        end: u64,
    ) -> Answer;
    pub fn likhmout_kind_of_range(a: Lent, words: Read, len: usize, start: u64, end: u64)
        -> Answer;
    pub fn likhmout_free_total(a: Lent, words: Read, len: usize, kind: u64) -> Answer;
    pub fn likhmout_held_list(
        a: Lent,
        words: Read,
        len: usize,
        buffer: Words,
        buffer_len: usize,
    ) -> Answer;
    pub fn likhmout_run(
        a: Record,
        words: Words,
        len: usize,
        calls: Read,
        calls_len: usize,
        areas: Read,
        areas_len: usize,
        answers: Words,
        answers_len: usize,
        held: Words,
        held_len: usize,
    ) -> RunCounts;

    pub fn likhmout_size_in_frames(start: u64, end: u64, out: *mut [u64; 2]) -> u64;
    pub fn likhmout_contains_range(
        start: u64,
        end: u64,
        other_start: u64,
        other_end: u64,
        out: *mut [u64; 1],
    ) -> u64;
    pub fn likhmout_overlap(
        start: u64,
        end: u64,
        other_start: u64,
        other_end: u64,
        out: *mut [u64; 3],
    ) -> u64;
    pub fn likhmout_to_extended(start: u64, end: u64, frame: u64, out: *mut [u64; 3]) -> u64;
    pub fn likhmout_from_phys_addr(address: u64, bytes: u64, out: *mut [u64; 3]) -> u64;
    pub fn likhmout_offset_of_address(
        start: u64,
        end: u64,
        address: u64,
        out: *mut [u64; 2],
    ) -> u64;
    pub fn likhmout_address_at_offset(start: u64, end: u64, offset: u64, out: *mut [u64; 2])
        -> u64;
    pub fn likhmout_merge(
        start: u64,
        end: u64,
        other_start: u64,
        other_end: u64,
        out: *mut [u64; 3],
    ) -> u64;
    pub fn likhmout_split_range(
        start: u64,
        end: u64,
        extract_start: u64,
        extract_end: u64,
        out: *mut [u64; 7],
    ) -> u64;
    pub fn likhmout_split_at(start: u64, end: u64, frame: u64, out: *mut [u64; 5]) -> u64;
}
