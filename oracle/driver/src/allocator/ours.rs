//! Our side: the calls of the static library.

use super::area::{Boot, Unit};
use super::call::Call;
use super::record::{Answer, Called, FrameAllocator, Stored, UNREAD};
use crate::frames::Range;

#[rustfmt::skip]
extern "C" {
    fn likhmout_init(a: *mut FrameAllocator, areas: *const u64, areas_len: usize, words: *const u64, len: usize) -> Answer;
    fn likhmout_init_from_bytes(a: *mut FrameAllocator, areas: *const u64, areas_len: usize, words: *const u64, len: usize) -> Answer;
    fn likhmout_convert_frame_allocator_to_heap_based(a: *mut FrameAllocator, words: *mut u64, len: usize) -> Answer;
    fn likhmout_allocate_frames(a: *mut FrameAllocator, words: *mut u64, len: usize, count: u64) -> Answer;
    fn likhmout_allocate_frames_by_bytes(a: *mut FrameAllocator, words: *mut u64, len: usize, bytes: u64) -> Answer;
    fn likhmout_allocate_frames_at(a: *mut FrameAllocator, words: *mut u64, len: usize, frame: u64, count: u64) -> Answer;
    fn likhmout_allocate_frames_by_bytes_at(a: *mut FrameAllocator, words: *mut u64, len: usize, address: u64, bytes: u64) -> Answer;
    fn likhmout_allocate_general_frames_at(a: *mut FrameAllocator, words: *mut u64, len: usize, frame: u64, count: u64) -> Answer;
    fn likhmout_return_frames(a: *mut FrameAllocator, words: *mut u64, len: usize, start: u64, end: u64) -> Answer;
    fn likhmout_kind_of_range(a: *const FrameAllocator, words: *const u64, len: usize, start: u64, end: u64) -> Answer;
    fn likhmout_free_total(a: *const FrameAllocator, words: *const u64, len: usize, kind: u64) -> Answer;
    fn likhmout_held_list(a: *const FrameAllocator, words: *const u64, len: usize, buffer: *mut u64, buffer_len: usize) -> Answer;
}

/// Makes the call on the record where it lies.
pub fn answer(call: &Call, stored: &mut Stored) -> Answer {
    let Stored { allocator: a, words, buffer } = stored;
    let (words_read, words, len) = (words.as_ptr(), words.as_mut_ptr(), words.len());
    // SAFETY: the library reads and writes the record and the words, and no more than their length.
    unsafe {
        match *call {
            Call::Boot(ref boot) => init(boot.unit, a, &encoded(boot), words_read, len),
            Call::Sort => likhmout_convert_frame_allocator_to_heap_based(a, words, len),
            Call::Count(count) => likhmout_allocate_frames(a, words, len, count),
            Call::CountBytes(bytes) => likhmout_allocate_frames_by_bytes(a, words, len, bytes),
            Call::At(frame, count) => likhmout_allocate_frames_at(a, words, len, frame, count),
            Call::AtBytes(address, bytes) => {
                likhmout_allocate_frames_by_bytes_at(a, words, len, address, bytes)
            }
            Call::GeneralAt(frame, count) => {
                likhmout_allocate_general_frames_at(a, words, len, frame, count)
            }
            Call::Return(Range { start, end }) => likhmout_return_frames(a, words, len, start, end),
            Call::Kind(Range { start, end }) => {
                likhmout_kind_of_range(a, words_read, len, start, end)
            }
            Call::Total(reserved) => likhmout_free_total(a, words_read, len, reserved.into()),
            Call::Held(size) => {
                *buffer = vec![UNREAD[0]; size];
                likhmout_held_list(a, words_read, len, buffer.as_mut_ptr(), size)
            }
        }
    }
}

/// Boots with words that are only read.
pub fn boot(boot: &Boot, before: FrameAllocator, words: &[u64]) -> Called {
    boot_areas(boot.unit, before, &encoded(boot), words)
}

/// The same boot in another dress, which changes nothing: kinds are any numbers but 0, and one or
/// two words stand after the last whole area.
pub fn boot_in_disguise(boot: &Boot, before: FrameAllocator, words: &[u64]) -> Called {
    const KINDS: [u64; 3] = [2, 1 << 32, u64::MAX];
    let mut areas = encoded(boot);
    for (i, kind) in areas.iter_mut().skip(2).step_by(3).enumerate().filter(|(_, k)| **k != 0) {
        *kind = KINDS[i % KINDS.len()];
    }
    areas.extend([7, 3].iter().take(1 + boot.areas.len() % 2));
    boot_areas(boot.unit, before, &areas, words)
}

/// Three words to an area: its two numbers and its kind.
pub fn encoded(boot: &Boot) -> Vec<u64> {
    boot.areas.iter().flat_map(|area| [area.first, area.second, area.reserved.into()]).collect()
}

fn boot_areas(unit: Unit, before: FrameAllocator, areas: &[u64], words: &[u64]) -> Called {
    let mut allocator = before;
    // SAFETY: the library only reads the words, and no more than their length.
    let answer = unsafe { init(unit, &mut allocator, areas, words.as_ptr(), words.len()) };
    Called { answer, allocator }
}

/// The library reads so many words, and writes none of them.
unsafe fn init(
    unit: Unit,
    a: &mut FrameAllocator,
    areas: &[u64],
    words: *const u64,
    len: usize,
) -> Answer {
    match unit {
        Unit::Frames => likhmout_init(a, areas.as_ptr(), areas.len(), words, len),
        Unit::Bytes => likhmout_init_from_bytes(a, areas.as_ptr(), areas.len(), words, len),
    }
}
