//! Our side: the calls of the static library, on a record and words that are lent.

use crate::record::{Answer, FrameAllocator};
use crate::world::World;

/// What a run hands back: how many calls were made, and why it ended; 0 is that every call was made.
#[repr(C)]
#[derive(PartialEq, Debug)]
pub struct RunCounts {
    pub made: usize,
    pub end: u64,
}

#[rustfmt::skip]
extern "C" {
    fn likhmout_init(a: *mut FrameAllocator, areas: *const u64, areas_len: usize, words: *const u64, len: usize) -> Answer;
    fn likhmout_convert_frame_allocator_to_heap_based(a: *mut FrameAllocator, words: *mut u64, len: usize) -> Answer;
    fn likhmout_allocate_frames(a: *mut FrameAllocator, words: *mut u64, len: usize, count: u64) -> Answer;
    fn likhmout_allocate_frames_at(a: *mut FrameAllocator, words: *mut u64, len: usize, frame: u64, count: u64) -> Answer;
    fn likhmout_return_frames(a: *mut FrameAllocator, words: *mut u64, len: usize, start: u64, end: u64) -> Answer;
    fn likhmout_held_list(a: *const FrameAllocator, words: *const u64, len: usize, buffer: *mut u64, buffer_len: usize) -> Answer;
    fn likhmout_check(a: *const FrameAllocator, words: *const u64, len: usize) -> u64;
    fn likhmout_run(
        a: *mut FrameAllocator, words: *mut u64, len: usize, calls: *const u64, calls_len: usize, areas: *const u64, areas_len: usize,
        answers: *mut u64, answers_len: usize, held: *mut u64, held_len: usize,
    ) -> RunCounts;
}

// SAFETY of each: the library reads and writes the record and what is lent beside it, and no more than its length.

pub fn boot(w: &mut World, areas: &[u64]) -> Answer {
    unsafe { likhmout_init(&mut w.record, areas.as_ptr(), areas.len(), w.words.as_ptr(), w.words.len()) }
}

pub fn sort(w: &mut World) -> Answer {
    unsafe { likhmout_convert_frame_allocator_to_heap_based(&mut w.record, w.words.as_mut_ptr(), w.words.len()) }
}

pub fn count(w: &mut World, frames: u64) -> Answer {
    unsafe { likhmout_allocate_frames(&mut w.record, w.words.as_mut_ptr(), w.words.len(), frames) }
}

pub fn at(w: &mut World, frame: u64, frames: u64) -> Answer {
    unsafe { likhmout_allocate_frames_at(&mut w.record, w.words.as_mut_ptr(), w.words.len(), frame, frames) }
}

pub fn give_back(w: &mut World, start: u64, end: u64) -> Answer {
    unsafe { likhmout_return_frames(&mut w.record, w.words.as_mut_ptr(), w.words.len(), start, end) }
}

pub fn held_list(w: &World, buffer: &mut [u64]) -> Answer {
    unsafe { likhmout_held_list(&w.record, w.words.as_ptr(), w.words.len(), buffer.as_mut_ptr(), buffer.len()) }
}

pub fn check(a: &FrameAllocator, words: &[u64]) -> u64 {
    unsafe { likhmout_check(a, words.as_ptr(), words.len()) }
}

/// A list of calls: three words each, and five to an answer (docs/RUN.md).
pub struct Run {
    pub calls: Vec<u64>,
    pub areas: Vec<u64>,
    pub answers: Vec<u64>,
    pub held: Vec<u64>,
}

impl Run {
    pub fn new(calls: Vec<u64>, areas: Vec<u64>) -> Run {
        let answers = vec![0; calls.len() / 3 * 5];
        Run { calls, areas, answers, held: vec![0; 2048] }
    }

    pub fn make(&mut self, w: &mut World) {
        let Run { calls, areas, answers, held } = self;
        let (words, len) = (w.words.as_mut_ptr(), w.words.len());
        let ran = unsafe {
            likhmout_run(
                &mut w.record, words, len, calls.as_ptr(), calls.len(), areas.as_ptr(), areas.len(),
                answers.as_mut_ptr(), answers.len(), held.as_mut_ptr(), held.len(),
            )
        };
        assert_eq!(ran, RunCounts { made: calls.len() / 3, end: 0 });
    }
}
