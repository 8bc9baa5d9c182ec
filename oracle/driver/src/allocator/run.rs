//! Our side once more: lists of calls, each made by one call of the static library.

use super::area::{Boot, Unit};
use super::call::Call;
use super::ours::encoded;
use super::record::{Answer, FrameAllocator, Stored, UNREAD};
use crate::frames::Range;

/// How many calls were made, and why no more: 0 says that they were all.
#[repr(C)]
#[derive(Clone, Copy, PartialEq, Eq)]
struct Counts {
    made: usize,
    end: u64,
}

#[rustfmt::skip]
extern "C" {
    fn likhmout_run(a: *mut FrameAllocator, words: *mut u64, len: usize, calls: *const u64, calls_len: usize, areas: *const u64, areas_len: usize, answers: *mut u64, answers_len: usize, held: *mut u64, held_len: usize) -> Counts;
}

/// An answer is so many words.
const ANSWER: usize = 5;

/// Makes the calls, of which only the last may be a held list. True if each answer is the one that is
/// expected, and nothing is written after the last.
pub fn run(calls: &[Call], expected: &[Answer], stored: &mut Stored) -> bool {
    let mut areas = Vec::new();
    let words: Vec<u64> = calls.iter().flat_map(|call| three_words(call, &mut areas)).collect();
    let mut answers = vec![UNREAD[0]; ANSWER * calls.len() + 2];
    let held = if let Some(Call::Held(size)) = calls.last() { *size } else { 0 };
    stored.buffer = vec![UNREAD[0]; held];
    let Stored { allocator, words: lent, buffer } = stored;
    // SAFETY: the library reads and writes what it is lent, and no more than the lengths say.
    #[rustfmt::skip]
    let counts = unsafe {
        likhmout_run(allocator, lent.as_mut_ptr(), lent.len(), words.as_ptr(), words.len(), areas.as_ptr(), areas.len(), answers.as_mut_ptr(), answers.len(), buffer.as_mut_ptr(), held)
    };
    let mut words: Vec<u64> = expected.iter().flat_map(five_words).collect();
    words.extend([UNREAD[0]; 2]);
    counts == Counts { made: calls.len(), end: 0 } && answers == words
}

fn five_words(answer: &Answer) -> [u64; ANSWER] {
    let Answer { number, range: [start, end], frame, count } = *answer;
    [number, start, end, frame, count]
}

/// A call as docs/RUN.md writes it. A boot adds its areas.
fn three_words(call: &Call, areas: &mut Vec<u64>) -> [u64; 3] {
    match *call {
        Call::Boot(ref boot) => boot_words(boot, areas),
        Call::Sort => [2, 0, 0],
        Call::Count(count) => [3, count, 0],
        Call::CountBytes(bytes) => [4, bytes, 0],
        Call::At(frame, count) => [5, frame, count],
        Call::AtBytes(address, bytes) => [6, address, bytes],
        Call::GeneralAt(frame, count) => [7, frame, count],
        Call::Return(Range { start, end }) => [8, start, end],
        Call::Kind(Range { start, end }) => [9, start, end],
        Call::Total(reserved) => [10, reserved.into(), 0],
        Call::Held(_) => [11, 0, 0],
    }
}

fn boot_words(boot: &Boot, areas: &mut Vec<u64>) -> [u64; 3] {
    let unit = match boot.unit {
        Unit::Frames => 0,
        Unit::Bytes => 1,
    };
    let first = areas.len() as u64 / 3;
    areas.extend(encoded(boot));
    [unit, first, boot.areas.len() as u64]
}
