//! Document 01's numbers for what the Rust replies.

use super::panics::Reason;
use super::record::Answer;
use super::theirs::Reply;

/// The errors, by a part of each that no other has.
const ERRORS: [(&str, u64); 7] = [
    ("cannot allocate zero frames", 1),
    ("already initialized", 10),
    ("outside of this frame allocator's range", 12),
    ("was in use", 13),
    ("out of physical address space", 14),
    ("overlapped with existing reserved regions", 16),
    ("Failed to insert non-overlapping physical memory region", 18),
];

pub fn answer(reply: Reply) -> Answer {
    match reply {
        Reply::Done => Answer::DONE,
        Reply::Granted(range) => Answer::granted(range),
        Reply::Counted(count) => Answer::counted(count),
        Reply::OnlySome(frame, count) => Answer::missing(frame, count),
        Reply::Err(error) => Answer::refused(of_error(error)),
        Reply::Panic(reason) => Answer::refused(of_panic(reason)),
        Reply::Nothing => panic!("document 01 decides where no general chunk is free"),
    }
}

fn of_error(error: &str) -> u64 {
    let found = ERRORS.iter().find(|(part, _)| error.contains(part));
    found.unwrap_or_else(|| panic!("an unforeseen error: {error}")).1
}

fn of_panic(reason: Reason) -> u64 {
    match reason {
        Reason::ReservedAreas => 5,
        Reason::PiecesMeet | Reason::PieceMeetsReserved => 6,
        Reason::Pieces => 7,
        Reason::TwoChunks => 17,
    }
}
