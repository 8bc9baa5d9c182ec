//! The record, the words of its tables, and what a call on them answers, as C sees them.

use super::state::{Lists, State, NAMES, SLOTS};
use crate::frames::Range;
use std::fmt;

/// So many words are a table's part of the workspace, two to an entry.
const PART: usize = 1024;

/// A workspace for a record in early form, which doesn't read it: words that keep no rule, and more
/// of them than a sort writes.
pub static UNREAD: [u64; 4101] = [0xfeed_face_cafe_beef; 4101];

#[repr(C)]
#[derive(Clone, Copy, PartialEq, Eq)]
pub struct EarlyList {
    starts: [u64; SLOTS],
    ends: [u64; SLOTS],
    used: [u8; SLOTS],
}

#[repr(C)]
#[derive(Clone, Copy, PartialEq, Eq)]
pub struct FrameAllocator {
    sorted: u8,
    lists: [EarlyList; 4],
    lens: [usize; 4],
}

#[repr(C)]
#[derive(Clone, Copy, PartialEq, Eq)]
pub struct Answer {
    pub number: u64,
    pub range: [u64; 2],
    pub frame: u64,
    pub count: u64,
}

/// What a boot answers, and the record after it.
#[derive(Clone, Copy, PartialEq, Eq)]
pub struct Called {
    pub answer: Answer,
    pub allocator: FrameAllocator,
}

impl Answer {
    /// A call that is accepted and grants nothing.
    pub const DONE: Answer = Answer { number: 0, range: [1, 0], frame: 0, count: 0 };

    pub fn refused(number: u64) -> Answer {
        Answer { number, ..Answer::DONE }
    }

    pub fn granted(range: Range) -> Answer {
        Answer { range: [range.start, range.end], ..Answer::DONE }
    }

    /// A question's answer.
    pub fn counted(count: u64) -> Answer {
        Answer { count, ..Answer::DONE }
    }

    /// 15, with the first absent frame and how many are absent.
    pub fn missing(frame: u64, count: u64) -> Answer {
        Answer { frame, count, ..Answer::refused(15) }
    }
}

impl FrameAllocator {
    /// The record of these lists in early form: an unused slot holds [1,0].
    fn storing(lists: &Lists) -> FrameAllocator {
        let list = |slots: &[Option<Range>; SLOTS]| EarlyList {
            starts: slots.map(|slot| slot.map_or(1, |range| range.start)),
            ends: slots.map(|slot| slot.map_or(0, |range| range.end)),
            used: slots.map(|slot| slot.is_some().into()),
        };
        FrameAllocator { sorted: 0, lists: lists.each_ref().map(list), lens: [0; 4] }
    }

    /// The record of a state. In sorted form it has the lists' lengths, and the entries are words.
    pub fn of(state: &State) -> FrameAllocator {
        match state {
            State::Early(lists) => FrameAllocator::storing(lists),
            State::Sorted(tables) => FrameAllocator {
                sorted: 1,
                lens: tables.each_ref().map(Vec::len),
                ..FrameAllocator::of(&State::empty(false))
            },
        }
    }
}

/// A record and its workspace, and the buffer of the last held list, if there was one.
#[derive(Clone, PartialEq, Eq)]
pub struct Stored {
    pub allocator: FrameAllocator,
    pub words: Vec<u64>,
    pub buffer: Vec<u64>,
}

impl Stored {
    /// The record of a state, in a workspace that held marks.
    pub fn new(state: &State) -> Stored {
        let allocator = FrameAllocator::of(&State::empty(false));
        let mut stored = Stored { allocator, words: UNREAD.to_vec(), buffer: Vec::new() };
        stored.store(state);
        stored
    }

    /// In sorted form each table's entries are written, then zeros up to the end of its part. The words
    /// past the four parts stay as they are, and in early form all of them do.
    pub fn store(&mut self, state: &State) {
        self.allocator = FrameAllocator::of(state);
        if let State::Sorted(tables) = state {
            for (part, table) in self.words.chunks_exact_mut(PART).zip(tables) {
                let (pairs, unused) = part.split_at_mut(2 * table.len());
                for (pair, range) in pairs.chunks_exact_mut(2).zip(table) {
                    pair.copy_from_slice(&[range.start, range.end]);
                }
                unused.fill(0);
            }
        }
    }

    /// Is made like another with as many words.
    pub fn put_back(&mut self, other: &Stored) {
        self.allocator = other.allocator;
        self.words.copy_from_slice(&other.words);
        self.buffer.clone_from(&other.buffer);
    }

    /// A buffer of so many words, which held marks, with these runs at its beginning.
    pub fn list(&mut self, words: usize, runs: &[Range]) {
        self.buffer = runs.iter().flat_map(|run| [run.start, run.end]).collect();
        self.buffer.resize(words, UNREAD[0]);
    }
}

impl fmt::Display for Answer {
    fn fmt(&self, f: &mut fmt::Formatter) -> fmt::Result {
        let Answer { number, range, frame, count } = self;
        write!(f, "number {number}, range {range:?}, frame {frame}, count {count}")
    }
}

impl fmt::Display for Called {
    fn fmt(&self, f: &mut fmt::Formatter) -> fmt::Result {
        write!(f, "{}; {}", self.answer, self.allocator)
    }
}

impl fmt::Display for FrameAllocator {
    fn fmt(&self, f: &mut fmt::Formatter) -> fmt::Result {
        let FrameAllocator { sorted, lists, lens } = self;
        write!(f, "sorted {sorted}, lengths {lens:?}")?;
        NAMES.iter().zip(lists).try_for_each(|(name, list)| write!(f, ", {name}{list}"))
    }
}

/// Every slot that is not as an unused one is.
impl fmt::Display for EarlyList {
    fn fmt(&self, f: &mut fmt::Formatter) -> fmt::Result {
        (0..SLOTS).try_for_each(|i| match (self.starts[i], self.ends[i], self.used[i]) {
            (1, 0, 0) => Ok(()),
            (start, end, 1) => write!(f, " {i}:[{start},{end}]"),
            (start, end, used) => write!(f, " {i}:[{start},{end}] used {used}"),
        })
    }
}

/// Of the words and the buffer the first that are neither 0 nor a mark, after their places.
impl fmt::Display for Stored {
    fn fmt(&self, f: &mut fmt::Formatter) -> fmt::Result {
        write!(f, "{}, words", self.allocator)?;
        write_words(f, &self.words)?;
        write!(f, ", buffer")?;
        write_words(f, &self.buffer)
    }
}

fn write_words(f: &mut fmt::Formatter, words: &[u64]) -> fmt::Result {
    const SHOWN: usize = 300;
    let words = words.iter().enumerate();
    let words = words.filter(|(_, word)| **word != 0 && **word != UNREAD[0]);
    words.take(SHOWN).try_for_each(|(i, word)| write!(f, " {i}:{word}"))
}
