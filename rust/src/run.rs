//! A list of calls as words, run at once: docs/RUN.md.

use crate::allocator::Kind;
use crate::range::FrameRange;
use crate::refusal::Refusal;
use crate::words::Words;

/// A call of a run: what it is, and two numbers. A boot names its areas by their places in the run's list of areas, in which an area is
/// three words: `<[u64; 3]>::from(area)`.
#[repr(C)]
#[derive(Clone, Copy, Debug, PartialEq, Eq)]
pub struct Call {
    what: u64,
    x: u64,
    y: u64,
}

// SAFETY: three words.
unsafe impl Words for Call {}

impl Call {
    const fn of(what: u64, x: u64, y: u64) -> Call {
        Call { what, x, y }
    }

    /// A boot of so many areas, from this one of the run's list on.
    pub const fn init(first: u64, count: u64) -> Call {
        Call::of(0, first, count)
    }

    /// The same, where the areas are in bytes.
    pub const fn init_from_bytes(first: u64, count: u64) -> Call {
        Call::of(1, first, count)
    }

    pub const fn convert_frame_allocator_to_heap_based() -> Call {
        Call::of(2, 0, 0)
    }

    pub const fn allocate_frames(num_frames: u64) -> Call {
        Call::of(3, num_frames, 0)
    }

    pub const fn allocate_frames_by_bytes(num_bytes: u64) -> Call {
        Call::of(4, num_bytes, 0)
    }

    pub const fn allocate_frames_at(frame: u64, num_frames: u64) -> Call {
        Call::of(5, frame, num_frames)
    }

    pub const fn allocate_frames_by_bytes_at(address: u64, num_bytes: u64) -> Call {
        Call::of(6, address, num_bytes)
    }

    pub const fn allocate_general_frames_at(frame: u64, num_frames: u64) -> Call {
        Call::of(7, frame, num_frames)
    }

    /// # Safety
    ///
    /// As for [`Allocator::return_frames`](crate::Allocator::return_frames): when the call is made, and each time that it is made, whoever the
    /// allocator that makes it had granted these frames to has let go of them.
    pub const unsafe fn return_frames(range: FrameRange) -> Call {
        Call::of(8, range.start, range.end)
    }

    pub const fn kind_of_range(range: FrameRange) -> Call {
        Call::of(9, range.start, range.end)
    }

    pub const fn free_total(kind: Kind) -> Call {
        Call::of(10, kind as u64, 0)
    }

    /// The held list, which goes to the run's buffer as [`crate::Allocator::held_list`] writes it.
    pub const fn held_list() -> Call {
        Call::of(11, 0, 0)
    }
}

/// What a call answers: document 01's number, range, frame and count. Only the library makes one, so that its number is document 01's.
#[repr(C)]
#[derive(Clone, Copy, Debug, PartialEq, Eq)]
pub struct Answer {
    pub(crate) number: u64,
    pub(crate) range: FrameRange,
    pub(crate) frame: u64,
    pub(crate) count: u64,
}

// SAFETY: five words.
unsafe impl Words for Answer {}

impl Answer {
    /// What a buffer for answers begins with. It is no call's answer: `run` hands back those of the calls that it made.
    pub const BLANK: Answer = Answer { number: 0, range: FrameRange::EMPTY, frame: 0, count: 0 };

    /// 0, or the refusal's.
    pub fn number(self) -> u64 {
        self.number
    }

    /// The granted range, or `FrameRange::EMPTY`.
    pub fn range(self) -> FrameRange {
        self.range
    }

    /// The first missing frame of 15, or 0.
    pub fn frame(self) -> u64 {
        self.frame
    }

    /// The free total, the number of held runs, the kind (0 general, 1 reserved), how many frames 15 misses, or 0.
    pub fn count(self) -> u64 {
        self.count
    }

    /// The answer of an accepted call, or its refusal.
    pub fn accepted(self) -> Result<Answer, Refusal> {
        Refusal::of(&self).map_or(Ok(self), Err)
    }
}

/// Why a run ended.
#[derive(Clone, Copy, Debug, PartialEq, Eq)]
pub enum RunEnd {
    /// Every call was made.
    Done,
    /// The next call is none: it is a boot, and its areas are not in the list.
    Damaged,
    /// There is no room for the next call's answer.
    NoRoom,
}

/// The answers of the calls that a run made, and why it ended: it may have made fewer than were asked for.
#[must_use]
#[derive(Clone, Copy, Debug, PartialEq, Eq)]
pub struct Ran<'a> {
    pub answers: &'a [Answer],
    pub end: RunEnd,
}
