//! The record, its workspace and what a call answers, as C sees them.

pub const SLOTS: usize = 32;
pub const PAIRS: usize = 512;
pub const PART: usize = 2 * PAIRS;
pub const WORDS: usize = 4 * PART;

// The order of the lists in the record and of their tables in the workspace.
pub const GENERAL_FREE: usize = 0;
pub const RESERVED_FREE: usize = 1;
pub const GENERAL_REGIONS: usize = 2;
pub const RESERVED_REGIONS: usize = 3;

#[repr(C)]
#[derive(Clone, Copy, PartialEq, Debug)]
pub struct EarlyList {
    pub starts: [u64; SLOTS],
    pub ends: [u64; SLOTS],
    pub used: [u8; SLOTS],
}

#[repr(C)]
#[derive(Clone, Copy, PartialEq, Debug)]
pub struct FrameAllocator {
    pub sorted: u8,
    pub lists: [EarlyList; 4],
    pub lens: [usize; 4],
}

#[repr(C)]
#[derive(Clone, Copy, PartialEq, Debug)]
pub struct Answer {
    pub number: u64,
    pub range: [u64; 2],
    pub frame: u64,
    pub count: u64,
}

const UNUSED: EarlyList = EarlyList { starts: [1; SLOTS], ends: [0; SLOTS], used: [0; SLOTS] };

pub const FRESH: FrameAllocator = FrameAllocator { sorted: 0, lists: [UNUSED; 4], lens: [0; 4] };
