//! Ranges of frames, and document 01's bounds.

/// The frames from `start` to `end`, both included; empty where `start` is above `end`.
#[derive(Clone, Copy, PartialEq, Eq, Hash)]
pub struct Range {
    pub start: u64,
    pub end: u64,
}

impl Range {
    pub fn is_empty(self) -> bool {
        self.start > self.end
    }

    /// Whether two ranges with frames have one in common.
    pub fn meets(self, other: Range) -> bool {
        self.start <= other.end && other.start <= self.end
    }
}

/// The highest frame.
pub const TOP: u64 = (1 << 28) - 1;
/// Addresses are below this.
pub const ADDRESS_LIMIT: u64 = 1 << 40;
/// No call takes more bytes than this.
pub const BYTE_LIMIT: u64 = 1 << 40;

/// So many bytes are a frame.
pub const FRAME_SIZE: u64 = 4096;
