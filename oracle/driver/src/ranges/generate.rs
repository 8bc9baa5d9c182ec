//! Which calls are compared: small worlds whole, and random calls aimed at the corners.

use super::call::{Call, Kind};
use crate::frames::{Range, ADDRESS_LIMIT, BYTE_LIMIT, FRAME_SIZE, TOP};
use crate::random::Random;

/// The frames of each small world: the lowest ones, those around the top, and frames that lie far
/// apart, so that ranges of nearly all frames occur.
pub const WORLDS: [[u64; 9]; 3] = [
    [0, 1, 2, 3, 4, 5, 6, 7, 8],
    [TOP - 5, TOP - 4, TOP - 3, TOP - 2, TOP - 1, TOP, TOP + 1, TOP + 2, TOP + 3],
    [0, 1, 2, 1 << 27, TOP - 1, TOP, TOP + 1, 1 << 32, u64::MAX],
];

/// Every call of a small world: all its ranges, empty ones too, all pairs of them, each with all
/// its frames, and with addresses and sizes at page edges and limits.
pub fn small_world(frames: [u64; 9]) -> Vec<Call> {
    let ranges = frames.map(|start| frames.map(|end| Range { start, end }));
    let ranges = ranges.as_flattened();
    let mut addresses = page_edges(frames);
    addresses.extend([ADDRESS_LIMIT - 1, ADDRESS_LIMIT, u64::MAX]);
    let mut sizes = page_edges(WORLDS[0]);
    sizes.extend([BYTE_LIMIT - 1, BYTE_LIMIT, BYTE_LIMIT + 1, u64::MAX]);

    let mut calls = Vec::new();
    for &range in ranges {
        calls.push(Call::SizeInFrames { range });
        for &other in ranges {
            calls.push(Call::ContainsRange { range, other });
            calls.push(Call::Overlap { range, other });
            calls.push(Call::Merge { range, other });
            calls.push(Call::SplitRange { range, extract: other });
        }
        for frame in frames {
            calls.push(Call::ToExtended { range, frame });
            calls.push(Call::SplitAt { range, frame });
        }
        for &address in &addresses {
            calls.push(Call::OffsetOfAddress { range, address });
        }
        for &offset in &sizes {
            calls.push(Call::AddressAtOffset { range, offset });
        }
    }
    for &address in &addresses {
        for &bytes in &sizes {
            calls.push(Call::FromPhysAddr { address, bytes });
        }
    }
    calls
}

/// The first two bytes and the last of each frame.
fn page_edges(frames: [u64; 9]) -> Vec<u64> {
    let edges =
        |frame: u64| [0, 1, FRAME_SIZE - 1].map(|byte| frame.wrapping_mul(FRAME_SIZE) + byte);
    frames.into_iter().flat_map(edges).collect()
}

/// A random call of the given kind.
pub fn random_call(kind: Kind, random: &mut Random) -> Call {
    let range = range(random);
    match kind {
        Kind::SizeInFrames => Call::SizeInFrames { range },
        Kind::ContainsRange => Call::ContainsRange { range, other: neighbour(range, random) },
        Kind::Overlap => Call::Overlap { range, other: neighbour(range, random) },
        Kind::ToExtended => Call::ToExtended { range, frame: frame_by(range, random) },
        Kind::FromPhysAddr => {
            let address = address_by(range, random);
            Call::FromPhysAddr { address, bytes: bytes_from(address, random) }
        }
        Kind::OffsetOfAddress => {
            Call::OffsetOfAddress { range, address: address_by(range, random) }
        }
        Kind::AddressAtOffset => Call::AddressAtOffset { range, offset: offset_by(range, random) },
        Kind::Merge => Call::Merge { range, other: neighbour(range, random) },
        Kind::SplitRange => Call::SplitRange { range, extract: neighbour(range, random) },
        Kind::SplitAt => Call::SplitAt { range, frame: frame_by(range, random) },
    }
}

/// A range at the bottom, below the top, somewhere between, or from anywhere to anywhere; one in
/// eight is turned round, and so is empty unless it has one frame.
fn range(random: &mut Random) -> Range {
    let ends = match random.below(4) {
        0 => [random.below(12), random.below(12)],
        1 => [TOP - random.below(12), TOP - random.below(12)],
        2 => {
            let first = random.below(TOP - 12);
            [first + random.below(12), first + random.below(12)]
        }
        _ => [random.below(TOP + 1), random.below(TOP + 1)],
    };
    let [low, high] = [ends[0].min(ends[1]), ends[0].max(ends[1])];
    let [start, end] = if random.once_in(8) { [high, low] } else { [low, high] };
    Range { start: now_and_then_too_high(start, random), end: now_and_then_too_high(end, random) }
}

/// One in 32 becomes a frame above the top: just above it, beside a power of 2 at which narrower
/// arithmetic would lose bits, or at the end of 64 bits.
fn now_and_then_too_high(frame: u64, random: &mut Random) -> u64 {
    if !random.once_in(32) {
        return frame;
    }
    match random.below(3) {
        0 => TOP + 1 + random.below(3),
        1 => {
            let power = random.pick(&[1 << 29, 1 << 32, 1 << 40, 1 << 52, 1 << 63]);
            random.near(power)
        }
        _ => u64::MAX - random.below(3),
    }
}

/// A range that has to do with `range`: touching it, with ends beside its ends, or any other one.
fn neighbour(range: Range, random: &mut Random) -> Range {
    match random.below(8) {
        0 => {
            let start = range.end.wrapping_add(1);
            Range { start, end: start.wrapping_add(random.below(4)) }
        }
        1 => {
            let end = range.start.wrapping_sub(1);
            Range { start: end.saturating_sub(random.below(4)), end }
        }
        2 => self::range(random),
        3 => Range { start: frame_by(range, random), end: frame_by(range, random) },
        _ => Range { start: random.near(range.start), end: random.near(range.end) },
    }
}

/// A frame beside an end of the range, inside it, or anywhere.
fn frame_by(range: Range, random: &mut Random) -> u64 {
    let frame = match random.below(6) {
        0 | 1 => random.near(range.start),
        2 | 3 => random.near(range.end),
        4 if !range.is_empty() => {
            range.start + random.below((range.end - range.start).saturating_add(1))
        }
        _ => random.below(TOP + 1),
    };
    now_and_then_too_high(frame, random)
}

/// An address in a frame that has to do with the range, mostly at a page edge; or beside the limit.
fn address_by(range: Range, random: &mut Random) -> u64 {
    match random.below(12) {
        0 => random.near(ADDRESS_LIMIT),
        1 => random.below(ADDRESS_LIMIT),
        2 => u64::MAX - random.below(3),
        _ => frame_by(range, random).wrapping_mul(FRAME_SIZE).wrapping_add(byte_in_page(random)),
    }
}

fn byte_in_page(random: &mut Random) -> u64 {
    let anywhere = random.below(FRAME_SIZE);
    random.pick(&[0, 1, FRAME_SIZE - 2, FRAME_SIZE - 1, anywhere])
}

/// An offset beside the range's size in bytes, at a page edge inside, anywhere, at the end of 64
/// bits, or where adding it to the range's start address would wrap.
fn offset_by(range: Range, random: &mut Random) -> u64 {
    let frames = if range.is_empty() { 0 } else { (range.end - range.start).saturating_add(1) };
    match random.below(8) {
        0..=2 => random.near(frames.wrapping_mul(FRAME_SIZE)),
        3 | 4 => {
            let page = random.below(frames.max(1));
            page.wrapping_mul(FRAME_SIZE).wrapping_add(byte_in_page(random))
        }
        5 => random.any(),
        6 => random.near(u64::MAX),
        _ => random.near(range.start.wrapping_mul(FRAME_SIZE).wrapping_neg()),
    }
}

/// Bytes beside 0, beside a multiple of the frame size, beside the limit, beside what is left up to
/// the highest address, or any number.
fn bytes_from(address: u64, random: &mut Random) -> u64 {
    match random.below(8) {
        0 => random.below(3),
        1..=3 => {
            let pages = random.below(6);
            random.near(pages * FRAME_SIZE)
        }
        4 => random.near(BYTE_LIMIT),
        5 => random.near(ADDRESS_LIMIT.wrapping_sub(address)),
        6 => random.below(BYTE_LIMIT),
        _ => random.any(),
    }
}
