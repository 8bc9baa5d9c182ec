//! Random lists of calls with a question after each, aimed at the ends of chunks and regions and at full lists.

use crate::allocator::area::{Area, Boot};
use crate::allocator::call::{Call, BUFFER};
use crate::allocator::state::{
    State, GENERAL_FREE, GENERAL_REGIONS, RESERVED_FREE, RESERVED_REGIONS,
};
use crate::boots::generate::{byte_in_frame, in_bytes, random_boot, tiles};
use crate::frames::{Range, ADDRESS_LIMIT, BYTE_LIMIT, FRAME_SIZE, TOP};
use crate::random::Random;
use std::collections::VecDeque;

/// A list of calls to be made; each call is chosen by the lists as they are.
pub struct Plan {
    /// These come first.
    opening: VecDeque<Call>,
    /// Then so many calls that make a list longer, with others among them.
    filling: Filling,
    longer: u64,
    /// Then so many calls of any kind.
    any: u64,
    /// Whether a question is next.
    asks: bool,
}

#[derive(Clone, Copy)]
enum Filling {
    /// Requests that leave a part of a chunk on either side.
    Split(usize),
    /// Requests for frames above all regions.
    Grow,
    /// Returns of frames between held ones. The first chunks of a list are taken whole before.
    Give(usize),
}

impl Filling {
    fn any(random: &mut Random) -> Filling {
        match random.below(5) {
            0 => Filling::Split(GENERAL_FREE),
            1 => Filling::Split(RESERVED_FREE),
            2 => Filling::Give(GENERAL_FREE),
            3 => Filling::Give(RESERVED_FREE),
            _ => Filling::Grow,
        }
    }
}

impl Plan {
    /// One in four fills a list of 32, and one in 150 a list of 512, which takes long.
    pub fn new(random: &mut Random) -> Plan {
        let filling = Filling::any(random);
        let any = 1 + random.below(40);
        if random.once_in(150) {
            return Plan::filling_tables(filling, random);
        }
        if random.once_in(4) {
            let opening = [Call::Boot(wide_boot(100, random))].into();
            return Plan { opening, filling, longer: 34, any, asks: false };
        }
        Plan { opening: opening(random), filling, longer: 0, any, asks: false }
    }

    /// Fills a list of 512.
    pub fn of_full_tables(random: &mut Random) -> Plan {
        let filling = Filling::any(random);
        Plan::filling_tables(filling, random)
    }

    fn filling_tables(filling: Filling, random: &mut Random) -> Plan {
        let opening = [Call::Boot(wide_boot(1_500, random)), Call::Sort].into();
        Plan { opening, filling, longer: 560, any: 100, asks: false }
    }

    pub fn next(&mut self, state: &State, random: &mut Random) -> Option<Call> {
        let asks = self.asks;
        self.asks = !asks;
        if asks {
            return Some(question(state, random));
        }
        self.next_change(state, random)
    }

    /// The next call that is no question.
    pub fn next_change(&mut self, state: &State, random: &mut Random) -> Option<Call> {
        if let Some(call) = self.opening.pop_front() {
            return Some(call);
        }
        if self.longer > 0 {
            self.longer -= 1;
            return Some(match self.filling {
                _ if random.once_in(16) => request(state, random),
                Filling::Split(list) => split(list, state, random),
                Filling::Grow => grow(state, random),
                Filling::Give(list) => give(list, state, random),
            });
        }
        self.any = self.any.checked_sub(1)?;
        Some(match random.below(48) {
            0 => Call::Sort,
            1 => Call::Boot(some_boot(random)),
            2..=14 => Call::Return(range_to_return(state, random)),
            _ => request(state, random),
        })
    }
}

/// None, or a boot, a sort, or both in either order.
fn opening(random: &mut Random) -> VecDeque<Call> {
    let boot = Call::Boot(some_boot(random));
    match random.below(16) {
        0 => [].into(),
        1 => [Call::Sort].into(),
        2 | 3 => [Call::Sort, boot].into(),
        4..=8 => [boot, Call::Sort].into(),
        _ => [boot].into(),
    }
}

/// Mostly areas side by side, so that chunks touch.
fn some_boot(random: &mut Random) -> Boot {
    let boot =
        if random.once_in(3) { random_boot(random) } else { Boot::of_frames(&tiles(random)) };
    if random.once_in(4) {
        in_bytes(boot, random)
    } else {
        boot
    }
}

/// Two general and two reserved areas of so many frames.
fn wide_boot(width: u64, random: &mut Random) -> Boot {
    let first = random.below(3);
    let ends = |i: u64| (first + i * width, first + (i + 1) * width - 1);
    let area = |i: u64| Area { first: ends(i).0, second: ends(i).1, reserved: i % 2 == 1 };
    Boot::of_frames(&[0, 1, 2, 3].map(area))
}

/// A frame out of the longest chunk of a list, with something left on either side if it has
/// frames enough.
fn split(list: usize, state: &State, random: &mut Random) -> Call {
    let chunks = state.entries(list);
    let Some(chunk) = chunks.iter().max_by_key(|chunk| chunk.end - chunk.start) else {
        return request(state, random);
    };
    let start = (chunk.start + 1 + random.below(2)).min(chunk.end);
    match random.below(3) {
        0 if list == GENERAL_FREE => Call::GeneralAt(start, 1),
        1 => Call::AtBytes(start * FRAME_SIZE, FRAME_SIZE),
        _ => Call::At(start, 1),
    }
}

/// A frame or two a little above all regions.
fn grow(state: &State, random: &mut Random) -> Call {
    let regions = [GENERAL_REGIONS, RESERVED_REGIONS].map(|list| state.entries(list));
    let highest = regions.iter().flatten().map(|region| region.end).max().unwrap_or(0);
    Call::At(highest + 1 + random.below(3), 1 + random.below(2))
}

/// A frame or two from inside the longest held run, or where there is none, the longest chunk is taken.
fn give(list: usize, state: &State, random: &mut Random) -> Call {
    let runs = state.not_free(list);
    match runs.iter().max_by_key(|run| run.end - run.start) {
        Some(run) if run.end - run.start >= 4 => {
            let start = run.start + 1 + random.below(2);
            Call::Return(Range { start, end: start })
        }
        _ => match state.entries(list).iter().max_by_key(|chunk| chunk.end - chunk.start) {
            Some(chunk) => Call::At(chunk.start, chunk.end - chunk.start + 1),
            None => request(state, random),
        },
    }
}

/// A run of held frames, a part of one, a part that reaches one frame too far, a run and what is above it;
/// or any range.
fn range_to_return(state: &State, random: &mut Random) -> Range {
    let list = random.pick(&[GENERAL_FREE as u64, RESERVED_FREE as u64]) as usize;
    let Some(run) = some(&state.not_free(list), random) else {
        let (start, count) = frames(state, random);
        return Range { start, end: start.wrapping_add(count).wrapping_sub(1) };
    };
    let inside = run.start + random.below(run.end - run.start + 1);
    match random.below(16) {
        0..=3 => run,
        4..=6 => Range { start: run.start, end: inside },
        7..=9 => Range { start: inside, end: run.end },
        10 | 11 => Range { start: inside, end: inside },
        12 => Range { start: run.start.saturating_sub(1), end: inside },
        13 => Range { start: inside, end: run.end + 1 + random.below(3) },
        14 => Range { start: inside + 1, end: random.pick(&[0, inside, TOP + 1]) },
        _ => Range { start: inside, end: random.pick(&[TOP, TOP + 1, u64::MAX]) },
    }
}

fn question(state: &State, random: &mut Random) -> Call {
    match random.below(8) {
        0 => Call::Total(false),
        1 => Call::Total(true),
        2 | 3 => Call::Held(random.pick(&[BUFFER as u64 - 1, BUFFER as u64, 3000]) as usize),
        _ => Call::Kind(range_to_ask(state, random)),
    }
}

/// Frames as a request would name them; now and then the other way round, so that the range is empty.
fn range_to_ask(state: &State, random: &mut Random) -> Range {
    let (start, count) = frames(state, random);
    let end = start.wrapping_add(count).wrapping_sub(1);
    if random.once_in(16) {
        Range { start: end, end: start }
    } else {
        Range { start, end }
    }
}

fn request(state: &State, random: &mut Random) -> Call {
    match random.below(20) {
        0..=2 => Call::Count(count(state, random)),
        3 | 4 => Call::CountBytes(bytes(count(state, random), random)),
        5..=11 => {
            let (start, count) = frames(state, random);
            Call::At(start, count)
        }
        12..=14 => {
            let (start, count) = frames(state, random);
            let (address, bytes) = in_bytes_at(start, count, random);
            Call::AtBytes(address, bytes)
        }
        _ => {
            let (start, count) = frames(state, random);
            Call::GeneralAt(start, count)
        }
    }
}

/// About as many frames as some chunk has, a few, none, or far too many.
fn count(state: &State, random: &mut Random) -> u64 {
    let chunks = state.entries(GENERAL_FREE);
    match (random.below(16), some(&chunks, random)) {
        (0, _) => 0,
        (1, _) => random.pick(&[TOP + 1, 1 << 32, 1 << 52, 1 << 63, u64::MAX - 1, u64::MAX]),
        (2..=8, Some(chunk)) => beside(chunk.end - chunk.start + 1, random),
        _ => 1 + random.below(4),
    }
}

/// Bytes that round up to about so many frames; now and then about the limit.
fn bytes(count: u64, random: &mut Random) -> u64 {
    if random.once_in(16) {
        return random.near(BYTE_LIMIT);
    }
    let frames = count.wrapping_mul(FRAME_SIZE);
    match random.below(4) {
        0 => frames.wrapping_add(random.below(2)),
        1 => frames.wrapping_sub(random.below(FRAME_SIZE)),
        _ => frames.saturating_sub(random.below(2)),
    }
}

/// A start beside an end of some entry of some list, and a count up to an end of this entry or of one
/// of the next above it, one more or one less. Now and then no frame, or frames above the top.
fn frames(state: &State, random: &mut Random) -> (u64, u64) {
    let list = random.below(4) as usize;
    let mut entries = state.entries(list);
    entries.sort_by_key(|entry| entry.start);
    let Some(at) = (!entries.is_empty()).then(|| random.below(entries.len() as u64) as usize)
    else {
        return (random.below(12), 1 + random.below(6));
    };
    let entry = entries[at];
    let start = match random.below(8) {
        0 | 1 => entry.start,
        2 => beside(entry.start, random),
        3 => beside(entry.end, random),
        4 => entry.end,
        5 => entry.end + 1 + random.below(2),
        6 => entry.start.saturating_sub(1 + random.below(3)),
        _ => entry.start + random.below(entry.end - entry.start + 1),
    };
    let last = entries[(at + random.below(4) as usize).min(entries.len() - 1)];
    let end = match random.below(6) {
        0 | 1 => last.end,
        2 => beside(last.end, random),
        3 => last.end + 1,
        4 => start,
        _ => start + random.below(6),
    };
    let count = (end + 1).saturating_sub(start);
    match random.below(64) {
        0 => (start, 0),
        1 => (start, random.pick(&[TOP + 1 - start.min(TOP), TOP + 2, 1 << 52, u64::MAX])),
        2 => (random.pick(&[TOP, TOP + 1, 1 << 40, 1 << 52, u64::MAX]), random.below(3)),
        3 => (TOP - random.below(3), 1 + random.below(3)),
        _ => (start, count.max(1)),
    }
}

/// The same frames in bytes, from a byte of the first to a byte of the last; 0 frames are 0 bytes. Now
/// and then an address or a size about its limit.
fn in_bytes_at(start: u64, count: u64, random: &mut Random) -> (u64, u64) {
    match random.below(32) {
        0 => return (random.near(ADDRESS_LIMIT), 1 + random.below(2)),
        1 => return (start.wrapping_mul(FRAME_SIZE), random.near(BYTE_LIMIT)),
        _ => {}
    }
    let byte = byte_in_frame(random);
    let address = start.wrapping_mul(FRAME_SIZE).wrapping_add(byte);
    let last = count.wrapping_mul(FRAME_SIZE).wrapping_sub(byte_in_frame(random));
    (address, if count == 0 { 0 } else { last.wrapping_sub(byte).max(1) })
}

/// At most 2 off the value, and not below 0.
fn beside(value: u64, random: &mut Random) -> u64 {
    (value + random.below(5)).saturating_sub(2)
}

fn some(ranges: &[Range], random: &mut Random) -> Option<Range> {
    match ranges.len() as u64 {
        0 => None,
        count => Some(ranges[random.below(count) as usize]),
    }
}
