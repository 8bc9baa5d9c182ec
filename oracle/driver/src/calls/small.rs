//! Small worlds: boots in five frames, and the calls that are made after them.

use crate::allocator::area::{general, reserved, Area, Boot};
use crate::allocator::call::{Call, BUFFER};
use crate::frames::{Range, TOP};

/// Areas lie in these frames, and requests and returns reach one frame further.
const FRAMES: u64 = 5;

/// Every boot of up to two general and up to two reserved areas. An empty area would add nothing: a general one
/// gives no piece, and with a reserved one the boot is refused.
pub fn boots_of_few_areas() -> Vec<Boot> {
    let lists = |area: fn(u64, u64) -> Area| {
        let areas: Vec<Area> = ranges(FRAMES).iter().map(|r| area(r.start, r.end)).collect();
        let pairs = areas.iter().flat_map(|one| areas.iter().map(|two| vec![*one, *two]));
        let ones = areas.iter().map(|area| vec![*area]);
        [Vec::new()].into_iter().chain(ones).chain(pairs).collect::<Vec<Vec<Area>>>()
    };
    let reserved = lists(reserved);
    let boots = |general: Vec<Area>| {
        reserved
            .iter()
            .map(|reserved| Boot::of_frames(&[&general[..], reserved].concat()))
            .collect::<Vec<Boot>>()
    };
    lists(general).into_iter().flat_map(boots).collect()
}

/// Every list of areas, however many, that ascends and in which no two overlap.
pub fn boots_that_ascend() -> Vec<Boot> {
    let mut maps = vec![Vec::new()];
    let mut next = 0;
    while next < maps.len() {
        let first = maps[next].last().map_or(0, |area: &Area| area.second + 1);
        for Range { start, end } in ranges(FRAMES).into_iter().filter(|r| r.start >= first) {
            for area in [general(start, end), reserved(start, end)] {
                maps.push([&maps[next][..], &[area]].concat());
            }
        }
        next += 1;
    }
    maps.iter().map(|map| Boot::of_frames(map)).collect()
}

/// The sort, every count, and every request at an address and every return.
pub fn changes() -> Vec<Call> {
    let mut changes = vec![Call::Sort];
    changes.extend((1..=FRAMES + 1).map(Call::Count));
    for range @ Range { start, end } in ranges(FRAMES + 1) {
        let count = end - start + 1;
        changes.extend([Call::At(start, count), Call::GeneralAt(start, count)]);
        changes.push(Call::Return(range));
    }
    changes
}

/// What changes nothing: the kind of every range, empty ones and ones above the top too, both totals, held
/// lists, no frames, and frames above the top. A boot changes nothing where a list has an entry.
pub fn questions(can_boot: bool) -> Vec<Call> {
    let frames = [0, 1, 2, 3, 4, 5, TOP, TOP + 1];
    let ranges = frames.iter().flat_map(|start| frames.map(|end| Range { start: *start, end }));
    let mut questions: Vec<Call> = ranges.map(Call::Kind).collect();
    questions.extend([Call::Total(false), Call::Total(true)]);
    questions.extend([BUFFER - 1, BUFFER, BUFFER + 5].map(Call::Held));
    questions.extend([Call::Count(0), Call::At(0, 0), Call::GeneralAt(0, 0)]);
    questions.extend([Call::At(TOP, 2), Call::GeneralAt(TOP, 2)]);
    let returned = [Range { start: 1, end: 0 }, Range { start: TOP, end: TOP + 1 }];
    questions.extend(returned.map(Call::Return));
    if !can_boot {
        questions.push(Call::Boot(Boot::of_frames(&[general(0, 0), reserved(1, 1)])));
    }
    questions
}

/// The ranges with a frame of so many frames.
fn ranges(frames: u64) -> Vec<Range> {
    (0..frames).flat_map(|start| (start..frames).map(move |end| Range { start, end })).collect()
}
