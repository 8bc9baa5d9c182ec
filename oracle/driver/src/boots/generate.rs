//! Random boots, aimed at what can come of a boot.

use crate::allocator::area::{general, reserved, Area, Boot, Unit};
use crate::frames::{ADDRESS_LIMIT, BYTE_LIMIT, FRAME_SIZE, TOP};
use crate::random::Random;

/// A program that replays boots takes no more areas than this in one.
pub const MOST_AREAS: usize = 40;

/// Boots in frames: a few areas that may lie in any way; a row of tiles; one area full of holes; too
/// many reserved areas. Now and then an empty reserved area or an end above the top comes in.
pub fn random_boot(random: &mut Random) -> Boot {
    let mut areas = match random.below(8) {
        0 | 1 => few(random),
        2 | 3 => tiles(random),
        4 => holes(random),
        5 => blocks(random),
        6 => many_general(random),
        _ => many_reserved(random),
    };
    if random.once_in(8) {
        mix_kinds(&mut areas, random);
    }
    if random.once_in(12) {
        let start = frame_in(&areas, random) + 1;
        put_in(&mut areas, reserved(start, start - 1 - random.below(start.min(3))), random);
    }
    if random.once_in(12) {
        let area = outside(frame_in(&areas, random), random);
        put_in(&mut areas, area, random);
    }
    areas.truncate(MOST_AREAS);
    Boot { unit: Unit::Frames, areas }
}

/// Some general and some reserved areas of a few frames, near to one another; one in eight empty.
fn few(random: &mut Random) -> Vec<Area> {
    let base = base(16, random);
    let counts = [random.below(5), random.below(6)];
    let mut areas = Vec::new();
    for (kind, count) in counts.into_iter().enumerate() {
        for _ in 0..count {
            let (a, b) = (base + random.below(16), base + random.below(16));
            let turned = kind == 0 && random.once_in(8);
            let (first, second) = if turned { (a.max(b), a.min(b)) } else { (a.min(b), a.max(b)) };
            areas.push(Area { first, second, reserved: kind == 1 });
        }
    }
    areas
}

/// Up to 40 areas, each above the last, of either kind, in one of the orders.
pub fn tiles(random: &mut Random) -> Vec<Area> {
    let count = 1 + random.below(MOST_AREAS as u64);
    let kinds = 1 + random.below(4);
    let mut areas = row(count, random);
    areas.iter_mut().for_each(|area| area.reserved = random.below(5) >= kinds);
    order(&mut areas, random);
    areas
}

/// One general area with up to 32 reserved ones inside, so that about as many pieces come of it, and
/// a few areas beside it.
fn holes(random: &mut Random) -> Vec<Area> {
    let count = random.pick(&[2, 5, 28, 29, 30, 31, 31, 32, 32]);
    let mut areas = if random.once_in(2) { row(count, random) } else { row_apart(count, random) };
    let (first, last) = (areas[0].first, areas[areas.len() - 1].second);
    areas.iter_mut().for_each(|area| area.reserved = true);
    order(&mut areas, random);
    let margin = random.below(3);
    areas.insert(0, general(first.saturating_sub(margin), (last + margin).min(TOP)));
    for i in 0..random.below(4) {
        areas.push(general(first.saturating_sub(20 + 2 * i), first.saturating_sub(20 + 2 * i)));
    }
    areas
}

/// General areas side by side, and reserved ones that lie across their ends or in one another.
fn blocks(random: &mut Random) -> Vec<Area> {
    let base = base(200, random);
    let count = 1 + random.below(8);
    let width = 4 + random.below(16);
    let mut areas: Vec<Area> = (0..count)
        .map(|i| general(base + i * width, base + (i + 1) * width - 1 - random.below(2)))
        .collect();
    let mut cuts: Vec<Area> = (0..random.below(12))
        .map(|_| {
            let first = base + random.below(count * width);
            reserved(first, first + random.below(width))
        })
        .collect();
    if !random.once_in(4) {
        cuts.sort_by_key(|area| area.first);
    }
    areas.append(&mut cuts);
    areas
}

/// About as many general areas as there is room for, apart from one another or not.
fn many_general(random: &mut Random) -> Vec<Area> {
    let count = 31 + random.below(4);
    let mut areas = row(count, random);
    if random.once_in(4) {
        let twin = areas[random.below(count) as usize];
        put_in(&mut areas, twin, random);
    }
    if random.once_in(2) {
        let area = areas[random.below(count) as usize];
        put_in(&mut areas, reserved(area.first, area.first), random);
    }
    areas
}

/// About as many reserved areas as there is room for, often with a general one around them: if they
/// don't touch, about as many pieces come of it.
fn many_reserved(random: &mut Random) -> Vec<Area> {
    let count = 31 + random.below(4);
    let mut areas = if random.once_in(2) { row(count, random) } else { row_apart(count, random) };
    let (first, last) = (areas[0].first, areas[areas.len() - 1].second);
    areas.iter_mut().for_each(|area| area.reserved = true);
    order(&mut areas, random);
    if random.once_in(2) {
        put_in(&mut areas, general(first - 1, last + 1), random);
    }
    areas
}

/// Areas of one to three frames, ascending, with up to two frames between: all general at first.
/// There is a frame below them and one above.
fn row(count: u64, random: &mut Random) -> Vec<Area> {
    spaced_row(count, 0, random)
}

/// The same with a frame or more between two.
fn row_apart(count: u64, random: &mut Random) -> Vec<Area> {
    spaced_row(count, 1, random)
}

fn spaced_row(count: u64, least: u64, random: &mut Random) -> Vec<Area> {
    let mut next = base(6 * count + 2, random) + 1;
    (0..count)
        .map(|_| {
            let first = next + least + random.below(3);
            let last = first + random.below(3);
            next = last + 1;
            general(first, last)
        })
        .collect()
}

/// Ascending as they are, descending, or shuffled.
fn order(areas: &mut [Area], random: &mut Random) {
    match random.below(4) {
        0 => areas.reverse(),
        1 => (1..areas.len()).for_each(|i| areas.swap(i, random.below(i as u64 + 1) as usize)),
        _ => {}
    }
}

/// Each kind in its own order, but one among the other.
fn mix_kinds(areas: &mut [Area], random: &mut Random) {
    for i in 1..areas.len() {
        if areas[i].reserved != areas[i - 1].reserved && random.once_in(2) {
            areas.swap(i, i - 1);
        }
    }
}

/// Where `frames` frames begin: at the bottom, below the top, or somewhere between.
fn base(frames: u64, random: &mut Random) -> u64 {
    let highest = TOP + 1 - frames;
    let somewhere = random.below(highest);
    random.pick(&[0, 0, highest, somewhere])
}

fn frame_in(areas: &[Area], random: &mut Random) -> u64 {
    match areas.len() as u64 {
        0 => random.below(8),
        count => {
            let area = areas[random.below(count) as usize];
            random.near(area.first).min(TOP)
        }
    }
}

fn put_in(areas: &mut Vec<Area>, area: Area, random: &mut Random) {
    let at = random.below(areas.len() as u64 + 1) as usize;
    areas.insert(at, area);
    // The room is for 40: this one must be among them.
    while areas.len() > MOST_AREAS {
        areas.remove(if at == 0 { areas.len() - 1 } else { 0 });
    }
}

/// An area of either kind with an end above the top: just above it, or where narrower numbers would
/// lose bits. A general one may be empty.
fn outside(frame: u64, random: &mut Random) -> Area {
    let above = match random.below(3) {
        0 => TOP + 1 + random.below(3),
        1 => random.pick(&[1 << 29, 1 << 32, 1 << 52, 1 << 63]) + random.below(3),
        _ => u64::MAX - random.below(3),
    };
    match random.below(4) {
        0 => general(above, frame),
        1 => general(frame, above),
        2 => general(above, above),
        _ => reserved(frame, above),
    }
}

/// The same boot in bytes: each area touches the frames that it had. An end above the top becomes an
/// address or a size that is too high.
pub fn in_bytes(boot: Boot, random: &mut Random) -> Boot {
    let areas = boot.areas.into_iter().map(|area| area_in_bytes(area, random)).collect();
    Boot { unit: Unit::Bytes, areas }
}

fn area_in_bytes(Area { first, second, reserved }: Area, random: &mut Random) -> Area {
    let (first, second) = if first > TOP || second > TOP {
        outside_in_bytes(random)
    } else if first > second {
        (first * FRAME_SIZE + byte_in_frame(random), 0)
    } else {
        let address = first * FRAME_SIZE + byte_in_frame(random);
        let last = second * FRAME_SIZE + byte_in_frame(random);
        (address, last.max(address) - address + 1)
    };
    Area { first, second, reserved }
}

fn outside_in_bytes(random: &mut Random) -> (u64, u64) {
    let bytes = 1 + random.below(3 * FRAME_SIZE);
    match random.below(5) {
        0 => (ADDRESS_LIMIT + random.below(3), random.below(2)),
        1 => (random.below(3), BYTE_LIMIT + 1 + random.below(3)),
        2 => (ADDRESS_LIMIT - bytes, bytes + 1),
        3 => (u64::MAX - random.below(3), 1 + random.below(3)),
        _ => (random.any() | ADDRESS_LIMIT, random.any() | 1),
    }
}

pub fn byte_in_frame(random: &mut Random) -> u64 {
    let anywhere = random.below(FRAME_SIZE);
    random.pick(&[0, 0, 1, FRAME_SIZE - 2, FRAME_SIZE - 1, anywhere])
}
