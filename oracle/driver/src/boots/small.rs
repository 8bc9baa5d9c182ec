//! Small worlds, whole: every boot of a few areas in six frames.

use crate::allocator::area::{Area, Boot, Unit};
use crate::frames::TOP;

const FRAMES: u64 = 6;

/// Runs `run` on each boot, given as general areas and then reserved ones, and on the same areas in
/// another order: the kinds mixed, and those of one kind in the same order.
pub fn each(mut run: impl FnMut(&Boot, &Boot)) {
    let ranges = ranges(0, Ends::Any);
    let whole = self::ranges(0, Ends::Whole);
    let any_empty = |areas: &Vec<Pair>| areas.iter().any(|[first, second]| first > second);
    let with_empty: Vec<Vec<Pair>> = lists(&ranges, 1..=2).into_iter().filter(any_empty).collect();

    // Up to two general areas and up to three reserved ones.
    pairs(&lists(&whole, 0..=2), &lists(&whole, 0..=3), &mut run);
    // Three general areas.
    pairs(&lists(&whole, 3..=3), &lists(&whole, 0..=1), &mut run);
    // Empty general areas, or empty reserved ones, among two.
    pairs(&with_empty, &lists(&whole, 0..=2), &mut run);
    pairs(&lists(&ranges, 0..=1), &with_empty, &mut run);
    // The highest frames.
    let base = TOP + 1 - FRAMES;
    let high = lists(&self::ranges(base, Ends::Whole), 0..=2);
    pairs(&lists(&self::ranges(base, Ends::Any), 0..=1), &high, &mut run);
}

type Pair = [u64; 2];

#[derive(Clone, Copy, PartialEq)]
enum Ends {
    Any,
    Whole,
}

/// The ranges of six frames: all, or those with a frame.
fn ranges(base: u64, ends: Ends) -> Vec<Pair> {
    let frames = base..base + FRAMES;
    let pairs = frames.clone().flat_map(|start| frames.clone().map(move |end| [start, end]));
    pairs.filter(|[start, end]| ends == Ends::Any || start <= end).collect()
}

/// Every list of so many of these.
fn lists(of: &[Pair], lengths: std::ops::RangeInclusive<usize>) -> Vec<Vec<Pair>> {
    lengths
        .flat_map(|length| {
            (0..length).fold(vec![Vec::new()], |lists, _| {
                lists
                    .iter()
                    .flat_map(|list| of.iter().map(|pair| [&list[..], &[*pair]].concat()))
                    .collect()
            })
        })
        .collect()
}

fn pairs(generals: &[Vec<Pair>], reserveds: &[Vec<Pair>], run: &mut impl FnMut(&Boot, &Boot)) {
    let mut boots = 0;
    for general in generals {
        for reserved in reserveds {
            run(
                &boot(general, reserved, Order::GeneralFirst),
                &boot(general, reserved, Order::MIXED[boots % 3]),
            );
            boots += 1;
        }
    }
}

#[derive(Clone, Copy)]
enum Order {
    GeneralFirst,
    ReservedFirst,
    ByTurns,
    ByTurnsFromTheEnd,
}

impl Order {
    const MIXED: [Order; 3] = [Order::ReservedFirst, Order::ByTurns, Order::ByTurnsFromTheEnd];
}

fn boot(general: &[Pair], reserved: &[Pair], order: Order) -> Boot {
    let area = |pair: &Pair, reserved: bool| Area { first: pair[0], second: pair[1], reserved };
    let (g, r) = (general.len(), reserved.len());
    let mut areas = Vec::with_capacity(g + r);
    let (mut i, mut j) = (0, 0);
    while i + j < g + r {
        let reserved_next = match order {
            Order::GeneralFirst => i == g,
            Order::ReservedFirst => j < r,
            Order::ByTurns => i == g || j < r && j < i,
            Order::ByTurnsFromTheEnd => i == g || j < r && r - j > g - i,
        };
        if reserved_next {
            areas.push(area(&reserved[j], true));
            j += 1;
        } else {
            areas.push(area(&general[i], false));
            i += 1;
        }
    }
    Boot { unit: Unit::Frames, areas }
}
