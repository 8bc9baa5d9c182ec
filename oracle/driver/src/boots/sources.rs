//! Boots to choose from for the fixed list, and where each counts.

use super::counts::Row;
use super::generate::{in_bytes, random_boot};
use super::judge::Judgement;
use super::small;
use crate::allocator::area::Boot;
use crate::allocator::call::Call;
use crate::allocator::state::State;
use crate::allocator::theirs;
use crate::random::Random;

/// So many random boots, in either unit.
const RANDOM_BOOTS: u64 = 20_000;

/// Every boot of a source with the rows that it counts in; of the small worlds every 97th.
pub fn sources(seed: u64) -> [Vec<(Boot, Vec<Row>)>; 3] {
    let mut random = Random::new(seed);
    let mut small = Vec::new();
    let mut i = 0;
    small::each(|boot, mixed| {
        if i % 97 == 0 {
            small.push(counted(if i % 2 == 0 { boot } else { mixed }.clone()));
        }
        i += 1;
    });
    let frames = (0..RANDOM_BOOTS).map(|_| counted(random_boot(&mut random))).collect();
    let bytes = (0..RANDOM_BOOTS)
        .map(|_| counted(in_bytes(random_boot(&mut random), &mut random)))
        .collect();
    [small, frames, bytes]
}

/// An accepted boot counts in the rows of a sort after it as well.
fn counted(boot: Boot) -> (Boot, Vec<Row>) {
    let Judgement { lists, mut rows, .. } = Judgement::of(&boot, false);
    if let Some(lists) = lists {
        theirs::reply(&Call::Sort);
        if let State::Sorted(tables) = theirs::state() {
            rows.extend(Row::of_sorted(&lists, &tables));
        }
    }
    (boot, rows)
}
