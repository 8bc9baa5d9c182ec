//! The plain pass and ours must say the same of the rules, or a time of one says nothing of the other.

use crate::record::{PAIRS, PART, SLOTS, WORDS};
use crate::world::{Form, World};
use crate::{ours, plain};

/// Set, not set, and bytes that are neither.
const FLAGS: [u8; 6] = [0, 1, 0, 1, 2, 255];

/// One word, slot, flag or length changed at random, many times over.
pub fn compare_tests() {
    let mut seed = 0x2545_f491_4f6c_dd1d_u64;
    for (form, entries) in [(Form::Early, 0), (Form::Early, SLOTS), (Form::Sorted, 0), (Form::Sorted, 32), (Form::Sorted, PAIRS)] {
        let world = World::new(form, entries);
        for _ in 0..20_000 {
            let changed = changed(&world, &mut seed);
            let (ours, theirs) = (ours::check(&changed.record, &changed.words), plain::check(&changed.record, &changed.words));
            assert_eq!(ours, theirs, "the two tests answer differently");
        }
    }
}

fn changed(world: &World, seed: &mut u64) -> World {
    let mut next = |below: usize| {
        *seed ^= *seed << 13;
        *seed ^= *seed >> 7;
        *seed ^= *seed << 17;
        (*seed % below as u64) as usize
    };
    let mut w = world.clone();
    let list = next(4);
    let len = world.record.lens[list];
    let value = [0, 1, plain::TOP, plain::TOP + 1, u64::MAX, next(40) as u64, next(9000) as u64][next(7)];
    match next(8) {
        0 => w.record.lists[list].starts[next(SLOTS)] = value,
        1 => w.record.lists[list].ends[next(SLOTS)] = value,
        2 => w.record.lists[list].used[next(SLOTS)] = FLAGS[next(FLAGS.len())],
        3 => w.record.lens[list] = [0, 1, len.wrapping_sub(1), len + 1, PAIRS, PAIRS + 1, usize::MAX][next(7)],
        4 => w.record.sorted = FLAGS[next(FLAGS.len())],
        5 => w.words[next(WORDS)] = value,
        _ => {
            let word = &mut w.words[list * PART + next(2 * len + 2) % PART];
            *word = word.wrapping_add([1, 2, 4, 5, u64::MAX, value][next(6)]);
        }
    }
    w
}
