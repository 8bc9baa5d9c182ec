//! Boots, sorts, held lists, and the test of the rules by itself.

use crate::ours::{self, Run};
use crate::record::{PAIRS, SLOTS};
use crate::timing::{timed, timed_each, Row, Side};
use crate::world::{Form, World};
use crate::{plain, theirs};
use std::hint::black_box;

/// Where the Rust refuses by a panic.
const OURS: [Side; 3] = [Side::Single, Side::Run, Side::EmptyRun];

fn test(w: &World) {
    assert_eq!(plain::check(black_box(&w.record), black_box(&w.words)), 0);
}

type Areas = fn(usize) -> Vec<u64>;

/// As many general areas as reserved ones, none of which meet.
fn apart(areas: usize) -> Vec<u64> {
    (0..areas as u64).flat_map(|i| [4 * i, 4 * i, i % 2]).collect()
}

/// One general area, and reserved ones that cut it.
fn cut(areas: usize) -> Vec<u64> {
    let reserved = (1..areas as u64).flat_map(|i| [2 * i - 1, 2 * i - 1, 1]);
    [0, 2 * areas as u64, 0].into_iter().chain(reserved).collect()
}

/// 32 reserved areas of a frame each, and general ones that are all alike.
fn alike(areas: usize, general: [u64; 2]) -> Vec<u64> {
    let reserved = (0..SLOTS as u64).flat_map(|i| [2 * i + 1, 2 * i + 1, 1]);
    let general = (SLOTS..areas).flat_map(|_| [general[0], general[1], 0]);
    reserved.chain(general).collect()
}

pub fn boots() {
    let some: [(&'static str, Areas, &[usize]); 3] = [
        ("areas apart, of both kinds", apart, &[2, 64]),
        ("one general area, cut by reserved ones", cut, &[2, 32]),
        ("32 reserved areas, general ones in them", |n| alike(n, [1, 1]), &[1_000, 100_000]),
    ];
    for (case, areas, sizes) in some {
        for &size in sizes {
            boot(Row { table: "boot", case, form: "early", size }, &areas(size), &Side::ONCE, 0);
        }
    }
    let case = "32 reserved areas that cut each general one (7)";
    for size in [1_000, 100_000] {
        boot(Row { table: "boot", case, form: "early", size }, &alike(size, [0, 64]), &OURS, 7);
    }
}

fn boot(row: Row, areas: &[u64], sides: &[Side], number: u64) {
    let calls = 1 + 3_000 / row.size;
    let map = theirs::Map::new(areas);
    let mut run = Run::new(vec![0, 0, areas.len() as u64 / 3], areas.to_vec());
    let mut empty = Run::new(Vec::new(), Vec::new());
    let rounds = if row.size < 1_000 { 100 } else { 5 };
    row.time(sides, rounds, calls, |side| match side {
        Side::Single => timed_each(calls, World::fresh, |mut w| assert_eq!(ours::boot(&mut w, areas).number, number)),
        Side::Run => timed_each(calls, World::fresh, |mut w| run.make(&mut w)),
        Side::Rust => timed_each(calls, || theirs::put(&World::fresh()), |()| map.boot()),
        Side::RustTested => timed_each(calls, rust_fresh, |w| {
            test(&w);
            map.boot();
        }),
        Side::EmptyRun => timed_each(calls, World::fresh, |mut w| empty.make(&mut w)),
    });
}

fn rust_fresh() -> World {
    let fresh = World::fresh();
    theirs::put(&fresh);
    fresh
}

pub fn sorts() {
    for size in [1, SLOTS] {
        let row = Row { table: "sort", case: "from early to sorted form", form: "early", size };
        let world = World::new(Form::Early, size);
        let both = || {
            theirs::put(&world);
            world.clone()
        };
        let mut run = Run::new(vec![2, 0, 0], Vec::new());
        let mut empty = Run::new(Vec::new(), Vec::new());
        const CALLS: usize = 100;
        row.time(&Side::ONCE, 100, CALLS, |side| match side {
            Side::Single => timed_each(CALLS, both, |mut w| assert_eq!(ours::sort(&mut w).number, 0)),
            Side::Run => timed_each(CALLS, both, |mut w| run.make(&mut w)),
            Side::Rust => timed_each(CALLS, both, |_| theirs::sort()),
            Side::RustTested => timed_each(CALLS, both, |w| {
                test(&w);
                theirs::sort();
            }),
            Side::EmptyRun => timed_each(CALLS, both, |mut w| empty.make(&mut w)),
        });
    }
}

/// The Rust has no held list: beside ours is a plain Rust walk over the same words.
pub fn held_lists() {
    for (form, size) in [(Form::Early, 1), (Form::Early, SLOTS), (Form::Sorted, 1), (Form::Sorted, 32), (Form::Sorted, PAIRS)] {
        let row = Row { table: "held", case: "every second chunk is held", form: form.name(), size };
        let mut world = World::new(form, size);
        for i in (0..size).step_by(2) {
            assert_eq!(ours::at(&mut world, 16 * i as u64, 8).number, 0);
        }
        let mut buffer = vec![0; 2048];
        let mut run = Run::new([11, 0, 0].repeat(100), Vec::new());
        let runs = plain::held_runs(&world.record, &world.words, &mut buffer) as u64;
        row.time(&Side::COLUMNS, 200, 100, |side| match side {
            Side::Single => timed(|| (0..100).for_each(|_| assert_eq!(ours::held_list(&world, &mut buffer).count, runs))),
            Side::Run => timed(|| run.make(&mut world)),
            Side::Rust => timed(|| (0..100).for_each(|_| walk(&world, &mut buffer))),
            Side::RustTested => timed(|| {
                (0..100).for_each(|_| {
                    test(&world);
                    walk(&world, &mut buffer);
                })
            }),
            Side::EmptyRun => unreachable!("a run makes many of these calls"),
        });
    }
}

fn walk(w: &World, buffer: &mut [u64]) {
    black_box(plain::held_runs(black_box(&w.record), black_box(&w.words), buffer));
}

/// The test of the rules by itself, beside the plain pass. In sorted form with a workspace whose address is a multiple of 64, and with one
/// that lies 8 bytes higher; early form doesn't read it.
pub fn rules() {
    for size in [0, SLOTS] {
        time_rules("the test of the rules", Form::Early, size, 0);
    }
    for size in [0, 32, 256, PAIRS] {
        time_rules("the test of the rules, words at a multiple of 64 bytes", Form::Sorted, size, 0);
        time_rules("the test of the rules, words 8 bytes above one", Form::Sorted, size, 8);
    }
}

fn time_rules(case: &'static str, form: Form, size: usize, above: usize) {
    let row = Row { table: "rules", case, form: form.name(), size };
    let World { record, words } = World::new(form, size);
    let mut room = Vec::new();
    let words = placed(&words, above, &mut room);
    const CALLS: usize = 20;
    row.time(&[Side::Single, Side::RustTested], 1_000, CALLS, |side| match side {
        Side::Single => timed(|| (0..CALLS).for_each(|_| assert_eq!(ours::check(black_box(&record), black_box(words)), 0))),
        _ => timed(|| (0..CALLS).for_each(|_| assert_eq!(plain::check(black_box(&record), black_box(words)), 0))),
    });
}

/// The same words at an address so many bytes, a multiple of 8, above a multiple of 64.
fn placed<'a>(words: &[u64], above: usize, room: &'a mut Vec<u64>) -> &'a [u64] {
    const LINE: usize = 64;
    room.resize(words.len() + 2 * LINE / 8, 0);
    let past = room.as_ptr() as usize % LINE;
    let from = (LINE - past + above) / 8;
    let placed = &mut room[from..from + words.len()];
    placed.copy_from_slice(words);
    assert_eq!(placed.as_ptr() as usize % LINE, above);
    placed
}
