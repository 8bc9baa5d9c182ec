//! Growth: requests by address whose frames no list knows, so that they become a reserved region. A region stays, so some growths are a
//! batch, and before each batch both sides get back the lists that they began with, which isn't timed.

use crate::ours::{self, Run};
use crate::record::{PAIRS, RESERVED_FREE, RESERVED_REGIONS};
use crate::timing::{timed, Row, Side};
use crate::world::{entry, Form, World};
use crate::{plain, theirs};
use std::hint::black_box;
use std::mem::forget;
use std::time::Duration;

/// So many growths are a batch.
const GROWTHS: usize = 16;
const ROUNDS: usize = 1_000;

/// Entries from one on lie so many frames higher: a gap below it, which has room for a batch.
const GAP: u64 = 64;

/// The most entries at which a batch has room.
const MOST: usize = PAIRS - GROWTHS;

struct Case {
    name: &'static str,
    sizes: &'static [usize],
    /// Where the lists have so many entries: the entry that the gap is below.
    gap_below: fn(usize) -> usize,
    /// The first frame of growth k, and how many frames are asked for.
    asked: fn(usize, usize) -> (u64, u64),
}

/// Growth k in the gap below an entry: a frame, and no two touch.
fn in_gap(below: usize, k: usize) -> (u64, u64) {
    (16 * below as u64 + 1 + 2 * k as u64, 1)
}

/// The chunk that is the highest one after k growths, whole, and the frame above it.
fn with_tail(entries: usize, k: usize) -> (u64, u64) {
    let (start, end) = entry(RESERVED_FREE, entries - 1 - k);
    (start, end - start + 2)
}

const CASES: [Case; 4] = [
    Case { name: "growth above every region", sizes: &[1, 32, 256, MOST], gap_below: |n| n, asked: in_gap },
    Case { name: "growth in the middle", sizes: &[1, 32, 256, MOST], gap_below: |n| n / 2, asked: |n, k| in_gap(n / 2, k) },
    Case { name: "growth below every region", sizes: &[1, 32, 256, MOST], gap_below: |_| 0, asked: |_, k| in_gap(0, k) },
    Case { name: "growth by the missing tail", sizes: &[32, 256, MOST], gap_below: |n| n, asked: with_tail },
];

pub fn table() {
    for case in &CASES {
        for &size in case.sizes {
            case.time(size);
        }
    }
}

impl Case {
    fn time(&self, size: usize) {
        let row = Row { table: "new_regions", case: self.name, form: Form::Sorted.name(), size };
        let before = World::with_gap(size, (self.gap_below)(size), GAP);
        let asked = (0..GROWTHS).map(|k| (self.asked)(size, k)).collect();
        let mut growths = Growths::new(before, asked);
        growths.assert_alike();
        row.time(&Side::ONCE, ROUNDS, GROWTHS, |side| growths.batch(side));
        growths.assert_alike();
    }
}

/// The growths of a batch, on either side.
struct Growths {
    before: World,
    /// Half of a batch later: what the plain pass tests.
    halfway: World,
    world: World,
    asked: Vec<(u64, u64)>,
    run: Run,
    empty: Run,
}

impl Growths {
    fn new(before: World, asked: Vec<(u64, u64)>) -> Growths {
        let mut halfway = before.clone();
        grow(&mut halfway, &asked[..GROWTHS / 2]);
        let calls = asked.iter().flat_map(|(frame, frames)| [5, *frame, *frames]).collect();
        let [run, empty] = [calls, Vec::new()].map(|calls| Run::new(calls, Vec::new()));
        Growths { world: before.clone(), before, halfway, asked, run, empty }
    }

    fn batch(&mut self, side: Side) -> Duration {
        self.put_back(side);
        timed(|| match side {
            Side::Single => grow(&mut self.world, &self.asked),
            Side::Run => self.run.make(&mut self.world),
            Side::Rust => self.rust(|| ()),
            Side::RustTested => self.rust(|| self.test()),
            Side::EmptyRun => self.empty.make(&mut self.world),
        })
    }

    fn put_back(&mut self, side: Side) {
        match side {
            Side::Rust | Side::RustTested => theirs::put(&self.before),
            _ => {
                self.world.record = self.before.record;
                self.world.words.copy_from_slice(&self.before.words);
            }
        }
    }

    /// The granted frames are kept: a drop returns them.
    fn rust(&self, first: impl Fn()) {
        for (frame, frames) in &self.asked {
            first();
            forget(theirs::at(black_box(*frame), *frames));
        }
    }

    fn test(&self) {
        assert_eq!(plain::check(black_box(&self.halfway.record), black_box(&self.halfway.words)), 0);
    }

    /// Every growth grants what was asked for and leaves a region more, and the single calls, the run and the Rust leave the same lists.
    fn assert_alike(&mut self) {
        let [single, run] = [Side::Single, Side::Run].map(|side| {
            self.batch(side);
            self.world.clone()
        });
        self.batch(Side::Rust);
        assert!(single == run);
        assert_eq!(theirs::entries(), [0, 1, 2, 3].map(|list| run.entries(list)));
        assert_eq!(run.record.lens[RESERVED_REGIONS], self.before.record.lens[RESERVED_REGIONS] + GROWTHS);
        for ((frame, frames), answer) in self.asked.iter().zip(self.run.answers.chunks_exact(5)) {
            assert_eq!(answer[..3], [0, *frame, frame + frames - 1]);
        }
    }
}

/// By single calls.
fn grow(world: &mut World, asked: &[(u64, u64)]) {
    for (frame, frames) in asked {
        assert_eq!(ours::at(world, black_box(*frame), *frames).number, 0);
    }
}
