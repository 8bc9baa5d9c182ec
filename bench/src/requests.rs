//! Requests, each with the return of what it granted, so that every pair begins on the same lists.

use crate::ours::{self, Run};
use crate::record::{GENERAL_FREE, PAIRS, SLOTS};
use crate::timing::{timed, Row, Side};
use crate::world::{entry, Form, World};
use crate::{plain, theirs};
use frame_allocator::AllocatedFrames;
use std::hint::black_box;

#[derive(Clone, Copy)]
enum Request {
    Count(u64),
    At(u64, u64),
}

/// What is asked for where the lists have so many entries, and what is granted.
type Asked = fn(usize) -> (Request, [u64; 2]);

struct Case {
    name: &'static str,
    form: Form,
    asked: Asked,
}

/// So many pairs are a batch.
const BATCH: usize = 200;
const ROUNDS: usize = 300;

fn chunk(i: usize) -> [u64; 2] {
    let (start, end) = entry(GENERAL_FREE, i);
    [start, end]
}

fn size([start, end]: [u64; 2]) -> u64 {
    end - start + 1
}

fn at([start, end]: [u64; 2]) -> (Request, [u64; 2]) {
    (Request::At(start, size([start, end])), [start, end])
}

fn part_of([start, _]: [u64; 2]) -> [u64; 2] {
    [start, start + 3]
}

const CASES: [Case; 8] = [
    Case { name: "count, part of the highest chunk", form: Form::Sorted, asked: |n| (Request::Count(4), part_of(chunk(n - 1))) },
    Case { name: "count, the highest chunk whole", form: Form::Sorted, asked: |n| (Request::Count(size(chunk(n - 1))), chunk(n - 1)) },
    Case { name: "count, only the lowest chunk has it", form: Form::Sorted, asked: |_| (Request::Count(9), chunk(0)) },
    Case { name: "address, part of the middle chunk", form: Form::Sorted, asked: |n| at(part_of(chunk(n / 2))) },
    Case { name: "address, the middle chunk whole", form: Form::Sorted, asked: |n| at(chunk(n / 2)) },
    Case { name: "address, the lowest chunk whole", form: Form::Sorted, asked: |_| at(chunk(0)) },
    Case { name: "count, the first chunk whole", form: Form::Early, asked: |_| (Request::Count(9), chunk(0)) },
    Case { name: "address, the last chunk whole", form: Form::Early, asked: |n| at(chunk(n - 1)) },
];

/// Every case at some sizes.
pub fn table() {
    for case in &CASES {
        let sizes: &[usize] = if case.form == Form::Early { &[1, SLOTS] } else { &[1, 32, 256, PAIRS - 1] };
        for &entries in sizes {
            case.time("requests", entries);
        }
    }
}

/// The cost as the lists grow, in sorted form: by count and by address, where it is least and where it is most.
pub fn as_lists_grow() {
    for case in [&CASES[0], &CASES[2], &CASES[3], &CASES[5]] {
        for entries in [1, 2, 4, 8, 16, 32, 64, 128, 256, PAIRS - 1] {
            case.time("growth", entries);
        }
    }
}

impl Case {
    fn time(&self, table: &'static str, entries: usize) {
        let row = Row { table, case: self.name, form: self.form.name(), size: entries };
        let before = World::new(self.form, entries);
        theirs::put(&before);
        let mut pairs = Pairs::new(&before, (self.asked)(entries));
        row.time(&Side::COLUMNS, ROUNDS, 2 * BATCH, |side| timed(|| pairs.batch(side)));
        pairs.assert_as_before(&before);
    }
}

/// One request and its return, over and over, on either side.
struct Pairs {
    world: World,
    request: Request,
    granted: [u64; 2],
    run: Run,
}

impl Pairs {
    fn new(world: &World, (request, granted): (Request, [u64; 2])) -> Pairs {
        let call = match request {
            Request::Count(frames) => [3, frames, 0],
            Request::At(frame, frames) => [5, frame, frames],
        };
        let pair = [call, [8, granted[0], granted[1]]].concat();
        Pairs { world: world.clone(), request, granted, run: Run::new(pair.repeat(BATCH), Vec::new()) }
    }

    fn batch(&mut self, side: Side) {
        match side {
            Side::Single => (0..BATCH).for_each(|_| self.single()),
            Side::Run => self.run.make(&mut self.world),
            Side::Rust => (0..BATCH).for_each(|_| drop(self.rust())),
            Side::RustTested => (0..BATCH).for_each(|_| {
                self.test();
                let frames = self.rust();
                self.test();
                drop(frames);
            }),
            Side::EmptyRun => unreachable!("a run makes many of these calls"),
        }
    }

    fn single(&mut self) {
        let answer = match black_box(self.request) {
            Request::Count(frames) => ours::count(&mut self.world, frames),
            Request::At(frame, frames) => ours::at(&mut self.world, frame, frames),
        };
        let [start, end] = answer.range;
        assert_eq!((answer.number, ours::give_back(&mut self.world, start, end).number), (0, 0));
    }

    fn rust(&self) -> AllocatedFrames {
        match black_box(self.request) {
            Request::Count(frames) => theirs::count(frames),
            Request::At(frame, frames) => theirs::at(frame, frames),
        }
    }

    /// The rules of our lists, which are the Rust's lists too.
    fn test(&self) {
        assert_eq!(plain::check(black_box(&self.world.record), black_box(&self.world.words)), 0);
    }

    /// Every pair granted what was foreseen, and both sides have the lists that they began with.
    fn assert_as_before(&self, before: &World) {
        for answers in self.run.answers.chunks_exact(10) {
            assert_eq!((answers[0], &answers[1..3], answers[5]), (0, &self.granted[..], 0));
        }
        let frames = self.rust();
        assert_eq!([frames.start().number() as u64, frames.end().number() as u64], self.granted);
        drop(frames);
        assert!(self.world == *before);
        assert_eq!(theirs::entries(), [0, 1, 2, 3].map(|list| before.entries(list)));
    }
}
