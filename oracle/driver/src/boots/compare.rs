//! Compares whole boots on both sides: the number, the answer's other values, and the record, slot
//! by slot. Then sorts what was booted, and compares the record and every word.

use super::counts::{Counts, Row, Source};
use super::generate;
use super::judge::Judgement;
use super::small;
use crate::allocator::area::Boot;
use crate::allocator::call::Call;
use crate::allocator::record::{Answer, Called, FrameAllocator, Stored, UNREAD};
use crate::allocator::state::{Lists, State};
use crate::allocator::{numbers, ours, theirs};
use crate::random::Random;
use crate::verdict::{self, Amount};
use std::fmt::{self, Display};

/// So many differences are printed in full; the others are only counted.
const SHOWN: u64 = 20;

/// The workspace of a record in sorted form with empty tables.
static EMPTY_TABLES: [u64; 4096] = [0; 4096];

/// Of so many boots one is booted again.
const AGAIN: u64 = 7;

/// Of so many boots in the small worlds one is sorted; of the random boots each is.
const SORT: u64 = 5;

/// Compares the small worlds and so many random boots. True if nothing differed and all that
/// can come of a boot did, or where fewer are compared than by default may not have.
pub fn compare(random_boots: Amount, seed: u64) -> bool {
    let mut comparison = Comparison { counts: Counts::new(), boots: 0, differences: 0 };

    small::each(|boot, mixed| comparison.add(Source::SmallWorlds, boot, mixed));
    let mut random = Random::new(seed);
    for i in 0..random_boots.count {
        let (source, boot) = match i % 2 {
            0 => (Source::RandomFrames, generate::random_boot(&mut random)),
            _ => (
                Source::RandomBytes,
                generate::in_bytes(generate::random_boot(&mut random), &mut random),
            ),
        };
        comparison.add(source, &boot, &boot);
    }
    theirs::empty_lists(false);

    comparison.counts.print();
    let faults = comparison.counts.faults();
    verdict::passes(comparison.differences, &faults, random_boots.is_reduced())
}

struct Comparison {
    counts: Counts,
    boots: u64,
    differences: u64,
}

impl Comparison {
    /// Boots empty lists, two in early form, then two in sorted form. Our side boots a second time, from the
    /// same areas in another order, `mixed`, and in other words.
    fn add(&mut self, source: Source, boot: &Boot, mixed: &Boot) {
        let sorted = self.boots % 4 >= 2;
        let words = if sorted { &EMPTY_TABLES[..] } else { &UNREAD[..] };
        self.boots += 1;

        let judgement = Judgement::of(boot, sorted);
        self.counts.add(source, &judgement.rows);
        let before = FrameAllocator::of(&State::empty(sorted));
        let expected = judgement.expected(before);
        self.note(judgement.judge, boot, &expected, &ours::boot(boot, before, words));
        self.note(judgement.judge, mixed, &expected, &ours::boot_in_disguise(mixed, before, words));
        if let Some(lists) = judgement.lists {
            if self.boots % AGAIN == 0 {
                self.boot_again(source, Row::BootedTwice, boot, expected.allocator, &UNREAD);
            }
            if source != Source::SmallWorlds || self.boots % SORT == 0 {
                self.sort(source, boot, lists);
            }
        }
    }

    /// Sorts what was booted. A second sort changes nothing; some are then booted again.
    fn sort(&mut self, source: Source, boot: &Boot, lists: Lists) {
        theirs::reply(&Call::Sort);
        let state = theirs::state();
        let State::Sorted(tables) = &state else { panic!("a sort leaves its lists sorted") };
        Row::of_sorted(&lists, tables).iter().for_each(|row| self.counts.add_later(source, *row));
        let expected = Sorted { answer: Answer::DONE, stored: Stored::new(&state) };
        let once = Sorted::from(Stored::new(&State::Early(lists)));
        self.note("the Rust, sorted", boot, &expected, &once);

        theirs::reply(&Call::Sort);
        assert!(theirs::state() == state, "the Rust changed what was sorted: {boot}");
        let twice = Sorted::from(once.stored);
        self.note("the Rust, sorted twice", boot, &expected, &twice);
        if self.boots % AGAIN == 1 {
            let Stored { allocator, words, .. } = twice.stored;
            self.boot_again(source, Row::BootedSorted, boot, allocator, &words);
        }
    }

    /// Boots what is booted: unless the first boot left the lists empty, the Rust answers with an
    /// error, which is 10.
    fn boot_again(
        &mut self,
        source: Source,
        row: Row,
        boot: &Boot,
        before: FrameAllocator,
        words: &[u64],
    ) {
        let answer = numbers::answer(theirs::boot(boot));
        let allocator = match answer.number {
            0 => FrameAllocator::of(&theirs::state()),
            10 => {
                self.counts.add_later(source, row);
                before
            }
            number => panic!("{number} of what was booted: {boot}"),
        };
        let expected = Called { answer, allocator };
        let found = ours::boot(boot, before, words);
        self.note("the Rust, booted again", boot, &expected, &found);
    }

    fn note<T: PartialEq + Display>(&mut self, judge: &str, boot: &Boot, expected: &T, found: &T) {
        if found != expected {
            self.differences += 1;
            if self.differences <= SHOWN {
                println!("difference: {boot}\n  {judge}: {expected}\n  ours: {found}");
            }
        }
    }
}

/// What a sort answers and leaves.
#[derive(PartialEq)]
struct Sorted {
    answer: Answer,
    stored: Stored,
}

impl Sorted {
    fn from(mut stored: Stored) -> Sorted {
        Sorted { answer: ours::answer(&Call::Sort, &mut stored), stored }
    }
}

impl Display for Sorted {
    fn fmt(&self, f: &mut fmt::Formatter) -> fmt::Result {
        write!(f, "{}; {}", self.answer, self.stored)
    }
}
