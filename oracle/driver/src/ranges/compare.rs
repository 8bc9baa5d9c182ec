//! Compares the two sides call by call.

use super::call::{Answer, Call, Kind};
use super::counts::Counts;
use super::domain;
use super::generate::{random_call, small_world, WORLDS};
use super::ours;
use super::outcome::Outcome;
use super::theirs;
use crate::random::Random;
use crate::verdict::{self, Fault};

/// So many differences are printed in full; the others are only counted.
const SHOWN: u64 = 20;

/// Compares the small worlds and `random_calls` random calls. True if nothing differed and
/// every outcome that can occur did, which the small worlds see to.
pub fn compare(random_calls: u64, seed: u64) -> bool {
    let mut comparison = Comparison { counts: Counts::new(), differences: 0 };

    WORLDS.into_iter().flat_map(small_world).for_each(|call| comparison.add(&call));
    let mut random = Random::new(seed);
    for i in 0..random_calls {
        let kind = Kind::ALL[i as usize % Kind::ALL.len()];
        comparison.add(&random_call(kind, &mut random));
    }

    comparison.counts.print();
    let mut faults = comparison.counts.faults();
    if !theirs::lists_are_untouched() {
        let dropped = "the Rust's lists are not empty: a Frames object was dropped";
        faults.push(Fault::Wrong(dropped.to_string()));
    }
    verdict::passes(comparison.differences, &faults, false)
}

struct Comparison {
    counts: Counts,
    differences: u64,
}

impl Comparison {
    fn add(&mut self, call: &Call) {
        let (judge, expected, outcome) = match domain::refusal(call) {
            Some(refusal) => {
                ("document 01", Answer::refused(call.kind()), Outcome::of_refusal(refusal))
            }
            None => {
                let answer = theirs::answer(call);
                ("the Rust", answer, Outcome::of_answer(call, &answer))
            }
        };
        self.counts.add(call.kind(), outcome);

        let found = ours::answer(call);
        if found != expected {
            self.differences += 1;
            if self.differences <= SHOWN {
                println!("difference: {call}\n  {judge}: {expected}\n  ours: {found}");
            }
        }
    }
}
