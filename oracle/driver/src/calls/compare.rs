//! Compares lists of calls on both sides: after each call the answer, the record and every word.

use super::counts::{Counts, Scope};
use super::generate::Plan;
use super::judge::Judgement;
use crate::allocator::call::Call;
use crate::allocator::record::{Answer, Stored};
use crate::allocator::state::State;
use crate::allocator::{ours, run, theirs};
use crate::random::Random;
use crate::verdict::{self, Amount};
use std::mem;

/// So many differences are printed in full; the others are only counted.
const SHOWN: u64 = 20;

/// Compares random lists of so many calls together or a few more. True if nothing differed and all that can
/// come of a call did, or where fewer are compared than by default may not have.
pub fn compare(calls: Amount, seed: u64) -> bool {
    let mut comparison = Comparison { counts: Counts::new(Scope::Lists), differences: 0 };
    let mut random = Random::new(seed);
    let (mut lists, mut made) = (0, 0);
    while made < calls.count {
        let mut plan = Plan::new(&mut random);
        made += comparison.add_list(|state| plan.next(state, &mut random));
        lists += 1;
    }
    theirs::empty_lists(false);

    println!("lists of calls: {lists}, calls: {}", comparison.counts.calls());
    comparison.counts.print();
    let faults = comparison.counts.faults();
    verdict::passes(comparison.differences, &faults, calls.is_reduced())
}

struct Comparison {
    counts: Counts,
    differences: u64,
}

impl Comparison {
    /// A list of calls on a fresh record; each may be chosen by the lists as they are. It ends at its
    /// first difference. Then the same list by runs. How many calls were made.
    fn add_list(&mut self, mut next: impl FnMut(&State) -> Option<Call>) -> u64 {
        theirs::empty_lists(false);
        let mut state = State::empty(false);
        let mut ours = Stored::new(&state);
        let mut expected = ours.clone();
        let (mut made, mut answers) = (Vec::new(), Vec::new());
        while let Some(call) = next(&state) {
            let judgement = Judgement::of(&call, &state);
            self.counts.add(&call, &state, &judgement);
            let answer = ours::answer(&call, &mut ours);
            judgement.store(&call, &mut expected);
            made.push(call);
            answers.push(answer);
            if answer != judgement.answer || ours != expected {
                self.differences += 1;
                if self.differences <= SHOWN {
                    println!("difference, after the last of these calls: {}", shown(&made));
                    println!("  {}: {}; {expected}", judgement.judge.name(), judgement.answer);
                    println!("  ours: {answer}; {ours}");
                }
                return made.len() as u64;
            }
            state = judgement.after;
        }
        self.run_again(&made, &answers, &ours);
        made.len() as u64
    }

    /// The calls again on a fresh record, up to each held list by one run. A held list that is then asked for
    /// by itself is the same, and in the end so is all that is left.
    fn run_again(&mut self, made: &[Call], answers: &[Answer], left: &Stored) {
        let mut stored = Stored::new(&State::empty(false));
        let mut same = true;
        let mut at = 0;
        for calls in made.split_inclusive(|call| matches!(call, Call::Held(_))) {
            same &= run::run(calls, &answers[at..at + calls.len()], &mut stored);
            at += calls.len();
            if let Some(held @ Call::Held(_)) = calls.last() {
                let buffer = mem::take(&mut stored.buffer);
                same &= ours::answer(held, &mut stored) == answers[at - 1];
                same &= stored.buffer == buffer;
            }
        }
        same &= stored.allocator == left.allocator && stored.words == left.words;
        if !same {
            self.differences += 1;
            if self.differences <= SHOWN {
                println!("difference, where these calls are run: {}", shown(made));
            }
        }
    }
}

pub fn shown(calls: &[Call]) -> String {
    calls.iter().map(Call::to_string).collect::<Vec<String>>().join("; ")
}
