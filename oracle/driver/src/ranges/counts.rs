//! How often each outcome of each call occurred.

use super::call::Kind;
use super::outcome::{Outcome, Verdict};
use crate::verdict::Fault;

pub struct Counts {
    counts: [[u64; Outcome::COUNT]; Kind::ALL.len()],
}

impl Counts {
    pub fn new() -> Counts {
        Counts { counts: [[0; Outcome::COUNT]; Kind::ALL.len()] }
    }

    pub fn add(&mut self, kind: Kind, outcome: Outcome) {
        self.counts[kind as usize][outcome as usize] += 1;
    }

    fn of(&self, kind: Kind, outcome: Outcome) -> u64 {
        self.counts[kind as usize][outcome as usize]
    }

    fn total(&self, kind: Kind) -> u64 {
        self.counts[kind as usize].iter().sum()
    }

    fn with_verdict(&self, kind: Kind, verdict: Verdict) -> u64 {
        let outcomes = Outcome::possible(kind).iter();
        outcomes.filter(|o| o.verdict() == verdict).map(|&o| self.of(kind, o)).sum()
    }

    /// The outcomes that can occur and did not: the small worlds alone have each. An outcome outside the list of possible ones would
    /// make a call's sum differ from its total; that is reported too.
    pub fn faults(&self) -> Vec<Fault> {
        let mut faults = Vec::new();
        for kind in Kind::ALL {
            let possible = Outcome::possible(kind);
            for &outcome in possible.iter().filter(|&&o| self.of(kind, o) == 0) {
                let label = format!("\"{}\"", outcome.label());
                faults.push(Fault::sure(kind.name(), false, &label));
            }
            let listed: u64 = possible.iter().map(|&o| self.of(kind, o)).sum();
            if listed != self.total(kind) {
                faults.push(Fault::sure(kind.name(), true, "an outcome that is not listed"));
            }
        }
        faults
    }

    pub fn print(&self) {
        println!("{:<32}{:>12}{:>12}{:>12}{:>12}", "call", "compared", "yes", "no", "2 (doc. 01)");
        let mut sums = [0; 4];
        for kind in Kind::ALL {
            let row = [
                self.total(kind),
                self.with_verdict(kind, Verdict::Yes),
                self.with_verdict(kind, Verdict::No),
                self.with_verdict(kind, Verdict::Refused),
            ];
            print_row(kind.name(), row);
            for &outcome in Outcome::possible(kind) {
                println!("    {:<28}{:>12}", outcome.label(), self.of(kind, outcome));
            }
            sums.iter_mut().zip(row).for_each(|(sum, n)| *sum += n);
        }
        print_row("all calls", sums);
    }
}

fn print_row(name: &str, [total, yes, no, refused]: [u64; 4]) {
    println!("{name:<32}{total:>12}{yes:>12}{no:>12}{refused:>12}");
}
