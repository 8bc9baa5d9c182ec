//! How often each number occurred of each call, and each row, in early and in sorted form.

use super::judge::{Judge, Judgement};
use super::rows::Row;
use crate::allocator::call::{Call, Kind};
use crate::allocator::state::State;
use crate::verdict::Fault;

const NUMBERS: usize = 20;

/// Which calls are counted. Those of the small worlds are few, and fill no list.
#[derive(Clone, Copy, PartialEq, Eq)]
pub enum Scope {
    SmallWorlds,
    Lists,
}

pub struct Counts {
    scope: Scope,
    /// By call, number, form and judge.
    numbers: [[[[u64; 2]; 2]; NUMBERS]; Kind::ALL.len()],
    /// By row and form.
    rows: [[u64; 2]; Row::ALL.len()],
}

/// The numbers that a call can have.
fn possible(kind: Kind, sorted: bool) -> &'static [u64] {
    match (kind, sorted) {
        (Kind::Boot | Kind::BootBytes, _) => &[0, 2, 4, 5, 6, 7, 10],
        (Kind::Sort, _) => &[0],
        (Kind::Count, _) => &[0, 1, 14],
        (Kind::CountBytes, _) => &[0, 1, 2, 14],
        (Kind::At | Kind::AtBytes, false) => &[0, 1, 2, 13, 16, 18],
        (Kind::At | Kind::AtBytes, true) => &[0, 1, 2, 12, 13, 16, 17, 18],
        (Kind::GeneralAt, false) => &[0, 1, 2, 12, 18],
        (Kind::GeneralAt, true) => &[0, 1, 2, 12, 15, 17, 18],
        (Kind::Return, _) => &[0, 2, 18, 19],
        (Kind::KindOfRange, _) => &[0, 2],
        (Kind::FreeTotal, _) => &[0],
        (Kind::HeldList, _) => &[0, 3],
    }
}

/// Those that it can have in the small worlds: their boots are on fresh records, or on what has entries.
fn possible_in_small_worlds(kind: Kind, sorted: bool) -> Vec<u64> {
    match (kind, sorted) {
        (Kind::Boot, false) => vec![0, 6, 10],
        (Kind::Boot, true) => vec![10],
        (Kind::BootBytes | Kind::CountBytes | Kind::AtBytes, _) => Vec::new(),
        _ => possible(kind, sorted).iter().copied().filter(|number| *number != 18).collect(),
    }
}

impl Counts {
    pub fn new(scope: Scope) -> Counts {
        Counts {
            scope,
            numbers: [[[[0; 2]; 2]; NUMBERS]; Kind::ALL.len()],
            rows: [[0; 2]; Row::ALL.len()],
        }
    }

    pub fn add(&mut self, call: &Call, before: &State, judgement: &Judgement) {
        let form = usize::from(before.is_sorted());
        let number = judgement.answer.number as usize;
        self.numbers[call.kind() as usize][number][form][judgement.judge as usize] += 1;
        for row in Row::of(call, before, judgement) {
            self.rows[row as usize][form] += 1;
        }
    }

    /// What can occur and did not, and what did and cannot.
    pub fn faults(&self) -> Vec<Fault> {
        let forms = [(false, "early"), (true, "sorted")];
        let mut faults = Vec::new();
        for (sorted, form) in forms {
            for kind in Kind::ALL {
                let possible = match self.scope {
                    Scope::SmallWorlds => possible_in_small_worlds(kind, sorted),
                    Scope::Lists => possible(kind, sorted).to_vec(),
                };
                for number in 0..NUMBERS as u64 {
                    let by_form = &self.numbers[kind as usize][number as usize];
                    let occurred = by_form[usize::from(sorted)] != [0; 2];
                    if occurred != possible.contains(&number) {
                        let about = format!("{}, {form} form", kind.name());
                        faults.push(self.fault(&about, occurred, &number.to_string()));
                    }
                }
            }
            for row in Row::ALL {
                let occurred = self.rows[row as usize][usize::from(sorted)] > 0;
                let can_occur = row.can_occur_in(sorted)
                    && (self.scope == Scope::Lists || !row.needs_many_entries());
                if occurred != can_occur {
                    let label = format!("\"{}\"", row.label().trim());
                    faults.push(self.fault(&format!("{form} form"), occurred, &label));
                }
            }
        }
        faults
    }

    /// The small worlds are the same in every run, so what never occurs there is no chance.
    fn fault(&self, about: &str, occurred: bool, what: &str) -> Fault {
        match self.scope {
            Scope::SmallWorlds => Fault::sure(about, occurred, what),
            Scope::Lists => Fault::by_chance(about, occurred, what),
        }
    }

    /// How many calls were counted.
    pub fn calls(&self) -> u64 {
        self.numbers.as_flattened().as_flattened().as_flattened().iter().sum()
    }

    pub fn print(&self) {
        println!(
            "{:<40}{:>14}{:>14}{:>14}{:>14}",
            "calls", "early", "by doc. 01", "sorted", "by doc. 01"
        );
        for kind in Kind::ALL {
            for (number, forms) in self.numbers[kind as usize].iter().enumerate() {
                let [early, sorted] = forms;
                if *forms != [[0; 2]; 2] {
                    println!(
                        "{:<40}{:>14}{:>14}{:>14}{:>14}",
                        format!("{} {number}", kind.name()),
                        early[Judge::Rust as usize],
                        early[Judge::Document as usize],
                        sorted[Judge::Rust as usize],
                        sorted[Judge::Document as usize],
                    );
                }
            }
        }
        println!("{:<40}{:>14}{:>28}", "what came of them", "early", "sorted");
        for row in Row::ALL {
            let [early, sorted] = self.rows[row as usize];
            println!("{:<40}{early:>14}{sorted:>28}", row.label());
        }
    }
}
