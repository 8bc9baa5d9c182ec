//! How often each answer to a line occurred, in early and in sorted form.

use super::form::MOST_BYTES;
use super::session::{Outcome, Why};
use crate::verdict::Fault;

const NUMBERS: usize = 20;
/// The refusals that the program can print; 12 and 17 in sorted form only.
const REFUSALS: [usize; 14] = [1, 2, 4, 5, 6, 7, 10, 12, 13, 14, 16, 17, 18, 19];

/// What is counted beside the refusals.
const LABELS: [&str; 8] = [
    "collected",
    "done",
    "grant",
    "lists",
    "bad, no form",
    "bad, a form above 128 bytes",
    "bad, the 65th area",
    "forms of 128 bytes",
];

#[derive(Default)]
pub struct Counts {
    scripts: u64,
    without_newline: u64,
    lines: u64,
    bytes: u64,
    /// By label and form.
    rows: [[u64; 2]; LABELS.len()],
    /// By number and form.
    refusals: [[u64; 2]; NUMBERS],
}

impl Counts {
    pub fn add_script(&mut self, ends_without_newline: bool) {
        self.scripts += 1;
        self.without_newline += u64::from(ends_without_newline);
    }

    /// A line that came in this form of the lists.
    pub fn add(&mut self, line: &[u8], sorted: bool, outcome: &Outcome) {
        let form = usize::from(sorted);
        self.lines += 1;
        self.bytes += line.len() as u64;
        match row(outcome) {
            Ok(row) => self.rows[row][form] += 1,
            Err(number) => self.refusals[number as usize][form] += 1,
        }
        if line.len() == MOST_BYTES && !matches!(outcome, Outcome::Bad(_)) {
            self.rows[LABELS.len() - 1][form] += 1;
        }
    }

    /// What can occur and did not, and what did and cannot.
    pub fn faults(&self) -> Vec<Fault> {
        let mut faults = Vec::new();
        for (form, name) in ["early form", "sorted form"].into_iter().enumerate() {
            for (label, row) in LABELS.iter().zip(&self.rows) {
                if row[form] == 0 {
                    faults.push(Fault::by_chance(name, false, &format!("\"{label}\"")));
                }
            }
            for (number, row) in self.refusals.iter().enumerate() {
                let can_occur =
                    REFUSALS.contains(&number) && (form == 1 || ![12, 17].contains(&number));
                let occurred = row[form] > 0;
                if occurred != can_occur {
                    faults.push(Fault::by_chance(name, occurred, &format!("(no {number})")));
                }
            }
        }
        faults
    }

    pub fn print(&self) {
        let Counts { scripts, without_newline, lines, bytes, .. } = self;
        println!(
            "scripts: {scripts}, {without_newline} of them without a newline at the end; lines: {lines}, bytes: {bytes}"
        );
        println!("{:<40}{:>14}{:>28}", "lines", "early", "sorted");
        let refusals = (0..NUMBERS).map(|number| (format!("no {number}"), self.refusals[number]));
        let rows = LABELS.iter().map(|label| label.to_string()).zip(self.rows);
        for (label, [early, sorted]) in rows.chain(refusals) {
            if [early, sorted] != [0; 2] {
                println!("{label:<40}{early:>14}{sorted:>28}");
            }
        }
    }
}

/// Which label it has, or the number of a refusal.
fn row(outcome: &Outcome) -> Result<usize, u64> {
    match outcome {
        Outcome::Collected => Ok(0),
        Outcome::Done => Ok(1),
        Outcome::Grant(_) => Ok(2),
        Outcome::Lists => Ok(3),
        Outcome::Bad(Why::NoForm) => Ok(4),
        Outcome::Bad(Why::TooLong) => Ok(5),
        Outcome::Bad(Why::TooMany) => Ok(6),
        Outcome::No(number) => Err(*number),
    }
}
