//! The four lists in either form.

use crate::frames::Range;
use std::fmt;

pub const SLOTS: usize = 32;

/// The lists' names, in the record's order.
pub const NAMES: [&str; 4] =
    ["general_free", "reserved_free", "general_regions", "reserved_regions"];

/// Where each list stands among the four.
pub const GENERAL_FREE: usize = 0;
pub const RESERVED_FREE: usize = 1;
pub const GENERAL_REGIONS: usize = 2;
pub const RESERVED_REGIONS: usize = 3;

/// The slots of the four lists, in stored order.
pub type Lists = [[Option<Range>; SLOTS]; 4];

/// The entries of the four lists, each from the lowest start to the highest.
pub type Tables = [Vec<Range>; 4];

#[derive(Clone, PartialEq, Eq)]
pub enum State {
    Early(Lists),
    Sorted(Tables),
}

impl State {
    /// Empty lists.
    pub fn empty(sorted: bool) -> State {
        if sorted {
            State::Sorted(Default::default())
        } else {
            State::Early([[None; SLOTS]; 4])
        }
    }

    pub fn is_sorted(&self) -> bool {
        matches!(self, State::Sorted(_))
    }

    /// The entries of a list in stored order.
    pub fn entries(&self, list: usize) -> Vec<Range> {
        match self {
            State::Early(lists) => lists[list].iter().flatten().copied().collect(),
            State::Sorted(tables) => tables[list].clone(),
        }
    }

    pub fn len(&self, list: usize) -> usize {
        match self {
            State::Early(lists) => lists[list].iter().flatten().count(),
            State::Sorted(tables) => tables[list].len(),
        }
    }

    /// Whether the entries of a list hold these frames together. No two entries have a frame in common.
    pub fn holds(&self, list: usize, frames: Range) -> bool {
        if frames.is_empty() {
            return false;
        }
        let entries = self.entries(list);
        let shared = |entry: &Range| entry.end.min(frames.end) + 1 - entry.start.max(frames.start);
        let sum: u64 = entries.iter().filter(|entry| entry.meets(frames)).map(shared).sum();
        sum.checked_sub(1) == Some(frames.end - frames.start)
    }

    /// How many frames the entries of a list have together.
    pub fn total(&self, list: usize) -> u64 {
        self.entries(list).iter().map(|entry| entry.end - entry.start + 1).sum()
    }

    /// The frames of a kind's regions that are not in its free list, ascending, as runs that may touch
    /// where regions do.
    pub fn not_free(&self, list: usize) -> Vec<Range> {
        let ascending = |list: usize| {
            let mut entries = self.entries(list);
            entries.sort_by_key(|entry| entry.start);
            entries
        };
        let chunks = ascending(list);
        let mut runs = Vec::new();
        for region in ascending(list + GENERAL_REGIONS) {
            let mut start = region.start;
            for chunk in chunks.iter().filter(|chunk| chunk.meets(region)) {
                runs.extend((start < chunk.start).then(|| Range { start, end: chunk.start - 1 }));
                start = chunk.end + 1;
            }
            runs.extend((start <= region.end).then_some(Range { start, end: region.end }));
        }
        runs
    }

    /// The maximal runs of general frames not free, ascending.
    pub fn held(&self) -> Vec<Range> {
        let mut runs: Vec<Range> = Vec::new();
        for run in self.not_free(GENERAL_FREE) {
            match runs.last_mut() {
                Some(last) if last.end + 1 == run.start => last.end = run.end,
                _ => runs.push(run),
            }
        }
        runs
    }

    pub fn is_empty(&self) -> bool {
        (0..NAMES.len()).all(|list| self.len(list) == 0)
    }
}

/// The form, then the four lists in stored order, each after its name; a dash stands for the unused
/// slots below a used one.
impl fmt::Display for State {
    fn fmt(&self, f: &mut fmt::Formatter) -> fmt::Result {
        f.write_str(if self.is_sorted() { "sorted" } else { "early" })?;
        for (list, name) in NAMES.iter().enumerate() {
            write!(f, " {name}")?;
            match self {
                State::Early(lists) => write_slots(f, &lists[list])?,
                State::Sorted(tables) => {
                    tables[list].iter().try_for_each(|range| write_range(f, range))?
                }
            }
        }
        Ok(())
    }
}

fn write_slots(f: &mut fmt::Formatter, slots: &[Option<Range>; SLOTS]) -> fmt::Result {
    let mut gap = false;
    for slot in slots {
        if let Some(range) = slot {
            f.write_str(if gap { " -" } else { "" })?;
            write_range(f, range)?;
        }
        gap = slot.is_none();
    }
    Ok(())
}

fn write_range(f: &mut fmt::Formatter, range: &Range) -> fmt::Result {
    write!(f, " {} {}", range.start, range.end)
}
