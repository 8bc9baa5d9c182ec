//! How often each thing that can come of a boot, and of a sort after it, did.

use super::domain::is_empty;
use crate::allocator::area::{Area, Boot, Unit};
use crate::allocator::state::{Lists, Tables, SLOTS};
use crate::frames::{Range, FRAME_SIZE};
use crate::verdict::Fault;

/// Where the boots come from.
#[derive(Clone, Copy, PartialEq, Eq)]
pub enum Source {
    SmallWorlds,
    RandomFrames,
    RandomBytes,
}

impl Source {
    const ALL: [Source; 3] = [Source::SmallWorlds, Source::RandomFrames, Source::RandomBytes];

    fn label(self) -> &'static str {
        match self {
            Source::SmallWorlds => "small worlds",
            Source::RandomFrames => "random",
            Source::RandomBytes => "random, bytes",
        }
    }
}

/// A boot is counted in one row, or, where it is accepted, in `Accepted` and all below it that fit.
#[derive(Clone, Copy, PartialEq, Eq, Hash)]
pub enum Row {
    Accepted,
    NoFrame,
    OnlyGeneral,
    OnlyReserved,
    Cut,
    MorePieces,
    Vanished,
    Joined,
    Touching,
    FullPieces,
    FullReserved,
    PiecesMeet,
    PieceMeetsReserved,
    TooManyPieces,
    TooManyReserved,
    TooManyOfBoth,
    DecidedFive,
    DecidedFour,
    DecidedTwo,
    BootedTwice,
    Sorted,
    Reordered,
    FullSorted,
    BootedSorted,
}

impl Row {
    pub const ALL: [Row; 24] = [
        Row::Accepted,
        Row::NoFrame,
        Row::OnlyGeneral,
        Row::OnlyReserved,
        Row::Cut,
        Row::MorePieces,
        Row::Vanished,
        Row::Joined,
        Row::Touching,
        Row::FullPieces,
        Row::FullReserved,
        Row::PiecesMeet,
        Row::PieceMeetsReserved,
        Row::TooManyPieces,
        Row::TooManyReserved,
        Row::TooManyOfBoth,
        Row::DecidedFive,
        Row::DecidedFour,
        Row::DecidedTwo,
        Row::BootedTwice,
        Row::Sorted,
        Row::Reordered,
        Row::FullSorted,
        Row::BootedSorted,
    ];

    fn label(self) -> &'static str {
        match self {
            Row::Accepted => "accepted",
            Row::NoFrame => "    no frame at all",
            Row::OnlyGeneral => "    only general frames",
            Row::OnlyReserved => "    only reserved frames",
            Row::Cut => "    a general area is cut",
            Row::MorePieces => "    more pieces than general areas",
            Row::Vanished => "    fewer pieces than general areas",
            Row::Joined => "    reserved areas are joined",
            Row::Touching => "    touching reserved areas stay two",
            Row::FullPieces => "    32 pieces",
            Row::FullReserved => "    32 reserved areas",
            Row::PiecesMeet => "6, a piece meets a piece",
            Row::PieceMeetsReserved => "6, a piece meets a reserved area",
            Row::TooManyPieces => "7",
            Row::TooManyReserved => "5",
            Row::TooManyOfBoth => "5, where the Rust comes to 7 first",
            Row::DecidedFive => "5 (document 01)",
            Row::DecidedFour => "4 (document 01)",
            Row::DecidedTwo => "2 (document 01)",
            Row::BootedTwice => "10, after an accepted one",
            Row::Sorted => "sorted, after an accepted one",
            Row::Reordered => "    the entries of a list change places",
            Row::FullSorted => "    a list of 32 entries",
            Row::BootedSorted => "10, after a sort",
        }
    }

    /// Whether a few areas in six frames are enough.
    fn can_occur_in(self, source: Source) -> bool {
        source != Source::SmallWorlds
            || !matches!(
                self,
                Row::FullPieces
                    | Row::FullReserved
                    | Row::TooManyPieces
                    | Row::TooManyReserved
                    | Row::TooManyOfBoth
                    | Row::DecidedFive
                    | Row::DecidedTwo
                    | Row::FullSorted
            )
    }

    pub fn of_accepted(boot: &Boot, lists: &Lists) -> Vec<Row> {
        let pieces: Vec<Range> = lists[0].iter().flatten().copied().collect();
        let reserved: Vec<Range> = lists[1].iter().flatten().copied().collect();
        let given: Vec<Range> = boot.general().filter_map(|area| frames(area, boot.unit)).collect();
        let touch = |a: &Range| reserved.iter().any(|b| a.end + 1 == b.start);
        let seen = [
            (Row::Accepted, true),
            (Row::NoFrame, pieces.is_empty() && reserved.is_empty()),
            (Row::OnlyGeneral, !pieces.is_empty() && reserved.is_empty()),
            (Row::OnlyReserved, pieces.is_empty() && !reserved.is_empty()),
            (Row::Cut, pieces.iter().any(|piece| !given.contains(piece))),
            (Row::MorePieces, pieces.len() > given.len()),
            (Row::Vanished, pieces.len() < given.len()),
            (Row::Joined, reserved.len() < boot.reserved().count()),
            (Row::Touching, reserved.iter().any(touch)),
            (Row::FullPieces, pieces.len() == SLOTS),
            (Row::FullReserved, reserved.len() == SLOTS),
        ];
        those_seen(&seen)
    }

    /// Of a sort that made these tables of these lists.
    pub fn of_sorted(lists: &Lists, tables: &Tables) -> Vec<Row> {
        let reordered =
            lists.iter().zip(tables).any(|(list, table)| !list.iter().flatten().eq(table));
        let seen = [
            (Row::Sorted, true),
            (Row::Reordered, reordered),
            (Row::FullSorted, tables.iter().any(|table| table.len() == SLOTS)),
        ];
        those_seen(&seen)
    }
}

fn those_seen(rows: &[(Row, bool)]) -> Vec<Row> {
    rows.iter().filter(|(_, is_so)| *is_so).map(|(row, _)| *row).collect()
}

/// The frames of an area, if it has any.
fn frames(area: &Area, unit: Unit) -> Option<Range> {
    let (start, end) = match unit {
        _ if is_empty(area, unit) => return None,
        Unit::Frames => (area.first, area.second),
        Unit::Bytes => {
            let last = area.first + (area.second - 1);
            (area.first / FRAME_SIZE, last / FRAME_SIZE)
        }
    };
    Some(Range { start, end })
}

pub struct Counts {
    boots: [u64; 3],
    rows: [[u64; 3]; Row::ALL.len()],
}

impl Counts {
    pub fn new() -> Counts {
        Counts { boots: [0; 3], rows: [[0; 3]; Row::ALL.len()] }
    }

    pub fn add(&mut self, source: Source, rows: &[Row]) {
        self.boots[source as usize] += 1;
        rows.iter().for_each(|row| self.rows[*row as usize][source as usize] += 1);
    }

    /// A call after an accepted boot, which counts as no other boot.
    pub fn add_later(&mut self, source: Source, row: Row) {
        self.rows[row as usize][source as usize] += 1;
    }

    /// What can occur and did not. The small worlds are the same in every run.
    pub fn faults(&self) -> Vec<Fault> {
        let mut faults = Vec::new();
        for source in Source::ALL {
            let never = |row: &Row| {
                row.can_occur_in(source) && self.rows[*row as usize][source as usize] == 0
            };
            for row in Row::ALL.into_iter().filter(never) {
                let about = format!("boots, {}", source.label());
                let label = format!("\"{}\"", row.label().trim());
                faults.push(match source {
                    Source::SmallWorlds => Fault::sure(&about, false, &label),
                    _ => Fault::by_chance(&about, false, &label),
                });
            }
        }
        faults
    }

    pub fn print(&self) {
        let [small, frames, bytes] = Source::ALL.map(Source::label);
        println!("{:<40}{small:>14}{frames:>14}{bytes:>14}", "boots");
        print_row("all", self.boots);
        Row::ALL.into_iter().for_each(|row| print_row(row.label(), self.rows[row as usize]));
    }
}

fn print_row(label: &str, [small, frames, bytes]: [u64; 3]) {
    println!("{label:<40}{small:>14}{frames:>14}{bytes:>14}");
}
