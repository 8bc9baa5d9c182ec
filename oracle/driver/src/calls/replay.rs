//! The fixed list of calls, for a program to replay: chosen cases, and some thousands of the Rust's own
//! answers.

use super::generate::Plan;
use super::judge::Judgement;
use super::line::{Answering, Line};
use super::rows::Row;
use super::{chosen_boots, chosen_requests};
use crate::allocator::area::Boot;
use crate::allocator::state::State;
use crate::allocator::theirs;
use crate::boots;
use crate::random::Random;
use std::collections::{HashMap, HashSet};
use std::path::Path;
use std::{fs, io};

/// So many boots are taken for each row of their table from each source, and of those whose kinds change
/// more than once.
const BOOTS: usize = 4;

/// So many calls are taken for each number of each call in each form, and for each row.
const CALLS: usize = 4;

/// So many random lists of calls are looked through for them.
const RANDOM_LISTS: usize = 20_000;

/// So many random lists are taken besides.
const OTHER_LISTS: usize = 24;

/// A random list ends at so many bytes.
const MOST_BYTES_OF_ONE: usize = 2_000;

/// The program that replays the list takes no more input than this.
const MOST_BYTES: usize = 262_144;

/// Lines that are no call. `(bad)` answers each.
const BAD: [&str; 54] = [
    "",
    " ",
    "fresh ",
    "fresh 1",
    "Fresh",
    "sort ",
    "sort 1",
    "sorts",
    "sorted",
    "lists 1",
    "boots",
    "boot ",
    "boot 0 9",
    "boot 0 9 general ",
    "boot 0  9 general",
    "boot 0 9 free",
    "boot 0 x general",
    "boot 18446744073709551616 0 general",
    "boot_bytes 0 x general",
    "count",
    "count ",
    "count 1 ",
    " count 1",
    "count  1",
    "count 1 2",
    "count -1",
    "count +1",
    "count 0x1",
    "count 18446744073709551616",
    "counts 1",
    "count_bytes",
    "at 1",
    "at 1 2 3",
    "at_bytes 1",
    "general_at 1",
    "return",
    "return 1",
    "kind",
    "kind 1",
    "kind 1 2 3",
    "total",
    "total 1",
    "total free",
    "total general ",
    "total general reserved",
    "held 1",
    "held_shorts",
    "short",
    "short ",
    "short lists",
    "short short count 1",
    "broken_slot fresh",
    "broken_word",
    "broken_word lists",
];

/// Writes the files `stdin`, one line to a call, and `stdout`, one answer a line, to `folder`.
pub fn write_list(folder: &Path, seed: u64) -> io::Result<()> {
    let lines = list(seed);
    let mut answering = Answering::new();
    let stdin: String = lines.iter().map(|line| format!("{line}\n")).collect();
    let stdout: String = lines.iter().map(|line| answering.answer(line) + "\n").collect();
    theirs::empty_lists(false);
    let faults = answering.counts.faults();
    assert!(faults.is_empty(), "the list lacks something: {faults:?}");
    assert!(stdin.len() <= MOST_BYTES, "the list has {} bytes", stdin.len());
    fs::create_dir_all(folder)?;
    fs::write(folder.join("stdin"), stdin)?;
    fs::write(folder.join("stdout"), stdout)
}

fn list(seed: u64) -> Vec<Line> {
    let bad = BAD.iter().map(|line| line.to_string());
    let bad = bad.chain([chosen_boots::too_many_areas().to_string()]).map(Line::Bad);
    let mut lines = [chosen_boots::lines(), chosen_requests::lines(), boots(seed)].concat();
    lines.extend(random_lists(seed));
    lines.extend(bad.chain([Line::Lists]));
    lines
}

/// Boots of every row of their table.
fn boots(seed: u64) -> Vec<Line> {
    let mut taken = HashSet::new();
    let mut lines = Vec::new();
    for source in boots::sources(seed) {
        let kinds = |boot: &Boot| {
            boot.areas.windows(2).filter(|areas| areas[0].reserved != areas[1].reserved).count()
        };
        let mut take = |fitting: Vec<&Boot>| {
            let shortest = shortest_of_each_stretch(&fitting);
            let new = shortest.into_iter().filter(|boot| taken.insert((*boot).clone()));
            lines.extend(new.flat_map(chosen_boots::booted));
        };
        for row in boots::Row::ALL {
            let rows = source.iter().filter(|(_, rows)| rows.contains(&row));
            take(rows.map(|(boot, _)| boot).collect());
        }
        take(source.iter().map(|(boot, _)| boot).filter(|boot| kinds(boot) > 1).collect());
    }
    lines
}

/// `BOOTS` of them, the shortest of as many stretches.
fn shortest_of_each_stretch<'a>(all: &[&'a Boot]) -> Vec<&'a Boot> {
    let stretch = all.len().div_ceil(BOOTS).max(1);
    let shortest = |boots: &[&'a Boot]| boots.iter().copied().min_by_key(|b| b.to_string().len());
    all.chunks(stretch).filter_map(shortest).collect()
}

/// What a call counts for: its number in its form, and its rows.
#[derive(PartialEq, Eq, Hash)]
enum Seen {
    Number(&'static str, u64, bool),
    Row(Row, bool),
}

/// Some lists as they come; then, from the shortest on, those that show what was not seen often yet, each
/// up to its last such call.
fn random_lists(seed: u64) -> Vec<Line> {
    let mut random = Random::new(seed);
    let mut lists: Vec<_> = (0..RANDOM_LISTS).map(|_| random_list(&mut random)).collect();
    let mut lines: Vec<Line> =
        lists[..OTHER_LISTS].iter().flat_map(|(list, _)| list).cloned().collect();
    lists.sort_by_cached_key(|(list, _)| list.iter().map(|l| l.to_string().len()).sum::<usize>());
    let mut seen: HashMap<Seen, usize> = HashMap::new();
    for (list, shown) in lists {
        let mut wanted = 0;
        for (i, what) in shown {
            let times = seen.entry(what).or_default();
            if *times < CALLS {
                *times += 1;
                wanted = i + 1;
            }
        }
        if wanted > 0 {
            lines.extend(list.into_iter().take(wanted).chain([Line::Lists]));
        }
    }
    lines
}

/// A random list with the lists after each call that is accepted and no question, and which lines count for what. It
/// ends where it would become too long.
fn random_list(random: &mut Random) -> (Vec<Line>, Vec<(usize, Seen)>) {
    theirs::empty_lists(false);
    let mut state = State::empty(false);
    let mut plan = Plan::new(random);
    let mut lines = vec![Line::Fresh];
    let mut shown = Vec::new();
    let mut bytes = 0;
    while let Some(call) = plan.next(&state, random) {
        let judgement = Judgement::of(&call, &state);
        let (sorted, number) = (state.is_sorted(), judgement.answer.number);
        let at = lines.len();
        shown.push((at, Seen::Number(call.kind().name(), number, sorted)));
        let rows = Row::of(&call, &state, &judgement);
        shown.extend(rows.into_iter().map(|row| (at, Seen::Row(row, sorted))));
        state = judgement.after;
        let shows = number == 0 && !call.is_question();
        let line = Line::plain(call);
        bytes += line.to_string().len();
        lines.push(line);
        lines.extend(shows.then_some(Line::Lists));
        if bytes > MOST_BYTES_OF_ONE {
            break;
        }
    }
    lines.push(Line::Lists);
    (lines, shown)
}
