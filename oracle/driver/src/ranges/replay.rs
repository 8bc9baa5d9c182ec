//! The fixed list: some hundreds of the Rust's own answers, for a program to replay.

use super::call::{Answer, Call, Kind};
use super::domain;
use super::generate::{random_call, small_world, WORLDS};
use super::outcome::Outcome;
use super::theirs;
use crate::frames::{Range, ADDRESS_LIMIT, BYTE_LIMIT, TOP};
use crate::random::Random;
use std::collections::HashSet;
use std::fmt;
use std::path::Path;
use std::{fs, io};

/// So many calls are taken of each outcome of each call, from each source.
const EACH: usize = 5;

/// So many random calls of each kind are looked through.
const RANDOM_CALLS: u64 = 20_000;

const ALL_FRAMES: Range = Range { start: 0, end: TOP };
const ALL_BUT_TOP: Range = Range { start: 0, end: TOP - 1 };
const ONLY_TOP: Range = Range { start: TOP, end: TOP };

/// Calls that reach a limit exactly. These are in the list whatever else is.
const LIMITS: [Call; 11] = [
    Call::SizeInFrames { range: ALL_FRAMES },
    Call::ToExtended { range: ALL_BUT_TOP, frame: TOP },
    Call::FromPhysAddr { address: 0, bytes: BYTE_LIMIT },
    Call::FromPhysAddr { address: ADDRESS_LIMIT - 1, bytes: 1 },
    Call::OffsetOfAddress { range: ALL_FRAMES, address: ADDRESS_LIMIT - 1 },
    Call::AddressAtOffset { range: ALL_FRAMES, offset: BYTE_LIMIT - 1 },
    Call::AddressAtOffset { range: ALL_FRAMES, offset: BYTE_LIMIT },
    Call::AddressAtOffset { range: ONLY_TOP, offset: u64::MAX },
    Call::Merge { range: ALL_BUT_TOP, other: ONLY_TOP },
    Call::SplitRange { range: ALL_FRAMES, extract: ONLY_TOP },
    Call::SplitAt { range: ALL_FRAMES, frame: TOP },
];

/// A call that the Rust answered.
struct Answered {
    call: Call,
    answer: Answer,
    outcome: Outcome,
}

/// Writes the files `stdin`, one call a line, and `stdout`, one answer a line, to `folder`.
pub fn write_list(folder: &Path, seed: u64) -> io::Result<()> {
    let sources = sources(seed);
    let list = list(&sources);
    fs::create_dir_all(folder)?;
    fs::write(folder.join("stdin"), lines(list.iter().map(|answered| answered.call)))?;
    fs::write(folder.join("stdout"), lines(list))
}

/// The limits, each small world, and random calls; of each what lies inside document 01's domain.
fn sources(seed: u64) -> Vec<Vec<Answered>> {
    let mut random = Random::new(seed);
    let mut random_calls = Vec::new();
    for kind in Kind::ALL {
        random_calls.extend((0..RANDOM_CALLS).map(|_| random_call(kind, &mut random)));
    }
    let mut sources = vec![LIMITS.to_vec()];
    sources.extend(WORLDS.map(small_world));
    sources.push(random_calls);
    sources.into_iter().map(answered).collect()
}

fn answered(calls: Vec<Call>) -> Vec<Answered> {
    let inside = calls.into_iter().filter(|call| domain::refusal(call).is_none());
    inside
        .map(|call| {
            let answer = theirs::answer(&call);
            Answered { call, answer, outcome: Outcome::of_answer(&call, &answer) }
        })
        .collect()
}

/// Calls of every outcome from every source, sorted by call and outcome, each of them once.
fn list(sources: &[Vec<Answered>]) -> Vec<&Answered> {
    let mut taken = HashSet::new();
    let mut list = Vec::new();
    for kind in Kind::ALL {
        for &outcome in Outcome::possible(kind) {
            for source in sources {
                let fits = |a: &&Answered| a.call.kind() == kind && a.outcome == outcome;
                let fitting: Vec<&Answered> = source.iter().filter(fits).collect();
                list.extend(spread(&fitting).into_iter().filter(|a| taken.insert(a.call)));
            }
        }
    }
    list
}

/// `EACH` of them, from the first to the last at even distances: neighbours are much alike, and
/// limits stand at the ends. Where there are fewer, some come twice.
fn spread<'a>(all: &[&'a Answered]) -> Vec<&'a Answered> {
    let last = all.len().saturating_sub(1);
    (0..EACH).filter_map(|i| all.get(i * last / (EACH - 1)).copied()).collect()
}

fn lines(items: impl IntoIterator<Item = impl fmt::Display>) -> String {
    items.into_iter().map(|item| format!("{item}\n")).collect()
}

/// Yes or no, then the values in decimal, parted by one space.
impl fmt::Display for Answered {
    fn fmt(&self, f: &mut fmt::Formatter) -> fmt::Result {
        f.write_str(if self.answer.is_yes() { "yes" } else { "no" })?;
        let values = self.answer.values(self.call.kind());
        values.iter().try_for_each(|value| write!(f, " {value}"))
    }
}
