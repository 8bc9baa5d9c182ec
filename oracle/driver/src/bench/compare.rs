//! Compares what the bench program prints for random scripts, byte for byte.

use super::counts::Counts;
use super::program;
use super::script::Script;
use crate::allocator::theirs;
use crate::random::Random;
use crate::verdict::{self, Amount};

/// So many differences are printed in full; the others are only counted.
const SHOWN: u64 = 20;
/// One script in so many fills a list of 512, which takes long.
const LONG: u64 = 12;

/// True if nothing differed and all that can come of a line did, or where there are fewer scripts than by default may not have.
pub fn compare(scripts: Amount, seed: u64) -> bool {
    let mut random = Random::new(seed);
    let mut counts = Counts::default();
    let mut differences = 0;
    for index in 0..scripts.count {
        let script = match index % LONG {
            0 => Script::of_full_tables(&mut random, &mut counts),
            _ => Script::of_any_calls(&mut random, &mut counts),
        };
        if let Some(difference) = difference(&script) {
            differences += 1;
            if differences <= SHOWN {
                println!("difference, script {index}, {difference}");
            }
        }
    }
    theirs::empty_lists(false);

    counts.print();
    verdict::passes(differences, &counts.faults(), scripts.is_reduced())
}

/// The first line for which something else is printed.
fn difference(script: &Script) -> Option<String> {
    let (printed, status) = program::printed(&script.input());
    let mut rest = &printed[..];
    for (index, line) in script.lines.iter().enumerate() {
        match rest.strip_prefix(line.printed.as_bytes()) {
            Some(after) => rest = after,
            None => {
                let ours = &rest[..rest.len().min(line.printed.len().max(40))];
                return Some(format!(
                    "line {}: {}\n  expected: {}\n  ours: {}",
                    index + 1,
                    line.bytes.escape_ascii(),
                    line.printed.escape_default(),
                    ours.escape_ascii(),
                ));
            }
        }
    }
    if !rest.is_empty() {
        return Some(format!("after the last line: {}", rest.escape_ascii()));
    }
    (!status.success()).then(|| format!("{status}"))
}
