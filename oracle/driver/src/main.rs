//! Holds the static library to the Theseus sources: see ../README.md.

mod allocator;
mod bench;
mod boots;
mod calls;
mod frames;
mod random;
mod ranges;
mod verdict;

use crate::verdict::Amount;
use std::path::Path;
use std::process::ExitCode;
use std::{env, io};

const USAGE: &str = "usage: run [--random CALLS] [--boots BOOTS] [--calls CALLS] [--scripts SCRIPTS] [--seed NUMBER]
       run --replay-list FOLDER
       run --replay-calls FOLDER
       run --departures";

/// Range and frame calls. About 34 million of these lie inside the domain, so that the Rust itself answers them.
const RANDOM_CALLS: u64 = 40_000_000;
const RANDOM_BOOTS: u64 = 1_000_000;
/// Calls in random lists; every second one is a question.
const LISTED_CALLS: u64 = 8_000_000;
/// Scripts for the bench program.
const SCRIPTS: u64 = 3_000;
const SEED: u64 = 1;

fn main() -> ExitCode {
    let arguments: Vec<String> = env::args().skip(1).collect();
    let arguments: Vec<&str> = arguments.iter().map(String::as_str).collect();

    match arguments[..] {
        ["--replay-list", folder] => return written(folder, ranges::write_list),
        ["--replay-calls", folder] => return written(folder, calls::write_list),
        ["--departures"] => return status(ranges::show() & calls::show()),
        ["--ask-rust", index] => {
            calls::ask_rust(index.parse().expect("a departure's number"));
            return ExitCode::SUCCESS;
        }
        _ => {}
    }

    let Some(options) = comparison_options(&arguments) else {
        eprintln!("{USAGE}");
        return ExitCode::from(2);
    };
    let Options { random, boots, calls, scripts, seed } = options;
    println!(
        "random calls: {random}, random boots: {}, calls in lists: {}, scripts: {}, seed: {seed}",
        boots.count, calls.count, scripts.count
    );
    if [boots, calls, scripts].into_iter().any(Amount::is_reduced) {
        println!("fewer than by default: what is rare may not occur there, which is told and is no fault");
    }
    let parts: [(&str, &dyn Fn() -> bool); 5] = [
        ("range and frame calls", &|| ranges::compare(random, seed)),
        ("boots", &|| boots::compare(boots, seed)),
        ("lists of calls in small worlds, which take longest", &calls::compare_small_worlds),
        ("random lists of calls", &|| calls::compare(calls, seed)),
        ("scripts for the bench program", &|| bench::compare(scripts, seed)),
    ];
    let mut passes = true;
    for (index, (what, compare)) in parts.iter().enumerate() {
        eprintln!("oracle: comparing, {} of {}: {what}", index + 1, parts.len());
        passes &= compare();
    }
    status(passes)
}

fn written(folder: &str, write: fn(&Path, u64) -> io::Result<()>) -> ExitCode {
    match write(Path::new(folder), SEED) {
        Ok(()) => ExitCode::SUCCESS,
        Err(error) => {
            eprintln!("{folder}: {error}");
            ExitCode::FAILURE
        }
    }
}

fn status(success: bool) -> ExitCode {
    if success {
        ExitCode::SUCCESS
    } else {
        ExitCode::FAILURE
    }
}

/// How many random calls, boots, calls in lists and scripts are compared.
struct Options {
    random: u64,
    boots: Amount,
    calls: Amount,
    scripts: Amount,
    seed: u64,
}

fn comparison_options(arguments: &[&str]) -> Option<Options> {
    let whole = |default: u64| Amount { count: default, default };
    let mut options = Options {
        random: RANDOM_CALLS,
        boots: whole(RANDOM_BOOTS),
        calls: whole(LISTED_CALLS),
        scripts: whole(SCRIPTS),
        seed: SEED,
    };
    for option in arguments.chunks(2) {
        match option {
            ["--random", number] => options.random = number.parse().ok()?,
            ["--boots", number] => options.boots.count = number.parse().ok()?,
            ["--calls", number] => options.calls.count = number.parse().ok()?,
            ["--scripts", number] => options.scripts.count = number.parse().ok()?,
            ["--seed", number] => options.seed = number.parse().ok()?,
            _ => return None,
        }
    }
    Some(options)
}
