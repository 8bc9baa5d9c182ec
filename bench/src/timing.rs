//! How a side's time is taken: the least of many batches. The sides' batches take turns, so that noise falls on all alike.

use std::time::{Duration, Instant};

/// Whose calls they are, as the report names them.
#[derive(Clone, Copy, PartialEq)]
pub enum Side {
    /// Single calls of ours, each of which tests the rules.
    Single,
    /// The same calls through our run, which tests the rules once.
    Run,
    /// The Rust's calls.
    Rust,
    /// A plain Rust pass that tests the same rules, and the Rust's call.
    RustTested,
    /// Our run of no calls on the same record: its one test, and the record copied in and out.
    EmptyRun,
}

impl Side {
    /// Where a run makes many calls.
    pub const COLUMNS: [Side; 4] = [Side::Single, Side::Run, Side::Rust, Side::RustTested];
    /// Where a run can make the call only once.
    pub const ONCE: [Side; 5] = [Side::Single, Side::Run, Side::Rust, Side::RustTested, Side::EmptyRun];

    fn name(self) -> &'static str {
        match self {
            Side::Single => "single",
            Side::Run => "run",
            Side::Rust => "rust",
            Side::RustTested => "rust_tested",
            Side::EmptyRun => "empty_run",
        }
    }
}

/// What is timed: a row of the report.
pub struct Row {
    pub table: &'static str,
    pub case: &'static str,
    pub form: &'static str,
    pub size: usize,
}

impl Row {
    /// Prints a line for each side: nanoseconds for one of `calls` calls in a batch. The batch says how long it took.
    pub fn time(&self, sides: &[Side], rounds: usize, calls: usize, mut batch: impl FnMut(Side) -> Duration) {
        let mut least = [Duration::MAX; 5];
        for _ in 0..rounds {
            for side in sides {
                least[*side as usize] = least[*side as usize].min(batch(*side));
            }
        }
        let Row { table, case, form, size } = self;
        for side in sides {
            let ns = least[*side as usize].as_nanos() as f64 / calls as f64;
            println!("{table};{case};{form};{size};{};{ns:.1}", side.name());
        }
    }
}

/// The time of the whole batch.
pub fn timed(batch: impl FnOnce()) -> Duration {
    let begin = Instant::now();
    batch();
    begin.elapsed()
}

/// The time of `calls` calls, without what has to be done before each of them.
pub fn timed_each<S>(calls: usize, mut before: impl FnMut() -> S, mut call: impl FnMut(S)) -> Duration {
    let mut sum = Duration::ZERO;
    for _ in 0..calls {
        let state = before();
        let begin = Instant::now();
        call(state);
        sum += begin.elapsed();
    }
    sum
}
