//! The allocator on both sides: its calls, its record, and the two that answer.

pub mod area;
pub mod call;
pub mod numbers;
pub mod ours;
pub mod panics;
pub mod record;
pub mod run;
pub mod state;
pub mod theirs;
