//! The range and frame calls on both sides.

mod call;
mod compare;
mod counts;
mod departures;
mod domain;
mod generate;
mod ours;
mod outcome;
mod replay;
pub mod theirs;

pub use compare::compare;
pub use departures::show;
pub use replay::write_list;
