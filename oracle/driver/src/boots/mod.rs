//! Whole boots on both sides.

mod compare;
mod counts;
pub mod domain;
pub mod generate;
mod judge;
mod small;
mod sources;

pub use compare::compare;
pub use counts::Row;
pub use sources::sources;
