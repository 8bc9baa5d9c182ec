//! Lists of calls on both sides.

mod chosen_boots;
mod chosen_requests;
mod compare;
mod counts;
mod departures;
mod domain;
mod generate;
mod judge;
mod line;
mod question_rows;
mod replay;
mod rows;
mod small;
mod states;
mod walk;

pub use compare::compare;
pub use departures::{ask_rust, show};
pub use generate::Plan;
pub use judge::Judgement;
pub use replay::write_list;
pub use walk::compare as compare_small_worlds;
