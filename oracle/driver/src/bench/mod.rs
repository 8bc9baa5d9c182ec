//! Scripts for the bench program, and what it prints.

mod compare;
mod counts;
mod form;
mod malformed;
mod program;
mod script;
mod session;

pub use compare::compare;
