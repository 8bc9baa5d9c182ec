//! A line of the fixed list, and what answers it.

use super::counts::{Counts, Scope};
use super::judge::Judgement;
use crate::allocator::call::Call;
use crate::allocator::record::Answer;
use crate::allocator::state::State;
use crate::allocator::theirs;
use std::fmt;

#[derive(Clone, PartialEq, Eq, Hash)]
pub enum Line {
    /// Begin again with a fresh record.
    Fresh,
    Call(Way, Call),
    /// Show the record.
    Lists,
    /// A line that is none of these.
    Bad(String),
}

/// What a call is made with.
#[derive(Clone, Copy, PartialEq, Eq, Hash)]
pub enum Way {
    Plain,
    /// A workspace of 4,095 words.
    Short,
    /// A record with a used slot that has no frame.
    BrokenSlot,
    /// A workspace whose last word, which is unused, is not 0; in sorted form.
    BrokenWord,
}

impl Line {
    pub fn plain(call: Call) -> Line {
        Line::Call(Way::Plain, call)
    }
}

impl fmt::Display for Line {
    fn fmt(&self, f: &mut fmt::Formatter) -> fmt::Result {
        match self {
            Line::Fresh => write!(f, "fresh"),
            Line::Call(Way::Plain, call) => write!(f, "{call}"),
            Line::Call(Way::Short, call) => write!(f, "short {call}"),
            Line::Call(Way::BrokenSlot, call) => write!(f, "broken_slot {call}"),
            Line::Call(Way::BrokenWord, call) => write!(f, "broken_word {call}"),
            Line::Lists => write!(f, "lists"),
            Line::Bad(line) => write!(f, "{line}"),
        }
    }
}

/// Answers lines one after another, on the Rust's lists, and counts what came of them.
pub struct Answering {
    state: State,
    pub counts: Counts,
}

impl Answering {
    pub fn new() -> Answering {
        theirs::empty_lists(false);
        Answering { state: State::empty(false), counts: Counts::new(Scope::Lists) }
    }

    pub fn answer(&mut self, line: &Line) -> String {
        match line {
            Line::Fresh => {
                theirs::empty_lists(false);
                self.state = State::empty(false);
                "done".to_string()
            }
            Line::Call(Way::Plain, call) => {
                let judgement = Judgement::of(call, &self.state);
                self.counts.add(call, &self.state, &judgement);
                self.state = judgement.after;
                match call.is_question() && judgement.answer.number == 0 {
                    true => counted(call, judgement.answer.count, &self.state),
                    false => told(&judgement.answer),
                }
            }
            Line::Call(Way::Short, _) => "refused 3".to_string(),
            Line::Call(Way::BrokenSlot, _) => "refused 11".to_string(),
            Line::Call(Way::BrokenWord, call) => {
                assert!(self.state.is_sorted(), "early form doesn't read the words: {call}");
                "refused 11".to_string()
            }
            Line::Lists => self.state.to_string(),
            Line::Bad(_) => "(bad)".to_string(),
        }
    }
}

/// The count, and the runs of a held list.
fn counted(question: &Call, count: u64, state: &State) -> String {
    let runs = match question {
        Call::Held(_) => state.held(),
        _ => Vec::new(),
    };
    let pairs = runs.iter().map(|run| format!(" {} {}", run.start, run.end));
    format!("counted {count}{}", pairs.collect::<String>())
}

fn told(answer: &Answer) -> String {
    match *answer {
        Answer { number: 0, range: [1, 0], .. } => "done".to_string(),
        Answer { number: 0, range: [start, end], .. } => format!("granted {start} {end}"),
        Answer { number: 15, frame, count, .. } => format!("refused 15 {frame} {count}"),
        Answer { number, .. } => format!("refused {number}"),
    }
}
