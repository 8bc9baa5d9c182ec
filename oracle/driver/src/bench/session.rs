//! What the bench program must print, line by line: the calls on the Rust's lists, the rest by document 01.

use super::form::{Form, MOST_BYTES};
use crate::allocator::area::{general, reserved, Area, Boot};
use crate::allocator::call::Call;
use crate::allocator::state::State;
use crate::allocator::theirs;
use crate::calls::Judgement;
use crate::frames::Range;

/// So many areas of a kind are collected.
const MOST_AREAS: usize = 64;

/// The lists as `(list)` names them.
const NAMES: [&str; 4] = ["general-free", "reserved-free", "general-regions", "reserved-regions"];

/// What comes of a line.
pub enum Outcome {
    Collected,
    Done,
    Grant([u64; 2]),
    No(u64),
    Lists,
    Bad(Why),
}

#[derive(Clone, Copy, PartialEq, Eq)]
pub enum Why {
    NoForm,
    /// A form but for its length.
    TooLong,
    /// The 65th area of a kind.
    TooMany,
}

pub struct Session {
    areas: Vec<Area>,
    pub state: State,
}

impl Session {
    pub fn new() -> Session {
        theirs::empty_lists(false);
        Session { areas: Vec::new(), state: State::empty(false) }
    }

    pub fn obey(&mut self, line: &[u8]) -> Outcome {
        match Form::read(line) {
            None => Outcome::Bad(Why::NoForm),
            Some(_) if line.len() > MOST_BYTES => Outcome::Bad(Why::TooLong),
            Some(form) => self.obey_form(form),
        }
    }

    fn obey_form(&mut self, form: Form) -> Outcome {
        match form {
            Form::Free(start, end) => self.collect(general(start, end)),
            Form::Reserved(start, end) => self.collect(reserved(start, end)),
            Form::Boot => self.call(Call::Boot(Boot::of_frames(&self.areas))),
            Form::Sort => self.call(Call::Sort),
            Form::Count(count) => self.call(Call::Count(count)),
            Form::At(start, count) => self.call(Call::At(start, count)),
            Form::Give(start, end) => self.call(Call::Return(Range { start, end })),
            Form::List => Outcome::Lists,
        }
    }

    fn collect(&mut self, area: Area) -> Outcome {
        let of_its_kind = self.areas.iter().filter(|other| other.reserved == area.reserved);
        if of_its_kind.count() >= MOST_AREAS {
            return Outcome::Bad(Why::TooMany);
        }
        self.areas.push(area);
        Outcome::Collected
    }

    fn call(&mut self, call: Call) -> Outcome {
        let judgement = Judgement::of(&call, &self.state);
        self.state = judgement.after;
        match (judgement.answer.number, call) {
            (0, Call::Count(_) | Call::At(..)) => Outcome::Grant(judgement.answer.range),
            (0, _) => Outcome::Done,
            (number, _) => Outcome::No(number),
        }
    }

    /// What is printed where this came of the last line.
    pub fn printed(&self, outcome: &Outcome) -> String {
        match outcome {
            Outcome::Collected => String::new(),
            Outcome::Done => "(done)\n".to_string(),
            Outcome::Grant([start, end]) => format!("(grant {start} {end})\n"),
            Outcome::No(number) => format!("(no {number})\n"),
            Outcome::Lists => self.printed_lists(),
            Outcome::Bad(_) => "(bad)\n".to_string(),
        }
    }

    /// The four lists in stored order, one a line; an empty one is its bare name in brackets.
    fn printed_lists(&self) -> String {
        let pair = |range: &Range| format!(" ({} {})", range.start, range.end);
        let line = |(list, name): (usize, &str)| {
            format!("({name}{})\n", self.state.entries(list).iter().map(pair).collect::<String>())
        };
        NAMES.into_iter().enumerate().map(line).collect()
    }
}
