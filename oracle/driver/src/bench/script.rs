//! Random scripts: forms as lists of calls have them, aimed by the lists as they are, and other lines among them.

use super::counts::Counts;
use super::form::Form;
use super::malformed::{malformed, with_zeros};
use super::session::Session;
use crate::allocator::area::{Area, Boot, Unit};
use crate::allocator::call::Call;
use crate::boots::generate::random_boot;
use crate::calls::Plan;
use crate::frames::FRAME_SIZE;
use crate::random::Random;
use std::collections::VecDeque;

const MOST_LINES: u64 = 300;
/// A script that fills a list of 512.
const LINES_OF_LONG: u64 = 1000;

pub struct Line {
    pub bytes: Vec<u8>,
    /// What must be printed for it.
    pub printed: String,
}

pub struct Script {
    pub lines: Vec<Line>,
    pub ends_without_newline: bool,
}

impl Script {
    pub fn of_any_calls(random: &mut Random, counts: &mut Counts) -> Script {
        let first = opening(random);
        let plan = Plan::new(random);
        let lines = 1 + random.below(MOST_LINES);
        Script::written(first, plan, lines, random, counts)
    }

    pub fn of_full_tables(random: &mut Random, counts: &mut Counts) -> Script {
        let plan = Plan::of_full_tables(random);
        Script::written(Vec::new(), plan, LINES_OF_LONG, random, counts)
    }

    /// These forms first, then those of the plan.
    fn written(
        first: Vec<Form>,
        plan: Plan,
        lines: u64,
        random: &mut Random,
        counts: &mut Counts,
    ) -> Script {
        let mut writer =
            Writer { plan, next: first.into(), session: Session::new(), lines: Vec::new() };
        while (writer.lines.len() as u64) < lines {
            writer.add_some(random, counts);
        }
        // With nothing after the last newline there would be no line.
        let last_is_empty = writer.lines.last().is_some_and(|line| line.bytes.is_empty());
        let ends_without_newline = !last_is_empty && random.once_in(4);
        counts.add_script(ends_without_newline);
        Script { lines: writer.lines, ends_without_newline }
    }

    pub fn input(&self) -> Vec<u8> {
        let mut input = Vec::new();
        for line in &self.lines {
            input.extend(&line.bytes);
            input.push(b'\n');
        }
        if self.ends_without_newline {
            input.pop();
        }
        input
    }
}

struct Writer {
    plan: Plan,
    /// These forms come next.
    next: VecDeque<Form>,
    session: Session,
    lines: Vec<Line>,
}

impl Writer {
    /// The next form, in one of the ways it may be written; now and then a line before it that is
    /// mostly none, or a list.
    fn add_some(&mut self, random: &mut Random, counts: &mut Counts) {
        let form = self.next_form(random);
        if random.once_in(8) {
            self.add(malformed(form, random), counts);
        }
        if random.once_in(20) {
            self.add(Form::List.to_string().into_bytes(), counts);
        }
        let line = match random.once_in(12) {
            true => with_zeros(form, random),
            false => form.to_string().into_bytes(),
        };
        self.add(line, counts);
    }

    fn add(&mut self, bytes: Vec<u8>, counts: &mut Counts) {
        let sorted = self.session.state.is_sorted();
        let outcome = self.session.obey(&bytes);
        counts.add(&bytes, sorted, &outcome);
        self.lines.push(Line { bytes, printed: self.session.printed(&outcome) });
    }

    /// Where the plan has come to its end, another one follows.
    fn next_form(&mut self, random: &mut Random) -> Form {
        loop {
            if let Some(form) = self.next.pop_front() {
                return form;
            }
            match self.plan.next_change(&self.session.state, random) {
                Some(call) => self.next.extend(forms(&call)),
                None if random.once_in(16) => self.next.extend(crowd(random)),
                None => self.plan = Plan::new(random),
            }
        }
    }
}

/// Mostly none; or a boot that is often refused, in either form.
fn opening(random: &mut Random) -> Vec<Form> {
    let mut forms = match random.below(16) {
        0..=4 => forms(&Call::Boot(random_boot(random))),
        5 => [crowd(random), vec![Form::Boot]].concat(),
        _ => return Vec::new(),
    };
    if random.once_in(2) {
        forms.insert(0, Form::Sort);
    }
    forms
}

/// About as many areas of a kind as are collected, side by side.
fn crowd(random: &mut Random) -> Vec<Form> {
    let first = random.below(1000);
    let reserved = random.once_in(2);
    let area = |i: u64| Area { first: first + 3 * i, second: first + 3 * i + 2, reserved };
    (0..60 + random.below(10)).map(|i| collected(&area(i), Unit::Frames)).collect()
}

/// The forms that make a call, or nearly: the program takes frames, and has no general-only request.
fn forms(call: &Call) -> Vec<Form> {
    match *call {
        Call::Boot(Boot { unit, ref areas }) => {
            let areas = areas.iter().map(|area| collected(area, unit));
            areas.chain([Form::Boot]).collect()
        }
        Call::Sort => vec![Form::Sort],
        Call::Count(count) => vec![Form::Count(count)],
        Call::CountBytes(bytes) => vec![Form::Count(bytes.div_ceil(FRAME_SIZE))],
        Call::At(start, count) | Call::GeneralAt(start, count) => vec![Form::At(start, count)],
        Call::AtBytes(address, bytes) => {
            vec![Form::At(address / FRAME_SIZE, bytes.div_ceil(FRAME_SIZE))]
        }
        Call::Return(range) => vec![Form::Give(range.start, range.end)],
        Call::Kind(_) | Call::Total(_) | Call::Held(_) => vec![Form::List],
    }
}

fn collected(&Area { first, second, reserved }: &Area, unit: Unit) -> Form {
    let (start, end) = match unit {
        Unit::Frames => (first, second),
        Unit::Bytes => {
            (first / FRAME_SIZE, first.wrapping_add(second).wrapping_sub(1) / FRAME_SIZE)
        }
    };
    if reserved {
        Form::Reserved(start, end)
    } else {
        Form::Free(start, end)
    }
}
