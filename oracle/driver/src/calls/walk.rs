//! Compares the small worlds whole, state by state.
//!
//! What comes of a call depends on the lists alone. So each state is looked at once, however many lists of
//! calls come to it: both sides are put into it, and every call is made from there. What a call leaves is
//! the next state.

use super::compare::shown;
use super::counts::{Counts, Scope};
use super::judge::Judgement;
use super::small;
use super::states::{Origin, States};
use crate::allocator::area::Boot;
use crate::allocator::call::Call;
use crate::allocator::record::{Answer, Stored};
use crate::allocator::state::State;
use crate::allocator::{numbers, ours, run, theirs};
use crate::verdict;

/// A state in early form is followed if it is come to by fewer calls than this after the boot. Those in
/// sorted form are followed to the end: there are few.
const CALLS: usize = 4;

/// So many differences are printed in full; the others are only counted.
const SHOWN: u64 = 20;

/// True if nothing differed and all that can come of a call in a small world did.
pub fn compare() -> bool {
    let few = small::boots_of_few_areas();
    let ascending = small::boots_that_ascend();
    let boots = [few.len(), ascending.len()];
    let mut walk = Walk::new([few, ascending].concat());
    walk.boot_each();
    let booted = walk.states.len();
    let followed = walk.follow_each();
    walk.replay_each();
    theirs::empty_lists(false);

    let changes = walk.changes.len();
    println!("small worlds: boots of few areas: {}, boots that ascend: {}", boots[0], boots[1]);
    for calls in 3..=CALLS as u32 {
        let lists = (boots[0] + boots[1]) * changes.pow(calls);
        println!("lists of {calls} out of {changes} calls after each of them: {lists}");
    }
    let [early, sorted] = [false, true].map(|form| walk.states.count(form));
    println!(
        "states they come to: {early} early, {sorted} sorted; {booted} of them by boots alone"
    );
    println!("states from which every call was made: {followed}, calls: {}", walk.counts.calls());
    println!("lists made whole: {}, calls: {}", early + sorted, walk.replayed);
    walk.counts.print();
    verdict::passes(walk.differences, &walk.counts.faults(), false)
}

struct Walk {
    boots: Vec<Boot>,
    changes: Vec<Call>,
    states: States,
    counts: Counts,
    /// So many calls were made once more.
    replayed: u64,
    differences: u64,
}

impl Walk {
    fn new(boots: Vec<Boot>) -> Walk {
        Walk {
            boots,
            changes: small::changes(),
            states: States::default(),
            counts: Counts::new(Scope::SmallWorlds),
            replayed: 0,
            differences: 0,
        }
    }

    /// Makes each boot on a fresh record. A refused one leaves that, which is a state like any other.
    fn boot_each(&mut self) {
        let mut sides = Sides::of(State::empty(false));
        for number in 0..self.boots.len() {
            let boot = Call::Boot(self.boots[number].clone());
            let after = self.call(&boot, &mut sides);
            self.states.add(&after, Origin::Boot(number));
        }
    }

    /// Makes each call on each state, and follows what it leaves. How many states were followed.
    fn follow_each(&mut self) -> usize {
        let mut followed = 0;
        let mut number = 0;
        while let Some(known) = self.states.get(number) {
            if known.is_sorted() || known.calls < CALLS {
                let mut sides = Sides::of(known.state());
                self.follow(number, &mut sides);
                followed += 1;
            }
            number += 1;
        }
        followed
    }

    fn follow(&mut self, number: usize, sides: &mut Sides) {
        for question in small::questions(sides.before.is_empty()) {
            let after = self.call(&question, sides);
            assert!(after == sides.before, "{question} changes {after}");
        }
        for change in 0..self.changes.len() {
            let call = self.changes[change].clone();
            let after = self.call(&call, sides);
            self.states.add(&after, Origin::Call(number, change));
        }
    }

    /// Makes a call on both sides, compares them, and puts them back. The state that it leaves.
    fn call(&mut self, call: &Call, sides: &mut Sides) -> State {
        let judgement = Judgement::of(call, &sides.before);
        self.counts.add(call, &sides.before, &judgement);
        let answer = ours::answer(call, &mut sides.ours);
        judgement.store(call, &mut sides.expected);
        let same = answer == judgement.answer && sides.ours == sides.expected;
        if !same {
            self.differences += 1;
            if self.differences <= SHOWN {
                println!("difference: {call}, where the lists are {}", sides.before);
                println!("  {}: {}; {}", judgement.judge.name(), judgement.answer, sides.expected);
                println!("  ours: {answer}; {}", sides.ours);
            }
        }
        if !same || judgement.after != sides.before {
            sides.put_back();
        }
        judgement.after
    }

    /// Comes to each state by a whole list on fresh lists: on their side, whose trees then have the shape that
    /// the calls gave them, and on our side by one run.
    fn replay_each(&mut self) {
        for number in 0..self.states.len() {
            let made = self.list_to(number);
            theirs::empty_lists(false);
            let answers: Vec<Answer> =
                made.iter().map(|call| numbers::answer(theirs::reply(call))).collect();
            let state = self.states.get(number).expect("a known state").state();
            let mut stored = Stored::new(&State::empty(false));
            let same = run::run(&made, &answers, &mut stored);
            self.replayed += made.len() as u64;
            if !same || theirs::state() != state || stored != Stored::new(&state) {
                self.differences += 1;
                if self.differences <= SHOWN {
                    println!("difference, where these calls are run: {}", shown(&made));
                }
            }
        }
    }

    /// The boot and the calls by which a state was first come to.
    fn list_to(&self, number: usize) -> Vec<Call> {
        let mut calls = Vec::new();
        let mut at = number;
        while let Some(Origin::Call(from, change)) = self.states.get(at).map(|known| known.origin) {
            calls.push(self.changes[change].clone());
            at = from;
        }
        if let Some(Origin::Boot(boot)) = self.states.get(at).map(|known| known.origin) {
            calls.push(Call::Boot(self.boots[boot].clone()));
        }
        calls.reverse();
        calls
    }
}

/// Both sides in one state.
struct Sides {
    before: State,
    stored: Stored,
    ours: Stored,
    expected: Stored,
}

impl Sides {
    fn of(before: State) -> Sides {
        theirs::put(&before);
        let stored = Stored::new(&before);
        Sides { before, ours: stored.clone(), expected: stored.clone(), stored }
    }

    fn put_back(&mut self) {
        theirs::put(&self.before);
        self.ours.put_back(&self.stored);
        self.expected.put_back(&self.stored);
    }
}
