//! The states of the small worlds, each once, and how each was come to.

use crate::allocator::state::State;
use crate::frames::Range;
use std::collections::HashMap;

/// How a state was first come to.
#[derive(Clone, Copy)]
pub enum Origin {
    /// By the boot of this number.
    Boot(usize),
    /// From the state of the first number, by the call of the second.
    Call(usize, usize),
}

pub struct Known {
    packed: Packed,
    pub origin: Origin,
    /// After so many calls that follow the boot, and by no fewer.
    pub calls: usize,
}

impl Known {
    pub fn state(&self) -> State {
        unpacked(&self.packed)
    }

    pub fn is_sorted(&self) -> bool {
        self.packed[0] == SORTED
    }
}

/// States in the order in which they were come to.
#[derive(Default)]
pub struct States {
    known: Vec<Known>,
    numbers: HashMap<Packed, usize>,
}

impl States {
    /// Adds a state that is not known yet.
    pub fn add(&mut self, state: &State, origin: Origin) {
        let packed = packed(state);
        if !self.numbers.contains_key(&packed) {
            let calls = match origin {
                Origin::Boot(_) => 0,
                Origin::Call(from, _) => self.known[from].calls + 1,
            };
            self.numbers.insert(packed.clone(), self.known.len());
            self.known.push(Known { packed, origin, calls });
        }
    }

    pub fn get(&self, number: usize) -> Option<&Known> {
        self.known.get(number)
    }

    pub fn len(&self) -> usize {
        self.known.len()
    }

    /// How many there are in sorted or in early form.
    pub fn count(&self, sorted: bool) -> usize {
        self.known.iter().filter(|known| known.is_sorted() == sorted).count()
    }
}

/// The form, and of each list a byte for each slot up to the last used one, or for each entry, and an end. A
/// record's slots would take 3 kB, and there are hundreds of thousands of states.
type Packed = Box<[u8]>;

const EARLY: u8 = 0;
const SORTED: u8 = 1;
const END: u8 = 0xff;

/// A byte has both ends of a range of the frames below this. The last of them is left out, for `END`.
const FRAMES: u64 = 16;

/// An unused slot.
const UNUSED: Range = Range { start: 1, end: 0 };

fn packed(state: &State) -> Packed {
    let mut bytes = vec![if state.is_sorted() { SORTED } else { EARLY }];
    match state {
        State::Early(lists) => {
            for slots in lists {
                let length = slots.iter().rposition(Option::is_some).map_or(0, |last| last + 1);
                bytes.extend(slots[..length].iter().map(|slot| byte(slot.unwrap_or(UNUSED))));
                bytes.push(END);
            }
        }
        State::Sorted(tables) => {
            for table in tables {
                bytes.extend(table.iter().map(|range| byte(*range)));
                bytes.push(END);
            }
        }
    }
    bytes.into()
}

fn unpacked(packed: &[u8]) -> State {
    let mut state = State::empty(packed[0] == SORTED);
    let lists = packed[1..].split(|byte| *byte == END);
    match &mut state {
        State::Early(early) => {
            for (slots, bytes) in early.iter_mut().zip(lists) {
                for (slot, byte) in slots.iter_mut().zip(bytes) {
                    *slot = Some(range(*byte)).filter(|range| !range.is_empty());
                }
            }
        }
        State::Sorted(tables) => {
            for (table, bytes) in tables.iter_mut().zip(lists) {
                table.extend(bytes.iter().map(|byte| range(*byte)));
            }
        }
    }
    state
}

fn byte(Range { start, end }: Range) -> u8 {
    assert!(start < FRAMES - 1 && end < FRAMES, "frames of no small world");
    (start * FRAMES + end) as u8
}

fn range(byte: u8) -> Range {
    let byte = u64::from(byte);
    Range { start: byte / FRAMES, end: byte % FRAMES }
}
