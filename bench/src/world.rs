//! The states that calls are timed on.

use crate::record::{FrameAllocator, FRESH, GENERAL_FREE, GENERAL_REGIONS, PART, WORDS};

#[derive(Clone, Copy, PartialEq)]
pub enum Form {
    Early,
    Sorted,
}

impl Form {
    pub fn name(self) -> &'static str {
        match self {
            Form::Early => "early",
            Form::Sorted => "sorted",
        }
    }
}

/// A record and its workspace.
#[derive(Clone, PartialEq)]
pub struct World {
    pub record: FrameAllocator,
    pub words: Vec<u64>,
}

/// Entry `i` of a list. General regions of eight frames, the lowest of nine, take turns with reserved ones of two, and each is a free
/// chunk; no two touch.
pub fn entry(list: usize, i: usize) -> (u64, u64) {
    let base = 16 * i as u64;
    if list == GENERAL_FREE || list == GENERAL_REGIONS {
        (base, base + if i == 0 { 8 } else { 7 })
    } else {
        (base + 10, base + 11)
    }
}

impl World {
    pub fn fresh() -> World {
        World { record: FRESH, words: vec![0; WORDS] }
    }

    /// Each list has so many entries.
    pub fn new(form: Form, entries: usize) -> World {
        World::with(form, entries, entry)
    }

    /// The same in sorted form, with so many frames more between two of the entries: those from one on lie higher.
    pub fn with_gap(entries: usize, below: usize, frames: u64) -> World {
        World::with(Form::Sorted, entries, |list, i| {
            let (start, end) = entry(list, i);
            let higher = if i < below { 0 } else { frames };
            (start + higher, end + higher)
        })
    }

    fn with(form: Form, entries: usize, entry: impl Fn(usize, usize) -> (u64, u64)) -> World {
        let mut world = World::fresh();
        world.record.sorted = (form == Form::Sorted).into();
        for list in 0..4 {
            for i in 0..entries {
                world.put(form, list, i, entry(list, i));
            }
        }
        world
    }

    fn put(&mut self, form: Form, list: usize, i: usize, (start, end): (u64, u64)) {
        match form {
            Form::Early => {
                let slots = &mut self.record.lists[list];
                (slots.starts[i], slots.ends[i], slots.used[i]) = (start, end, 1);
            }
            Form::Sorted => {
                let word = list * PART + 2 * i;
                self.words[word..word + 2].copy_from_slice(&[start, end]);
                self.record.lens[list] = i + 1;
            }
        }
    }

    /// The entries of a list in stored order.
    pub fn entries(&self, list: usize) -> Vec<(u64, u64)> {
        if self.record.sorted == 1 {
            let part = &self.words[list * PART..];
            return (0..self.record.lens[list]).map(|i| (part[2 * i], part[2 * i + 1])).collect();
        }
        let slots = &self.record.lists[list];
        let used = (0..slots.used.len()).filter(|i| slots.used[*i] == 1);
        used.map(|i| (slots.starts[i], slots.ends[i])).collect()
    }
}
