//! Their side: the Theseus sources.
//!
//! Its lists are statics, so a process has one set of them; the window empties, fills and reads them.
//! Some of its refusals are panics. Those of a boot come before it locks a list or makes a `Frames`, and
//! unwinding from the `todo!` of a request only unlocks what is locked, so catching one leaves the lists
//! as they were.

use super::area::{Area, Boot, Unit};
use super::call::Call;
use super::panics::{self, Reason};
use super::state::{Lists, State, Tables, GENERAL_FREE, RESERVED_FREE};
use crate::frames::Range;
use crate::ranges::theirs::{address, ends, frame};
use frame_allocator::{
    allocate_frames_by_bytes_deferred, allocate_frames_deferred,
    convert_frame_allocator_to_heap_based, init, inspect_then_allocate_free_frames,
    AllocatedFrames, DeferredAllocAction, FramesIteratorRequest, FreeFrames, MemoryRegionType,
    PhysicalMemoryRegion,
};
use memory_structs::FrameRange;
use std::mem;

/// What the Rust did with a call.
#[derive(Clone, Copy)]
pub enum Reply {
    Done,
    Granted(Range),
    Err(&'static str),
    /// What a question asks for.
    Counted(u64),
    /// "only some of the requested frames were available": the first absent one, and how many are.
    OnlySome(u64, u64),
    /// `Ok(None)`: no frames, and no error.
    Nothing,
    Panic(Reason),
}

/// Makes the call on the lists as they are.
pub fn reply(call: &Call) -> Reply {
    match *call {
        Call::Boot(ref boot) => self::boot(boot),
        Call::Sort => {
            convert_frame_allocator_to_heap_based();
            Reply::Done
        }
        Call::Count(count) => granted(|| allocate_frames_deferred(None, count as usize)),
        Call::CountBytes(bytes) => {
            granted(|| allocate_frames_by_bytes_deferred(None, bytes as usize))
        }
        Call::At(start, count) => {
            let address = frame(start).start_address();
            granted(|| allocate_frames_deferred(Some(address), count as usize))
        }
        Call::AtBytes(start, bytes) => {
            granted(|| allocate_frames_by_bytes_deferred(Some(address(start)), bytes as usize))
        }
        Call::GeneralAt(start, count) => caught(|| general_at(start, count)),
        Call::Return(Range { start, end }) => {
            FreeFrames::window_return(frame_range(start, end));
            Reply::Done
        }
        Call::Kind(Range { start, end }) => {
            Reply::Counted(FreeFrames::window_is_reserved(frame_range(start, end)).into())
        }
        // The Rust has no such call; its lists say what it would answer.
        Call::Total(reserved) => {
            Reply::Counted(state().total(if reserved { RESERVED_FREE } else { GENERAL_FREE }))
        }
        Call::Held(_) => Reply::Counted(state().held().len() as u64),
    }
}

/// The regions are made one by one as they are asked for: to a second boot they don't matter.
pub fn boot(boot: &Boot) -> Reply {
    let regions = |reserved: bool| {
        let areas = boot.areas.iter().filter(move |area| area.reserved == reserved);
        areas.map(|area| region(area, boot.unit))
    };
    caught(|| match init(regions(false), regions(true)) {
        Ok(_) => Reply::Done,
        Err(error) => Reply::Err(error),
    })
}

fn caught(run: impl FnOnce() -> Reply) -> Reply {
    panics::catch(run).unwrap_or_else(|panic| Reply::Panic(panic.reason()))
}

type Grant = (AllocatedFrames, DeferredAllocAction<'static>);

/// The leftovers go back to their list when the second part of a grant is dropped.
fn granted(request: impl FnOnce() -> Result<Grant, &'static str>) -> Reply {
    caught(|| match request() {
        Ok((frames, _leftovers)) => Reply::Granted(taken(frames)),
        Err(error) => Reply::Err(error),
    })
}

/// Dropping the frames would return them, so they are forgotten.
fn taken(frames: AllocatedFrames) -> Range {
    let taken = range(&frames);
    mem::forget(frames);
    taken
}

/// The port's general-only request: the first chunk that is looked at is told to stop there and to
/// allocate these frames.
fn general_at(start: u64, count: u64) -> Reply {
    let (requested_frame, num_frames) = (frame(start), count as usize);
    let mut request =
        |_: &FreeFrames| FramesIteratorRequest::AllocateAt { requested_frame, num_frames };
    match inspect_then_allocate_free_frames(&mut request) {
        Ok(Some(frames)) => Reply::Granted(taken(frames)),
        Ok(None) => Reply::Nothing,
        Err(error) => match FreeFrames::window_missing(requested_frame, num_frames) {
            Some((first, absent)) => Reply::OnlySome(first.number() as u64, absent as u64),
            None => Reply::Err(error),
        },
    }
}

/// The lists as they are.
pub fn state() -> State {
    match FreeFrames::window_slots() {
        Some(lists) => State::Early(lists.map(|list| list.map(|slot| slot.as_ref().map(range)))),
        None => {
            let tables = FreeFrames::window_tables().expect("four lists in one form");
            State::Sorted(tables.map(|table| table.iter().map(range).collect()))
        }
    }
}

/// The lists as they are, in early form.
pub fn lists() -> Lists {
    match state() {
        State::Early(lists) => lists,
        State::Sorted(_) => panic!("the lists are in sorted form"),
    }
}

/// Leaves the lists empty, in early or in sorted form.
pub fn empty_lists(sorted: bool) {
    FreeFrames::window_empty_lists(sorted);
}

/// Puts the lists as they are in a state. The trees of a sorted one are filled from the lowest start up.
pub fn put(state: &State) {
    let slot = |slot: Option<Range>| slot.map(|range| frame_range(range.start, range.end));
    match state {
        State::Early(lists) => {
            FreeFrames::window_put_slots(lists.map(|slots| slots.map(slot)));
        }
        State::Sorted(tables) => put_back(tables),
    }
}

/// Puts back lists in sorted form.
pub fn put_back(tables: &Tables) {
    FreeFrames::window_empty_lists(true);
    let ranges = |table: &Vec<Range>| {
        table.iter().map(|range| frame_range(range.start, range.end)).collect()
    };
    FreeFrames::window_insert(tables.each_ref().map(ranges));
}

fn region(area: &Area, unit: Unit) -> PhysicalMemoryRegion {
    let frames = match unit {
        Unit::Frames => frame_range(area.first, area.second),
        Unit::Bytes => FrameRange::from_phys_addr(address(area.first), area.second as usize),
    };
    let kind = if area.reserved { MemoryRegionType::Reserved } else { MemoryRegionType::Free };
    PhysicalMemoryRegion::new(frames, kind)
}

fn frame_range(start: u64, end: u64) -> FrameRange {
    FrameRange::new(frame(start), frame(end))
}

fn range(range: &FrameRange) -> Range {
    let [start, end] = ends(range);
    Range { start, end }
}
