//! The window: what the comparison needs of this crate's private items.
//!
//! `lib.rs` declares `#[cfg(test)] mod test;`. The build turns `cfg(test)` on for this crate and puts
//! this file in place as `test.rs`, so `lib.rs` itself stays as published. A child module sees the
//! private items of its parent. It is private too, but methods that it adds to a public type can be
//! called from everywhere; so the window is a few associated functions of `FreeFrames`.
//!
//! Dropping a `Frames` returns its frames to the allocator's lists. Each one made here is held in a
//! `ManuallyDrop`, so none ever is, but by `window_return`: the range and frame calls are functions of
//! their operands alone. What the lists hold is forgotten before the next boot.

use super::MemoryRegionType::{Free, Reserved};
use super::*;
use alloc::vec::Vec;
use core::mem::ManuallyDrop;

/// The parts of a split range: before, middle, after.
pub type Parts = (Option<FrameRange>, FrameRange, Option<FrameRange>);

/// The slots of a list in early form, in stored order.
pub type Slots = [Option<FrameRange>; 32];

impl FreeFrames {
    /// `Frames::merge`: the merged range, or nothing where it refuses.
    pub fn window_merge(frames: FrameRange, other: FrameRange) -> Option<FrameRange> {
        let mut frames = ManuallyDrop::new(of(frames));
        let result = ManuallyDrop::new(frames.merge(of(other)));
        result.is_ok().then(|| frames.frame_range.clone())
    }

    /// `Frames::split_range`: the parts, or nothing where it refuses.
    pub fn window_split_range(frames: FrameRange, extract: FrameRange) -> Option<Parts> {
        let result = ManuallyDrop::new(of(frames).split_range(extract));
        result.as_ref().ok().map(|split| {
            (
                split.before_start.as_ref().map(range_of),
                range_of(&split.start_to_end),
                split.after_end.as_ref().map(range_of),
            )
        })
    }

    /// `Frames::split_at`: the two halves, or nothing where it refuses.
    pub fn window_split_at(
        frames: FrameRange,
        at_frame: Frame,
    ) -> Option<(FrameRange, FrameRange)> {
        let result = ManuallyDrop::new(of(frames).split_at(at_frame));
        result.as_ref().ok().map(|(first, second)| (range_of(first), range_of(second)))
    }

    /// How many entries the four lists hold: general free, reserved free, general regions,
    /// reserved regions.
    pub fn window_list_lengths() -> [usize; 4] {
        [
            FREE_GENERAL_FRAMES_LIST.lock().len(),
            FREE_RESERVED_FRAMES_LIST.lock().len(),
            GENERAL_REGIONS.lock().len(),
            RESERVED_REGIONS.lock().len(),
        ]
    }

    /// The slots of the four lists, in the same order. Nothing where a list is in sorted form.
    pub fn window_slots() -> Option<[Slots; 4]> {
        Some([
            slots(&FREE_GENERAL_FRAMES_LIST.lock(), Free)?,
            slots(&FREE_RESERVED_FRAMES_LIST.lock(), Reserved)?,
            slots(&GENERAL_REGIONS.lock(), Free)?,
            slots(&RESERVED_REGIONS.lock(), Reserved)?,
        ])
    }

    /// The entries of the four lists, each in its tree's order. Nothing where a list is in early form.
    pub fn window_tables() -> Option<[Vec<FrameRange>; 4]> {
        Some([
            table(&FREE_GENERAL_FRAMES_LIST.lock(), Free)?,
            table(&FREE_RESERVED_FRAMES_LIST.lock(), Reserved)?,
            table(&GENERAL_REGIONS.lock(), Free)?,
            table(&RESERVED_REGIONS.lock(), Reserved)?,
        ])
    }

    /// Empties the four lists, and leaves them in early form, or in sorted form.
    pub fn window_empty_lists(sorted: bool) {
        empty(&FREE_GENERAL_FRAMES_LIST, sorted);
        empty(&FREE_RESERVED_FRAMES_LIST, sorted);
        empty(&GENERAL_REGIONS, sorted);
        empty(&RESERVED_REGIONS, sorted);
    }

    /// Inserts these entries into the four lists.
    pub fn window_insert(entries: [Vec<FrameRange>; 4]) {
        let [general, reserved, general_regions, reserved_regions] = entries;
        insert(&FREE_GENERAL_FRAMES_LIST, general, Free);
        insert(&FREE_RESERVED_FRAMES_LIST, reserved, Reserved);
        insert(&GENERAL_REGIONS, general_regions, Free);
        insert(&RESERVED_REGIONS, reserved_regions, Reserved);
    }

    /// Puts the four lists in early form, with these slots.
    pub fn window_put_slots(slots: [Slots; 4]) {
        let [general, reserved, general_regions, reserved_regions] = slots;
        put_slots(&FREE_GENERAL_FRAMES_LIST, general, Free);
        put_slots(&FREE_RESERVED_FRAMES_LIST, reserved, Reserved);
        put_slots(&GENERAL_REGIONS, general_regions, Free);
        put_slots(&RESERVED_REGIONS, reserved_regions, Reserved);
    }

    /// A return: frames of these numbers are made, as the callback of `init` makes them, and dropped.
    pub fn window_return(frames: FrameRange) {
        drop(into_unmapped_frames(frames));
    }

    /// Whether frames of these numbers, made as the callback of `init` makes them, are of the reserved
    /// kind. They are not dropped, so it changes no list.
    pub fn window_is_reserved(frames: FrameRange) -> bool {
        ManuallyDrop::new(into_unmapped_frames(frames)).typ == MemoryRegionType::Reserved
    }

    /// Where the search of the general list finds only some of these frames: the first absent one, and
    /// how many are. The calls turn this error into a string without them. It changes no list.
    pub fn window_missing(frame: Frame, num_frames: usize) -> Option<(Frame, usize)> {
        match find_specific_chunk(&mut FREE_GENERAL_FRAMES_LIST.lock(), frame, num_frames) {
            Err(AllocationError::ContiguousChunkNotFound(first, absent)) => Some((first, absent)),
            Err(_) => None,
            Ok(_) => panic!("a request that was refused is met"),
        }
    }
}

/// An entry of a list. Each carries a kind beside its frames, and two of the lists are of either kind.
trait Entry: Ord + Deref<Target = FrameRange> + 'static {
    fn of(kind: MemoryRegionType, frames: FrameRange) -> Self;
    fn kind(&self) -> MemoryRegionType;
}

impl Entry for FreeFrames {
    fn of(kind: MemoryRegionType, frames: FrameRange) -> FreeFrames {
        FreeFrames::new(kind, frames)
    }

    fn kind(&self) -> MemoryRegionType {
        self.typ
    }
}

impl Entry for PhysicalMemoryRegion {
    fn of(kind: MemoryRegionType, frames: FrameRange) -> PhysicalMemoryRegion {
        PhysicalMemoryRegion::new(frames, kind)
    }

    fn kind(&self) -> MemoryRegionType {
        self.typ
    }
}

/// The frames of an entry, which is of its list's kind; so the frames are all that there is to read.
fn frames_of<T: Entry>(entry: &T, kind: MemoryRegionType) -> FrameRange {
    assert!(entry.kind() == kind, "an entry of another kind than its list");
    entry.deref().clone()
}

fn slots<T: Entry>(list: &StaticArrayRBTree<T>, kind: MemoryRegionType) -> Option<Slots> {
    match &list.0 {
        Inner::Array(entries) => {
            let frames = |entry: &Option<T>| entry.as_ref().map(|entry| frames_of(entry, kind));
            Some(entries.each_ref().map(frames))
        }
        Inner::RBTree(_) => None,
    }
}

fn table<T: Entry>(list: &StaticArrayRBTree<T>, kind: MemoryRegionType) -> Option<Vec<FrameRange>> {
    match &list.0 {
        Inner::Array(_) => None,
        Inner::RBTree(tree) => Some(tree.iter().map(|node| frames_of(&**node, kind)).collect()),
    }
}

/// Dropping a chunk would put it back into its list, so what the list held is forgotten. The nodes of
/// a tree are freed.
fn empty<T: Ord + 'static>(list: &Mutex<StaticArrayRBTree<T>>, sorted: bool) {
    let mut list = list.lock();
    match mem::take(&mut *list).0 {
        Inner::Array(entries) => mem::forget(entries),
        Inner::RBTree(tree) => tree.into_iter().for_each(|node| mem::forget(node.into_inner())),
    }
    if sorted {
        list.convert_to_heap_allocated();
    }
}

fn insert<T: Entry>(
    list: &Mutex<StaticArrayRBTree<T>>,
    entries: Vec<FrameRange>,
    kind: MemoryRegionType,
) {
    let mut list = list.lock();
    for range in entries {
        if list.insert(T::of(kind, range)).is_err() {
            panic!("a list without room");
        }
    }
}

/// What the list held is forgotten first: assigning would drop it.
fn put_slots<T: Entry>(list: &Mutex<StaticArrayRBTree<T>>, slots: Slots, kind: MemoryRegionType) {
    empty(list, false);
    list.lock().0 = Inner::Array(slots.map(|slot| slot.map(|frames| T::of(kind, frames))));
}

/// Free frames of the general kind. `merge` and the splits carry the kind along and never look at it.
fn of(range: FrameRange) -> FreeFrames {
    FreeFrames::new(Free, range)
}

fn range_of(frames: &FreeFrames) -> FrameRange {
    frames.frame_range.clone()
}
