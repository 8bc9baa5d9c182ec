//! Their side: the Theseus sources, with the window that oracle/ gives them. Its lists are statics.

use crate::world::World;
use frame_allocator::{
    allocate_frames_deferred, convert_frame_allocator_to_heap_based, init, AllocatedFrames, FreeFrames,
    MemoryRegionType, PhysicalMemoryRegion,
};
use memory_structs::{Frame, FrameRange, PhysicalAddress};

/// The Rust's lists become those of the world.
pub fn put(world: &World) {
    FreeFrames::window_empty_lists(world.record.sorted == 1);
    let ranges = |list| world.entries(list).into_iter().map(|(start, end)| range(start, end)).collect();
    FreeFrames::window_insert([0, 1, 2, 3].map(ranges));
}

/// The entries of the four lists, each in stored order.
pub fn entries() -> [Vec<(u64, u64)>; 4] {
    let ends = |range: &FrameRange| (range.start().number() as u64, range.end().number() as u64);
    match FreeFrames::window_slots() {
        Some(lists) => lists.map(|list| list.iter().flatten().map(ends).collect()),
        None => {
            let tables = FreeFrames::window_tables().expect("four lists in one form");
            tables.map(|table| table.iter().map(ends).collect())
        }
    }
}

/// The leftovers go back at once. Dropping what is granted returns it.
pub fn count(frames: u64) -> AllocatedFrames {
    allocate_frames_deferred(None, frames as usize).expect("a grant").0
}

pub fn at(frame: u64, frames: u64) -> AllocatedFrames {
    allocate_frames_deferred(Some(address(frame)), frames as usize).expect("a grant").0
}

pub fn sort() {
    convert_frame_allocator_to_heap_based();
}

/// A boot map, its kinds apart, as the Rust takes them.
pub struct Map {
    general: Vec<PhysicalMemoryRegion>,
    reserved: Vec<PhysicalMemoryRegion>,
}

impl Map {
    /// From areas of three words each.
    pub fn new(areas: &[u64]) -> Map {
        let regions = |wanted: bool, kind: MemoryRegionType| {
            let areas = areas.chunks_exact(3).filter(|area| (area[2] != 0) == wanted);
            areas.map(|area| PhysicalMemoryRegion::new(range(area[0], area[1]), kind)).collect()
        };
        Map { general: regions(false, MemoryRegionType::Free), reserved: regions(true, MemoryRegionType::Reserved) }
    }

    pub fn boot(&self) {
        init(self.general.iter(), self.reserved.iter()).expect("a boot");
    }
}

fn address(frame: u64) -> PhysicalAddress {
    PhysicalAddress::new_canonical(frame as usize * 4096)
}

fn range(start: u64, end: u64) -> FrameRange {
    let frame = |number| Frame::containing_address(address(number));
    FrameRange::new(frame(start), frame(end))
}
