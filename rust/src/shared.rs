//! Frames that return themselves.

use crate::allocator::{Allocator, Kind};
use crate::range::FrameRange;
use crate::refusal::Refusal;
use crate::workspace::Workspace;
use core::cell::{Cell, RefCell};
use core::{fmt, mem};

/// An allocator behind a shared reference, for one thread: it is not `Sync`. Its calls are those of [`Allocator`], and what a request grants
/// returns itself.
///
/// What it grants borrows it. As long as [`Frames`] or [`Kept`] of it are about, it can be neither moved nor taken apart, nor exchanged for
/// another allocator; the compiler refuses that.
pub struct Shared<W> {
    allocator: RefCell<Allocator<W>>,
    refused_returns: Cell<u64>,
}

/// Granted frames, which are returned when this is dropped. Where it is forgotten (`mem::forget`) they stay held for good.
#[must_use = "frames that are dropped are returned"]
pub struct Frames<'a, W: Workspace> {
    shared: &'a Shared<W>,
    range: FrameRange,
}

/// Granted frames that are not returned when this is dropped; then they stay held for good. There is one of them for each grant, and it
/// borrows the allocator that granted them, so that they go back there, and once.
#[must_use = "what was kept and is dropped stays held for good"]
pub struct Kept<'a, W: Workspace> {
    shared: &'a Shared<W>,
    range: FrameRange,
}

impl<W: Workspace> Shared<W> {
    /// An allocator that was booted.
    pub fn new(allocator: Allocator<W>) -> Self {
        Shared { allocator: RefCell::new(allocator), refused_returns: Cell::new(0) }
    }

    /// The allocator. Nothing borrows from here any more; what was kept or forgotten is still held.
    pub fn into_allocator(self) -> Allocator<W> {
        self.allocator.into_inner()
    }

    fn granted(
        &self,
        request: impl FnOnce(&mut Allocator<W>) -> Result<FrameRange, Refusal>,
    ) -> Result<Frames<'_, W>, Refusal> {
        let range = request(&mut self.allocator.borrow_mut())?;
        Ok(Frames { shared: self, range })
    }

    /// As [`Allocator::allocate_frames`].
    pub fn allocate_frames(&self, num_frames: u64) -> Result<Frames<'_, W>, Refusal> {
        self.granted(|allocator| allocator.allocate_frames(num_frames))
    }

    /// As [`Allocator::allocate_frames_by_bytes`].
    pub fn allocate_frames_by_bytes(&self, num_bytes: u64) -> Result<Frames<'_, W>, Refusal> {
        self.granted(|allocator| allocator.allocate_frames_by_bytes(num_bytes))
    }

    /// As [`Allocator::allocate_frames_at`].
    pub fn allocate_frames_at(
        &self,
        frame: u64,
        num_frames: u64,
    ) -> Result<Frames<'_, W>, Refusal> {
        self.granted(|allocator| allocator.allocate_frames_at(frame, num_frames))
    }

    /// As [`Allocator::allocate_frames_by_bytes_at`].
    pub fn allocate_frames_by_bytes_at(
        &self,
        address: u64,
        num_bytes: u64,
    ) -> Result<Frames<'_, W>, Refusal> {
        self.granted(|allocator| allocator.allocate_frames_by_bytes_at(address, num_bytes))
    }

    /// As [`Allocator::allocate_general_frames_at`].
    pub fn allocate_general_frames_at(
        &self,
        frame: u64,
        num_frames: u64,
    ) -> Result<Frames<'_, W>, Refusal> {
        self.granted(|allocator| allocator.allocate_general_frames_at(frame, num_frames))
    }

    /// As [`Allocator::convert_frame_allocator_to_heap_based`].
    pub fn convert_frame_allocator_to_heap_based(&self) -> Result<(), Refusal> {
        self.allocator.borrow_mut().convert_frame_allocator_to_heap_based()
    }

    /// As [`Allocator::kind_of_range`].
    pub fn kind_of_range(&self, range: FrameRange) -> Result<Kind, Refusal> {
        self.allocator.borrow().kind_of_range(range)
    }

    /// As [`Allocator::free_total`].
    pub fn free_total(&self, kind: Kind) -> Result<u64, Refusal> {
        self.allocator.borrow().free_total(kind)
    }

    /// As [`Allocator::held_list`].
    pub fn held_list<'b>(&self, buffer: &'b mut [u64]) -> Result<&'b [FrameRange], Refusal> {
        self.allocator.borrow().held_list(buffer)
    }

    /// How many times frames could not be returned when they were dropped, as where a list was full (18). They stay held.
    pub fn refused_returns(&self) -> u64 {
        self.refused_returns.get()
    }
}

impl<'a, W: Workspace> Frames<'a, W> {
    /// Which frames they are. The numbers are no hold on them.
    pub fn range(&self) -> FrameRange {
        self.range
    }

    /// The frames stay held, and are not returned by being dropped.
    pub fn keep(self) -> Kept<'a, W> {
        let kept = Kept { shared: self.shared, range: self.range };
        mem::forget(self);
        kept
    }

    /// Returns them now. Where that is refused they are handed back, still held.
    pub fn give_back(self) -> Result<(), (Self, Refusal)> {
        self.keep().give_back().map_err(|(kept, refusal)| (kept.into(), refusal))
    }
}

impl<W: Workspace> Drop for Frames<'_, W> {
    fn drop(&mut self) {
        let Frames { shared, range } = *self;
        if (Kept { shared, range }).give_back().is_err() {
            shared.refused_returns.set(shared.refused_returns.get() + 1);
        }
    }
}

impl<W: Workspace> Kept<'_, W> {
    /// Which frames they are. The numbers are no hold on them.
    pub fn range(&self) -> FrameRange {
        self.range
    }

    /// Returns them to the allocator that granted them. Where that is refused they are handed back, still held.
    pub fn give_back(self) -> Result<(), (Self, Refusal)> {
        let mut allocator = self.shared.allocator.borrow_mut();
        // SAFETY: this is the only one for the frames of its grant, it is of this allocator, and it ends here.
        let returned = unsafe { allocator.return_frames(self.range) };
        drop(allocator);
        returned.map_err(|refusal| (self, refusal))
    }
}

/// They return themselves again.
impl<'a, W: Workspace> From<Kept<'a, W>> for Frames<'a, W> {
    fn from(Kept { shared, range }: Kept<'a, W>) -> Frames<'a, W> {
        Frames { shared, range }
    }
}

impl<W: Workspace> fmt::Debug for Frames<'_, W> {
    fn fmt(&self, f: &mut fmt::Formatter<'_>) -> fmt::Result {
        f.debug_tuple("Frames").field(&self.range).finish()
    }
}

impl<W: Workspace> fmt::Debug for Kept<'_, W> {
    fn fmt(&self, f: &mut fmt::Formatter<'_>) -> fmt::Result {
        f.debug_tuple("Kept").field(&self.range).finish()
    }
}
