//! What safe code must not be able to say. Each example has the error that it must have; `../test` runs them, and they are in no documentation.

/// Frames go to no other thread, since the allocator is for one.
///
/// ```compile_fail,E0277
/// # use likhmout::{Frames, WORKSPACE_WORDS};
/// fn sent(frames: impl Send) {}
/// fn to_another_thread(frames: Frames<[u64; WORKSPACE_WORDS]>) {
///     sent(frames);
/// }
/// ```
///
/// ```compile_fail,E0277
/// # use likhmout::{Kept, WORKSPACE_WORDS};
/// fn sent(kept: impl Send) {}
/// fn to_another_thread(kept: Kept<[u64; WORKSPACE_WORDS]>) {
///     sent(kept);
/// }
/// ```
struct Threads;

/// An allocator is not moved, exchanged or ended as long as something holds frames of it. The last two do the same once nothing does.
///
/// ```compile_fail,E0505
/// # use likhmout::{Refusal, Shared, WORKSPACE_WORDS};
/// fn taken_apart(shared: Shared<[u64; WORKSPACE_WORDS]>) -> Result<(), Refusal> {
///     let page = shared.allocate_frames(4)?;
///     let allocator = shared.into_allocator();
///     drop(page);
///     Ok(())
/// }
/// ```
///
/// ```compile_fail,E0502
/// # use likhmout::{Refusal, Shared, WORKSPACE_WORDS};
/// # use std::mem;
/// type Board = Shared<[u64; WORKSPACE_WORDS]>;
/// fn exchanged(a: &mut Board, b: &mut Board) -> Result<(), Refusal> {
///     let kept = a.allocate_frames(4)?.keep();
///     mem::swap(a, b);
///     kept.give_back().map_err(|(_, refusal)| refusal)
/// }
/// ```
///
/// ```compile_fail,E0515
/// # use likhmout::{Frames, Refusal, Shared, WORKSPACE_WORDS};
/// type Words = [u64; WORKSPACE_WORDS];
/// fn outlived<'a>(shared: Shared<Words>) -> Result<Frames<'a, Words>, Refusal> {
///     shared.allocate_frames(4)
/// }
/// ```
///
/// ```
/// # use likhmout::{Refusal, Shared, WORKSPACE_WORDS};
/// fn taken_apart(shared: Shared<[u64; WORKSPACE_WORDS]>) -> Result<(), Refusal> {
///     let page = shared.allocate_frames(4)?;
///     drop(page);
///     let allocator = shared.into_allocator();
///     Ok(())
/// }
/// ```
///
/// ```
/// # use likhmout::{Refusal, Shared, WORKSPACE_WORDS};
/// # use std::mem;
/// type Board = Shared<[u64; WORKSPACE_WORDS]>;
/// fn exchanged(a: &mut Board, b: &mut Board) -> Result<(), Refusal> {
///     let kept = a.allocate_frames(4)?.keep();
///     kept.give_back().map_err(|(_, refusal)| refusal)?;
///     mem::swap(a, b);
///     Ok(())
/// }
/// ```
struct Lifetimes;

/// What was returned holds nothing any more, and nothing that holds frames is copied.
///
/// ```compile_fail,E0382
/// # use likhmout::{Refusal, Shared, WORKSPACE_WORDS};
/// fn used_after(shared: &Shared<[u64; WORKSPACE_WORDS]>) -> Result<(), Refusal> {
///     let page = shared.allocate_frames(4)?;
///     drop(page);
///     let next = shared.allocate_frames(4)?; // the same four frames
///     println!("{:?}", page.range());
///     Ok(())
/// }
/// ```
///
/// ```compile_fail,E0599
/// # use likhmout::{Frames, WORKSPACE_WORDS};
/// fn copied(frames: Frames<[u64; WORKSPACE_WORDS]>) {
///     let copy = frames.clone();
/// }
/// ```
///
/// ```compile_fail,E0599
/// # use likhmout::{Kept, WORKSPACE_WORDS};
/// fn copied(kept: Kept<[u64; WORKSPACE_WORDS]>) {
///     let copy = kept.clone();
/// }
/// ```
///
/// ```compile_fail,E0599
/// # use likhmout::{Allocator, WORKSPACE_WORDS};
/// fn copied(allocator: Allocator<[u64; WORKSPACE_WORDS]>) {
///     let copy = allocator.clone();
/// }
/// ```
struct Copies;

/// A return by plain numbers is `unsafe`, by itself and in a run, however the call is made.
///
/// ```compile_fail,E0133
/// # use likhmout::{Allocator, Refusal, WORKSPACE_WORDS};
/// fn twice(allocator: &mut Allocator<[u64; WORKSPACE_WORDS]>) -> Result<(), Refusal> {
///     let page = allocator.allocate_frames(4)?;
///     allocator.return_frames(page)?;
///     let next = allocator.allocate_frames(4)?; // the same four frames
///     allocator.return_frames(page) // and they are taken from whoever holds `next`
/// }
/// ```
///
/// ```compile_fail,E0133
/// # use likhmout::{Call, FrameRange};
/// let call = Call::return_frames(FrameRange::new(0, 3));
/// ```
///
/// ```compile_fail,E0451
/// # use likhmout::Call;
/// let call = Call { what: 8, x: 0, y: 3 };
/// ```
struct PlainNumbers;

/// A workspace of one's own making, which could hand out older words, is `unsafe`.
///
/// ```compile_fail,E0277
/// # use likhmout::Allocator;
/// struct Words([u64; 4096]);
/// impl AsRef<[u64]> for Words {
///     fn as_ref(&self) -> &[u64] { &self.0 }
/// }
/// impl AsMut<[u64]> for Words {
///     fn as_mut(&mut self) -> &mut [u64] { &mut self.0 }
/// }
/// let allocator = Allocator::new(Words([0; 4096]));
/// ```
///
/// ```compile_fail,E0200
/// # use likhmout::Workspace;
/// struct Words([u64; 4096]);
/// impl Workspace for Words {
///     fn words(&self) -> &[u64] { &self.0 }
///     fn words_mut(&mut self) -> &mut [u64] { &mut self.0 }
/// }
/// ```
struct Workspaces;
