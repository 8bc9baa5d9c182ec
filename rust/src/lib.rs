//! The frame allocator of `crates/exports`, for Rust programs without std.
//!
//! [`Allocator`] owns the record, and owns the workspace or borrows it: `Allocator<[u64; WORKSPACE_WORDS]>` or
//! `Allocator<&mut [u64]>`. Its calls are those of document 01, the specification; a refusal is a [`Refusal`], with document 01's
//! number. [`Shared`] makes requests behind a shared reference: its [`Frames`] return themselves when they are dropped.
//!
//! **Safe code gets no frame of an allocator twice.** What is granted stays held until it is returned. `Shared` returns what its `Frames` and
//! [`Kept`] hold: each grant has one of them, it can't be copied, and it borrows its own `Shared`, so that it goes back there, once, and
//! to no other. A return by plain numbers ([`Allocator::return_frames`], [`Call::return_frames`]) is `unsafe`, and so is a workspace of one's
//! own making ([`Workspace`]). Two allocators are two: if both are booted with the same frames, each hands them out.
//!
//! ```
//! use likhmout::{Allocator, Area, Kind, Refusal, Shared, WORKSPACE_WORDS};
//!
//! fn main() -> Result<(), Refusal> {
//!     let mut words = [0; WORKSPACE_WORDS];
//!     let mut allocator = Allocator::new(&mut words);
//!     allocator.init(&[Area { start: 0, end: 99, kind: Kind::General }])?;
//!     allocator.convert_frame_allocator_to_heap_based()?; // once, after the boot
//!
//!     let board = Shared::new(allocator);
//!     let page = board.allocate_frames(16)?; // wherever they are
//!     let head = board.allocate_frames_at(50, 4)?.keep(); // at this frame, until it is given back
//!     assert_eq!(board.free_total(Kind::General)?, 80);
//!     drop(page);
//!     assert_eq!(board.free_total(Kind::General)?, 96);
//!     head.give_back().map_err(|(_, refusal)| refusal)
//! }
//! ```
//!
//! What is proved is the library underneath (docs/CLAIMS.md). This crate turns its answers into types, and has tests. Its `unsafe` is the
//! calls of the library, slices of structs seen as words, workspaces, and the one return behind `Frames` and `Kept`; each has its reason
//! beside it.
//!
//! **Threads.** A lock is the program's. `Shared` is for one thread. Behind a lock an [`Allocator`] serves several, with returns by plain
//! numbers.
//!
//! A call takes up to 12 KB of stack (a run; a boot 9 KB, any other call 5 KB; measured, not proved). The library uses SSE2 registers and the red zone.

#![no_std]

// `build.rs` looks for it. The documentation needs none.
#[cfg(all(no_library, not(doc)))]
compile_error!(concat!(
    "the proved library is not there: ",
    env!("LIKHMOUT_LIBRARY"),
    ". `scripts/build exports`, at the top of the repository, proves and builds it; LIKHMOUT_LIB_DIR names its folder where that is another one"
));

mod allocator;
#[cfg(doctest)]
mod must_not_compile;
mod range;
mod raw;
mod refusal;
mod run;
mod shared;
mod words;
mod workspace;

pub use allocator::{Allocator, Area, ByteArea, Kind};
pub use range::{FrameRange, Halves, OutOfBounds, Split};
pub use refusal::Refusal;
pub use run::{Answer, Call, Ran, RunEnd};
pub use shared::{Frames, Kept, Shared};
pub use workspace::Workspace;

/// The bytes of a frame.
pub const FRAME_SIZE: u64 = 4096;
/// "Frames run from 0 to 268435455 (2^28 − 1)".
pub const TOP_FRAME: u64 = (1 << 28) - 1;
/// So many words at least are a workspace; fewer are refused with 3.
pub const WORKSPACE_WORDS: usize = 4096;
/// So many words at least are a held list's buffer; fewer are refused with 3.
pub const HELD_WORDS: usize = 2048;
