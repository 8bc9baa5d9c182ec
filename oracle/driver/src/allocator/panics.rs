//! The Rust's panics, caught and told apart.

use std::cell::{Cell, RefCell};
use std::panic::{catch_unwind, set_hook, take_hook, AssertUnwindSafe, PanicHookInfo};
use std::sync::Once;

/// A panic of `frame_allocator`.
pub struct Panic {
    line: u32,
    message: String,
}

/// Why it panicked.
#[derive(Clone, Copy, PartialEq, Eq)]
pub enum Reason {
    /// A 33rd reserved area.
    ReservedAreas,
    /// A 33rd piece.
    Pieces,
    PiecesMeet,
    PieceMeetsReserved,
    /// Two chunks are not enough for a request.
    TwoChunks,
}

thread_local! {
    static CATCHING: Cell<bool> = const { Cell::new(false) };
    static CAUGHT: RefCell<Option<Panic>> = const { RefCell::new(None) };
}

static HOOK: Once = Once::new();

/// Runs the Rust's code. Only panics inside it are kept quiet.
pub fn catch<T>(run: impl FnOnce() -> T) -> Result<T, Panic> {
    HOOK.call_once(|| {
        let default = take_hook();
        set_hook(Box::new(move |info| {
            if CATCHING.get() && in_frame_allocator(info) {
                CAUGHT.set(Some(of(info)));
            } else {
                default(info);
            }
        }));
    });
    CATCHING.set(true);
    let result = catch_unwind(AssertUnwindSafe(run));
    CATCHING.set(false);
    result.map_err(|_| CAUGHT.take().expect("a panic of frame_allocator"))
}

fn in_frame_allocator(info: &PanicHookInfo) -> bool {
    let file = info.location().map_or("", |location| location.file());
    file.ends_with("frame_allocator/src/lib.rs")
}

fn of(info: &PanicHookInfo) -> Panic {
    let line = info.location().map_or(0, |location| location.line());
    Panic { line, message: info.payload_as_str().unwrap_or("").to_string() }
}

impl Panic {
    /// The overlap panic and the `todo!` say so. The two lists of 32 run over at a line each.
    pub fn reason(&self) -> Reason {
        const OVERLAP: &str = "BUG: frame allocator free list had overlapping ranges";
        const TODO: &str = "not yet implemented: Frame allocator: found chunk containing requested";
        const FULL: &str = "index out of bounds: the len is 32 but the index is 32";
        if self.message.starts_with(OVERLAP) {
            let reserved = self.message.contains("typ: Reserved");
            return if reserved { Reason::PieceMeetsReserved } else { Reason::PiecesMeet };
        }
        if self.message.starts_with(TODO) {
            return Reason::TwoChunks;
        }
        if self.message == FULL && self.at("free_list[*free_list_idx] = Some(") {
            return Reason::Pieces;
        }
        if self.message == FULL && self.at("reserved_list[i] = Some(") {
            return Reason::ReservedAreas;
        }
        panic!("an unforeseen panic at line {}: {}", self.line, self.message);
    }

    fn at(&self, statement: &str) -> bool {
        const SOURCE: &str = include_str!("../../../theseus/kernel/frame_allocator/src/lib.rs");
        let line = SOURCE.lines().nth(self.line as usize - 1).unwrap_or("");
        line.trim_start().starts_with(statement)
    }
}
