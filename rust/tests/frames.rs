//! Frames that return themselves: no frame of an allocator is held twice, whatever becomes of what holds it. What must not compile is in
//! `src/must_not_compile.rs`.

use likhmout::{
    Allocator, Area, FrameRange, Frames, Kept, Kind, Refusal, Shared, HELD_WORDS, WORKSPACE_WORDS,
};
use std::mem;

type Words = [u64; WORKSPACE_WORDS];

fn booted(start: u64, end: u64) -> Allocator<Words> {
    let mut allocator = Allocator::new([0; WORKSPACE_WORDS]);
    allocator.init(&[Area { start, end, kind: Kind::General }]).unwrap();
    allocator
}

fn early(start: u64, end: u64) -> Shared<Words> {
    Shared::new(booted(start, end))
}

fn sorted(start: u64, end: u64) -> Shared<Words> {
    let shared = early(start, end);
    shared.convert_frame_allocator_to_heap_based().unwrap();
    shared
}

fn range(start: u64, end: u64) -> FrameRange {
    FrameRange::new(start, end)
}

fn free(shared: &Shared<Words>) -> u64 {
    shared.free_total(Kind::General).unwrap()
}

#[test]
fn frames_return_themselves() {
    let shared = sorted(0, 9);
    let page = shared.allocate_frames(4).unwrap();
    assert_eq!(page.range(), range(0, 3));
    {
        let head = shared.allocate_frames_at(4, 2).unwrap();
        assert_eq!(shared.allocate_frames_at(5, 1).unwrap_err(), Refusal::NotFree);
        assert_eq!(free(&shared), 4);
        drop(head);
    }
    assert_eq!(free(&shared), 6);
    page.give_back().unwrap();
    assert_eq!(free(&shared), 10);
    assert_eq!(shared.refused_returns(), 0);
}

#[test]
fn a_return_without_a_slot_is_counted() {
    let shared = early(0, 99);
    let first = shared.allocate_frames_at(0, 1).unwrap();
    let held: Vec<_> =
        (0..31).map(|i| shared.allocate_frames_at(2 + 2 * i, 1).unwrap().keep()).collect();
    assert_eq!(held.len(), 31);
    let (first, refusal) = first.give_back().unwrap_err();
    assert_eq!((first.range(), refusal), (range(0, 0), Refusal::ListFull));
    drop(first);
    assert_eq!(shared.refused_returns(), 1);
    assert_eq!(shared.allocate_frames_at(0, 1).unwrap_err(), Refusal::NotFree);
}

#[test]
fn what_is_kept_stays_held_and_returns_once() {
    let shared = sorted(0, 9);
    let kept = shared.allocate_frames(1).unwrap().keep();
    drop(shared.allocate_frames(2).unwrap().keep());
    assert_eq!(free(&shared), 7);
    kept.give_back().unwrap();
    assert_eq!(free(&shared), 8);
    drop(Frames::from(shared.allocate_frames_at(5, 2).unwrap().keep()));
    assert_eq!(free(&shared), 8);
}

/// Two allocators with the same frames. What a kept makes free is of its own allocator, and b grants none of what `page` holds.
#[test]
fn what_is_kept_goes_back_to_the_allocator_that_granted_it() {
    let (a, b) = (early(0, 99), early(0, 99));
    let kept = a.allocate_frames(4).unwrap().keep();
    let page = b.allocate_frames(4).unwrap();
    assert_eq!(kept.range(), page.range());
    kept.give_back().unwrap();
    assert_eq!((free(&a), free(&b)), (100, 96));
    assert_eq!(b.allocate_frames(4).unwrap().range(), range(4, 7));
    assert_eq!(b.allocate_frames_at(0, 1).unwrap_err(), Refusal::NotFree);
    assert_eq!(page.range(), range(0, 3));
}

#[test]
fn frames_that_change_places_keep_their_allocators() {
    let (a, b) = (early(0, 99), early(0, 99));
    let mut first = a.allocate_frames(4).unwrap();
    let mut second = b.allocate_frames(10).unwrap();
    mem::swap(&mut first, &mut second);
    drop(first);
    assert_eq!((free(&a), free(&b)), (96, 100));
    let mut third = b.allocate_frames(1).unwrap();
    assert_eq!(mem::replace(&mut third, second).range(), range(10, 10));
    assert_eq!((free(&a), free(&b)), (96, 100));
    drop(third);
    assert_eq!((free(&a), free(&b)), (100, 100));
}

#[test]
fn forgotten_frames_stay_held() {
    let shared = sorted(0, 9);
    mem::forget(shared.allocate_frames(4).unwrap());
    let _ = shared.allocate_frames_at(6, 1).unwrap().keep();
    assert_eq!(shared.allocate_frames_at(3, 1).unwrap_err(), Refusal::NotFree);
    let mut allocator = shared.into_allocator();
    let mut buffer = [0; HELD_WORDS];
    assert_eq!(allocator.held_list(&mut buffer).unwrap().len(), 2);
    assert_eq!(allocator.allocate_frames(3), Ok(range(7, 9)));
    assert_eq!(allocator.allocate_frames(2), Ok(range(4, 5)));
    assert_eq!(allocator.allocate_frames(1), Err(Refusal::NoChunk));
}

/// Every order in which four can be dropped.
#[test]
fn frames_are_dropped_in_any_order() {
    for order in 0..24 {
        let shared = sorted(0, 19);
        let mut held: Vec<_> = (1..=4).map(|n| shared.allocate_frames(n).unwrap()).collect();
        let mut left = 10;
        for (place, choices) in [order, order / 4, order / 12, 0].into_iter().zip([4, 3, 2, 1]) {
            let dropped = held.swap_remove(place % choices);
            left -= 1 + dropped.range().end - dropped.range().start;
            drop(dropped);
            assert_eq!(free(&shared), 20 - left, "order {order}");
        }
        assert_eq!(left, 0);
    }
}

const FRAMES: u64 = 64;

/// What holds frames, with the number of its allocator.
enum Holder<'a> {
    Frames(usize, Frames<'a, Words>),
    Kept(usize, Kept<'a, Words>),
}

impl Holder<'_> {
    fn of(&self) -> (usize, FrameRange) {
        match self {
            Holder::Frames(board, frames) => (*board, frames.range()),
            Holder::Kept(board, kept) => (*board, kept.range()),
        }
    }
}

/// Two allocators with the same frames, what holds frames of them, and the ranges that nothing will return.
struct Walk<'a> {
    boards: &'a [Shared<Words>; 2],
    holders: Vec<Holder<'a>>,
    lost: Vec<(usize, FrameRange)>,
    grants: u64,
    seed: u64,
}

impl Walk<'_> {
    fn chance(&mut self, below: u64) -> u64 {
        self.seed = self.seed.wrapping_mul(6364136223846793005).wrapping_add(1442695040888963407);
        (self.seed >> 33) % below
    }

    fn request(&mut self) {
        let (board, frame, many) = (self.chance(2) as usize, self.chance(FRAMES), self.chance(6));
        let shared = &self.boards[board];
        let granted = match self.chance(3) {
            0 => shared.allocate_frames(1 + many),
            1 => shared.allocate_general_frames_at(frame, 1 + many),
            _ => shared.allocate_frames_at(frame, (1 + many).min(FRAMES - frame)),
        };
        if let Ok(frames) = granted {
            self.grants += 1;
            self.holders.push(Holder::Frames(board, frames));
        }
    }

    /// Something becomes of one that holds frames; it is back in the list where it still does.
    fn change(&mut self) {
        if self.holders.is_empty() {
            return;
        }
        let index = self.chance(self.holders.len() as u64) as usize;
        let holder = self.holders.swap_remove(index);
        let (board, range) = holder.of();
        let refused = self.boards[board].refused_returns();
        let left = match (self.chance(4), holder) {
            (0, Holder::Frames(_, frames)) => {
                frames.give_back().err().map(|(frames, _)| Holder::Frames(board, frames))
            }
            (0, Holder::Kept(_, kept)) => {
                kept.give_back().err().map(|(kept, _)| Holder::Kept(board, kept))
            }
            (1, Holder::Frames(_, frames)) => Some(Holder::Kept(board, frames.keep())),
            (1, Holder::Kept(_, kept)) => Some(Holder::Frames(board, kept.into())),
            (2, holder) if self.chance(1000) == 0 => {
                self.lost.push((board, range));
                mem::forget(holder);
                None
            }
            (_, Holder::Frames(_, frames)) => {
                drop(frames);
                None
            }
            (_, kept) => Some(kept),
        };
        self.holders.extend(left);
        if self.boards[board].refused_returns() > refused {
            self.lost.push((board, range));
        }
    }

    /// No frame of an allocator is held twice, and what is held is what is not free.
    fn check(&self) {
        for (board, shared) in self.boards.iter().enumerate() {
            let mut held = [false; FRAMES as usize];
            for (of, range) in self.holders.iter().map(Holder::of).chain(self.lost.iter().copied())
            {
                for frame in (range.start..=range.end).filter(|_| of == board) {
                    assert!(!held[frame as usize], "frame {frame} of allocator {board}, twice");
                    held[frame as usize] = true;
                }
            }
            let count = held.iter().filter(|is_held| **is_held).count() as u64;
            assert_eq!(free(shared), FRAMES - count);
        }
    }
}

/// A long walk, one allocator in early form and one in sorted form: requests, drops, returns, keeping and no longer keeping, forgetting.
#[test]
fn no_frame_of_an_allocator_is_held_twice() {
    let boards = [early(0, FRAMES - 1), sorted(0, FRAMES - 1)];
    let (holders, lost) = (Vec::new(), Vec::new());
    let mut walk = Walk { boards: &boards, holders, lost, grants: 0, seed: 1 };
    for _ in 0..20_000 {
        if walk.chance(2) == 0 {
            walk.request();
        } else {
            walk.change();
        }
        walk.check();
    }
    assert!(walk.grants > 3_000, "{} grants show little", walk.grants);
}
