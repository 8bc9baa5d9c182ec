//! The calls, through the wrapper: document 01's cases and each refusal.

use likhmout::{
    Allocator, Answer, Area, ByteArea, Call, FrameRange, Kind, OutOfBounds, Ran, Refusal, RunEnd,
    Workspace,
};
use likhmout::{HELD_WORDS, TOP_FRAME, WORKSPACE_WORDS};

type Owned = Allocator<[u64; WORKSPACE_WORDS]>;

fn general(start: u64, end: u64) -> Area {
    Area { start, end, kind: Kind::General }
}

fn reserved(start: u64, end: u64) -> Area {
    Area { start, end, kind: Kind::Reserved }
}

fn booted(areas: &[Area]) -> Owned {
    let mut allocator = Allocator::new([0; WORKSPACE_WORDS]);
    allocator.init(areas).unwrap();
    allocator
}

fn sorted(areas: &[Area]) -> Owned {
    let mut allocator = booted(areas);
    allocator.convert_frame_allocator_to_heap_based().unwrap();
    allocator
}

fn range(start: u64, end: u64) -> FrameRange {
    FrameRange::new(start, end)
}

fn returned(allocator: &mut Owned, start: u64, end: u64) -> Result<(), Refusal> {
    // SAFETY: nobody uses frames here.
    unsafe { allocator.return_frames(range(start, end)) }
}

const P1: [Area; 3] = [
    Area { start: 0, end: 30, kind: Kind::General },
    Area { start: 5, end: 9, kind: Kind::Reserved },
    Area { start: 15, end: 19, kind: Kind::Reserved },
];

#[test]
fn p6_early_count_takes_the_first_slot() {
    assert_eq!(booted(&P1).allocate_frames(5), Ok(range(20, 24)));
}

#[test]
fn p7_sorted_count_takes_the_highest_chunk() {
    let mut allocator = sorted(&P1);
    assert_eq!(allocator.allocate_frames(12), Err(Refusal::NoChunk));
    assert_eq!(allocator.allocate_frames(11), Ok(range(20, 30)));
}

#[test]
fn p8_to_p10_a_return_joins_above_and_never_both() {
    let mut allocator = sorted(&[general(0, 9)]);
    assert_eq!(allocator.allocate_frames_at(3, 3), Ok(range(3, 5)));
    returned(&mut allocator, 3, 5).unwrap();
    assert_eq!(allocator.allocate_frames(8), Err(Refusal::NoChunk));
    assert_eq!(allocator.allocate_frames_at(1, 5), Ok(range(1, 5)));
}

#[test]
fn p11_to_p13_requests_that_are_not_free() {
    assert_eq!(sorted(&[general(10, 20)]).allocate_frames_at(5, 11), Err(Refusal::NotFree));
    let three = [general(0, 3), general(4, 7), general(8, 11)];
    assert_eq!(sorted(&three).allocate_frames_at(2, 8), Err(Refusal::TwoChunksShort));
    assert_eq!(booted(&three).allocate_frames_at(2, 8), Err(Refusal::NotFree));
    assert_eq!(sorted(&[general(0, 9)]).allocate_frames_at(8, 4), Err(Refusal::NotFound));
    assert_eq!(booted(&[general(0, 9)]).allocate_frames_at(8, 4), Err(Refusal::NotFree));
}

#[test]
fn p14_bytes() {
    let mut allocator = booted(&[general(0, 9)]);
    assert_eq!(allocator.allocate_frames_by_bytes_at(0x1ffe, 4), Ok(range(1, 2)));
    assert_eq!(allocator.allocate_frames_by_bytes_at(0x1000, 0), Err(Refusal::ZeroFrames));
    assert_eq!(allocator.allocate_frames_by_bytes(4097), Ok(range(3, 4)));
}

#[test]
fn refused_boots() {
    let refusal = |areas: &[Area]| Allocator::new([0; WORKSPACE_WORDS]).init(areas).unwrap_err();
    assert_eq!(refusal(&[reserved(5, 4)]), Refusal::EmptyReservedArea);
    let many: Vec<Area> = (0..33).map(|i| reserved(2 * i, 2 * i)).collect();
    assert_eq!(refusal(&many), Refusal::ManyReservedAreas);
    assert_eq!(refusal(&[general(0, TOP_FRAME + 1)]), Refusal::OutOfBounds);
    assert_eq!(refusal(&[general(0, 30), reserved(25, 40), reserved(5, 9)]), Refusal::PiecesMeet);
    let pieces: Vec<Area> = (0..33).map(|i| general(2 * i, 2 * i)).collect();
    assert_eq!(refusal(&pieces), Refusal::ManyPieces);
    assert_eq!(booted(&P1).init(&P1), Err(Refusal::AlreadyBooted));
}

#[test]
fn refusals_of_the_state() {
    let mut allocator = sorted(&[general(0, 9), reserved(100, 104)]);
    assert_eq!(
        allocator.allocate_general_frames_at(8, 5),
        Err(Refusal::Missing { frame: 10, count: 3 })
    );
    assert_eq!(allocator.allocate_frames_at(98, 4), Err(Refusal::MeetsReserved));
    assert_eq!(returned(&mut allocator, 3, 4), Err(Refusal::NotHeld));
    assert_eq!(returned(&mut allocator, 0, TOP_FRAME + 1), Err(Refusal::OutOfBounds));
    assert_eq!(returned(&mut allocator, 1, 0), Ok(()));

    let mut full = booted(&[general(0, 99)]);
    for i in 0..31 {
        full.allocate_frames_at(1 + 2 * i, 1).unwrap();
    }
    assert_eq!(full.allocate_frames_at(63, 1), Err(Refusal::ListFull));
}

#[test]
fn a_lent_workspace_that_is_short_or_written_to_is_refused() {
    let mut short = [0; WORKSPACE_WORDS - 1];
    assert_eq!(Allocator::new(&mut short[..]).init(&P1), Err(Refusal::LentTooShort));

    let mut words = [0; WORKSPACE_WORDS];
    let mut allocator = Allocator::new(&mut words[..]);
    allocator.init(&P1).unwrap();
    allocator.convert_frame_allocator_to_heap_based().unwrap();
    assert_eq!(allocator.check(), Ok(()));
    let written = allocator.into_workspace();
    written[0] = 77;
    assert_eq!(Allocator::new(written).check(), Ok(()), "a fresh record reads no word");

    /// Words that somebody else writes to once the lists are there.
    struct Damaged([u64; WORKSPACE_WORDS], bool);
    // SAFETY: none, which is what is tried: the wrong words are refused. Nobody uses frames here.
    unsafe impl Workspace for Damaged {
        fn words(&self) -> &[u64] {
            &self.0
        }

        fn words_mut(&mut self) -> &mut [u64] {
            if self.1 {
                self.0[1] = 3;
            }
            self.1 = true;
            &mut self.0
        }
    }
    let mut damaged = Allocator::new(Damaged([0; WORKSPACE_WORDS], false));
    damaged.init(&[general(5, 9)]).unwrap();
    damaged.convert_frame_allocator_to_heap_based().unwrap();
    assert_eq!(damaged.allocate_frames(1), Err(Refusal::BrokenRules));
    assert_eq!(damaged.check(), Err(Refusal::BrokenRules));
}

#[test]
fn questions() {
    let mut allocator = sorted(&[general(0, 30), reserved(100, 104)]);
    allocator.allocate_frames_at(5, 3).unwrap();
    allocator.allocate_frames_at(10, 1).unwrap();
    assert_eq!(allocator.free_total(Kind::General), Ok(27));
    assert_eq!(allocator.free_total(Kind::Reserved), Ok(5));
    assert_eq!(allocator.kind_of_range(range(0, 30)), Ok(Kind::General));
    assert_eq!(allocator.kind_of_range(range(30, 100)), Ok(Kind::Reserved));
    let mut buffer = [7; HELD_WORDS];
    assert_eq!(allocator.held_list(&mut buffer).unwrap(), [range(5, 7), range(10, 10)]);
    assert_eq!(buffer[4..], [7; HELD_WORDS - 4]);
    assert_eq!(allocator.held_list(&mut buffer[1..]), Err(Refusal::LentTooShort));
}

#[test]
fn the_held_list_ascends_whatever_the_slots() {
    let mut allocator = booted(&[general(2, 2), general(0, 0)]);
    assert_eq!(allocator.allocate_frames(1), Ok(range(2, 2)));
    assert_eq!(allocator.allocate_frames(1), Ok(range(0, 0)));
    let mut buffer = [7; HELD_WORDS];
    assert_eq!(allocator.held_list(&mut buffer).unwrap(), [range(0, 0), range(2, 2)]);
}

#[test]
fn a_run_answers_as_the_calls_do() {
    let areas = [general(0, 9), reserved(100, 104)].map(<[u64; 3]>::from);
    let calls = [
        Call::init(0, 2),
        Call::convert_frame_allocator_to_heap_based(),
        Call::allocate_frames_at(102, 6),
        Call::allocate_frames(3),
        Call::allocate_general_frames_at(8, 5),
        // SAFETY: nobody uses frames here.
        unsafe { Call::return_frames(range(0, 2)) },
        Call::free_total(Kind::General),
        Call::kind_of_range(range(105, 107)),
        Call::held_list(),
    ];
    let mut buffer = [Answer::BLANK; 9];
    let mut held = [0; HELD_WORDS];
    let mut allocator = Allocator::new([0; WORKSPACE_WORDS]);
    let Ran { answers, end } = allocator.run(&calls, &areas, &mut buffer, &mut held);
    assert_eq!((answers.len(), end), (9, RunEnd::Done));
    assert_eq!(answers[2].accepted().unwrap().range(), range(102, 107));
    assert_eq!(answers[3].accepted().unwrap().range(), range(0, 2));
    let missing = answers[4];
    assert_eq!(
        (missing.number(), missing.range(), missing.frame(), missing.count()),
        (15, FrameRange::EMPTY, 10, 3)
    );
    assert_eq!(missing.accepted(), Err(Refusal::Missing { frame: 10, count: 3 }));
    assert_eq!(answers[6].accepted().unwrap().count(), 10);
    assert_eq!(answers[7].accepted().unwrap().count(), 1);
    assert_eq!(answers[8].accepted().unwrap().count(), 0);

    let damaged = [Call::allocate_frames(1), Call::init(0, 1)];
    let ran = allocator.run(&damaged, &[], &mut buffer, &mut held);
    assert_eq!((ran.answers.len(), ran.end), (1, RunEnd::Damaged));
    let ran = allocator.run(&calls[2..4], &[], &mut buffer[..1], &mut held);
    assert_eq!((ran.answers.len(), ran.end), (1, RunEnd::NoRoom));
}

#[test]
fn bytes_of_a_map_are_the_frames_they_touch() {
    let mut allocator = Allocator::new([0; WORKSPACE_WORDS]);
    allocator
        .init_from_bytes(&[ByteArea { address: 0x1800, bytes: 0x1000, kind: Kind::General }])
        .unwrap();
    assert_eq!(allocator.free_total(Kind::General), Ok(2));
}

#[test]
fn ranges() {
    let r = range(3, 9);
    assert_eq!(r.size_in_frames(), Ok(7));
    assert_eq!(r.contains_range(range(4, 9)), Ok(true));
    assert_eq!(r.contains_range(FrameRange::EMPTY), Ok(false));
    assert_eq!(r.overlap(range(8, 20)), Ok(Some(range(8, 9))));
    assert_eq!(r.overlap(range(10, 20)), Ok(None));
    assert_eq!(r.to_extended(12), Ok(range(3, 12)));
    assert_eq!(FrameRange::from_phys_addr(0x1ffe, 4), Ok(range(1, 2)));
    assert_eq!(FrameRange::from_phys_addr(0x1000, 0), Ok(FrameRange::EMPTY));
    assert_eq!(r.offset_of_address(3 * 4096 + 5), Ok(Some(5)));
    assert_eq!(r.address_at_offset(5), Ok(Some(3 * 4096 + 5)));
    assert_eq!(r.merge(range(10, 12)), Ok(Some(range(3, 12))));
    assert_eq!(r.merge(range(11, 12)), Ok(None));
    let split = r.split_range(range(3, 5)).unwrap().unwrap();
    assert_eq!(
        (split.before, split.middle, split.after),
        (FrameRange::EMPTY, range(3, 5), range(6, 9))
    );
    let halves = r.split_at(5).unwrap().unwrap();
    assert_eq!((halves.first, halves.second), (range(3, 4), range(5, 9)));
    assert_eq!(range(0, TOP_FRAME + 1).size_in_frames(), Err(OutOfBounds));
}
