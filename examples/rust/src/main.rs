//! One board with two users: a page builder that asks by count and doesn't care where, and a head driver that names an address and wants
//! exactly that, also where the boot map lists nothing. Frames return themselves when a page is printed.

use likhmout::{Allocator, ByteArea, Frames, Kind, Refusal, Shared};
use likhmout::{FRAME_SIZE, HELD_WORDS, WORKSPACE_WORDS};

/// The board: 1 MiB of memory, of which the boot loader keeps 16 KiB. The head's buffer lies where the map lists nothing.
const MEMORY_MAP: [ByteArea; 2] = [
    ByteArea { address: 0x0000_0000, bytes: 0x10_0000, kind: Kind::General },
    ByteArea { address: 0x0001_0000, bytes: 0x4000, kind: Kind::Reserved },
];
const HEAD_BUFFER: u64 = 0xfe00_0000;

type Board<'w> = Shared<&'w mut [u64]>;
type Grant<'a, 'w> = Result<Frames<'a, &'w mut [u64]>, Refusal>;

/// Asks for pages by count.
struct PageBuilder<'a, 'w> {
    board: &'a Board<'w>,
}

impl<'a, 'w> PageBuilder<'a, 'w> {
    fn page(&self, frames: u64) -> Grant<'a, 'w> {
        let grant = self.board.allocate_frames(frames);
        show(&format!("page builder: {frames} frames"), &grant);
        grant
    }
}

/// Asks for its buffer by address.
struct HeadDriver<'a, 'w> {
    board: &'a Board<'w>,
}

impl<'a, 'w> HeadDriver<'a, 'w> {
    fn buffer(&self, address: u64, bytes: u64) -> Grant<'a, 'w> {
        let grant = self.board.allocate_frames_by_bytes_at(address, bytes);
        show(&format!("head driver: {bytes} bytes at {address:#x}"), &grant);
        grant
    }
}

fn show(asked: &str, grant: &Grant<'_, '_>) {
    match grant {
        Ok(frames) => {
            println!("{asked:<44} frames {} to {}", frames.range().start, frames.range().end)
        }
        Err(refusal) => println!("{asked:<44} refused {refusal}"),
    }
}

/// The head's buffer is held as long as labels are printed; each page goes back when it is printed.
fn print_labels(board: &Board) {
    let (builder, driver) = (PageBuilder { board }, HeadDriver { board });
    let Ok(_head) = driver.buffer(HEAD_BUFFER, 8192) else {
        return;
    };
    for frames in [16, 100] {
        if let Ok(page) = builder.page(frames) {
            let _ = driver.buffer(page.range().start * FRAME_SIZE, 64);
            println!("{:<44} {}", "  general frames free", total(board, Kind::General));
        }
    }
    let _ = builder.page(1000);
    let _ = driver.buffer(HEAD_BUFFER, 8192);
}

fn total(board: &Board, kind: Kind) -> String {
    board
        .free_total(kind)
        .map_or_else(|refusal| format!("refused {refusal}"), |total| total.to_string())
}

fn take_stock(board: &Board) -> Result<(), Refusal> {
    let mut buffer = [0; HELD_WORDS];
    println!("{:<44} {}", "general frames free", total(board, Kind::General));
    println!("{:<44} {}", "reserved frames free", total(board, Kind::Reserved));
    println!("{:<44} {}", "held runs", board.held_list(&mut buffer)?.len());
    Ok(())
}

fn main() -> Result<(), Refusal> {
    let mut workspace = [0; WORKSPACE_WORDS];
    let mut allocator = Allocator::new(&mut workspace[..]);
    allocator.init_from_bytes(&MEMORY_MAP)?;
    allocator.convert_frame_allocator_to_heap_based()?;
    let board = Shared::new(allocator);
    take_stock(&board)?;
    print_labels(&board);
    take_stock(&board)
}
