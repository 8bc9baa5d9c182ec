//! Times the static library beside the Theseus sources, in one process and on the same calls. Prints a line for each time: the table,
//! the case, the lists' form, a size, whose calls they are, and nanoseconds for a call; `report.py` makes a page of them.

mod agree;
mod growth;
mod others;
mod ours;
mod plain;
mod record;
mod requests;
mod theirs;
mod timing;
mod world;

fn main() {
    agree::compare_tests();
    requests::table();
    requests::as_lists_grow();
    growth::table();
    others::boots();
    others::sorts();
    others::held_lists();
    others::rules();
}
