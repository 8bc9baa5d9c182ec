//! The constants of Theseus's `kernel_config` that its memory crates use.

#![no_std]

pub mod memory {
    pub const PAGE_SIZE: usize = 4096;
    pub const ENTRIES_PER_PAGE_TABLE: usize = 512;
    pub const MAX_VIRTUAL_ADDRESS: usize = usize::MAX;
    pub const MAX_PAGE_NUMBER: usize = MAX_VIRTUAL_ADDRESS / PAGE_SIZE;
}
