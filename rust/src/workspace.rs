//! The words that the lists lie in once they are sorted.

/// Memory that an allocator keeps its lists in: an array, or a slice or an array that it is lent as long as it lasts.
///
/// # Safety
///
/// `words` and `words_mut` hand out the same words each time, with the values that were last written through `words_mut`, and neither uses
/// an allocator. In sorted form the words say which frames are free: with the words of an hour ago, a frame that was granted since is
/// granted again.
pub unsafe trait Workspace {
    fn words(&self) -> &[u64];
    fn words_mut(&mut self) -> &mut [u64];
}

// SAFETY of the three: they are the words themselves, and Rust lets nobody else write to them.
unsafe impl<const N: usize> Workspace for [u64; N] {
    fn words(&self) -> &[u64] {
        self
    }

    fn words_mut(&mut self) -> &mut [u64] {
        self
    }
}

unsafe impl Workspace for &mut [u64] {
    fn words(&self) -> &[u64] {
        self
    }

    fn words_mut(&mut self) -> &mut [u64] {
        self
    }
}

unsafe impl<const N: usize> Workspace for &mut [u64; N] {
    fn words(&self) -> &[u64] {
        *self
    }

    fn words_mut(&mut self) -> &mut [u64] {
        *self
    }
}
