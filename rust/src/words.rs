//! Structs of words, seen as the words that they are.

use core::mem::{align_of, size_of};
use core::slice;

/// # Safety
///
/// The type is `repr(C)`, all its bytes are 64-bit words, and it has no padding.
pub unsafe trait Words: Sized {
    const COUNT: usize = {
        assert!(size_of::<Self>() % 8 == 0 && align_of::<Self>() == 8);
        size_of::<Self>() / 8
    };
}

pub fn of<T: Words>(values: &[T]) -> &[u64] {
    // SAFETY: so many words lie there, by `Words`.
    unsafe { slice::from_raw_parts(values.as_ptr().cast(), values.len() * T::COUNT) }
}

/// Any words may be written to what is lent.
///
/// # Safety
///
/// Every value of each word is one of the type's.
pub unsafe fn of_mut<T: Words>(values: &mut [T]) -> &mut [u64] {
    // SAFETY: so many words lie there, by `Words`, and the caller says that any may.
    unsafe { slice::from_raw_parts_mut(values.as_mut_ptr().cast(), values.len() * T::COUNT) }
}
