//! NULL for a slice of no elements, as C and C++ lend it. The safe crate never does: Rust has another pointer for none.

use std::ptr;

/// Whether this call is to be made with NULL: about half of those that are lent a slice of none, always the same ones.
pub fn is_lent(lengths: &[usize]) -> bool {
    lengths.contains(&0) && lengths.iter().sum::<usize>() % 4 < 2
}

pub fn at<T>(slice: &[T]) -> *const T {
    if slice.is_empty() {
        ptr::null()
    } else {
        slice.as_ptr()
    }
}

pub fn at_mut<T>(slice: &mut [T]) -> *mut T {
    if slice.is_empty() {
        ptr::null_mut()
    } else {
        slice.as_mut_ptr()
    }
}
