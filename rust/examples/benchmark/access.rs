//! How the lists are read and written: the same code is compiled with Rust's bounds checks and without.

/// A way to reach the elements of a list.
pub trait Access {
    /// Element i.
    fn get<T: Copy>(list: &[T], i: usize) -> T;
    /// Element i, to be written.
    fn at<T>(list: &mut [T], i: usize) -> &mut T;
    /// The L elements from `from` on.
    fn array<T, const L: usize>(list: &[T], from: usize) -> &[T; L];
    /// The `count` elements from `from` on, to be written.
    fn part_mut<T>(list: &mut [T], from: usize, count: usize) -> &mut [T];
}

/// With bounds checks.
pub struct Checked;

impl Access for Checked {
    #[inline(always)]
    fn get<T: Copy>(list: &[T], i: usize) -> T {
        list[i]
    }

    #[inline(always)]
    fn at<T>(list: &mut [T], i: usize) -> &mut T {
        &mut list[i]
    }

    #[inline(always)]
    fn array<T, const L: usize>(list: &[T], from: usize) -> &[T; L] {
        list[from..].first_chunk().expect("a list that is long enough")
    }

    #[inline(always)]
    fn part_mut<T>(list: &mut [T], from: usize, count: usize) -> &mut [T] {
        &mut list[from..from + count]
    }
}

/// Without bounds checks. Each index is one that [`Checked`] takes too: the benchmark runs the checked form first, on the same input.
pub struct Unchecked;

impl Access for Unchecked {
    #[inline(always)]
    fn get<T: Copy>(list: &[T], i: usize) -> T {
        debug_assert!(i < list.len());
        // SAFETY: the checked form has read this element of this list.
        unsafe { *list.get_unchecked(i) }
    }

    #[inline(always)]
    fn at<T>(list: &mut [T], i: usize) -> &mut T {
        debug_assert!(i < list.len());
        // SAFETY: the checked form has reached this element of this list.
        unsafe { list.get_unchecked_mut(i) }
    }

    #[inline(always)]
    fn array<T, const L: usize>(list: &[T], from: usize) -> &[T; L] {
        debug_assert!(from + L <= list.len());
        // SAFETY: the checked form has taken this part of this list.
        unsafe { list.get_unchecked(from..).first_chunk().unwrap_unchecked() }
    }

    #[inline(always)]
    fn part_mut<T>(list: &mut [T], from: usize, count: usize) -> &mut [T] {
        debug_assert!(from + count <= list.len());
        // SAFETY: the checked form has taken this part of this list.
        unsafe { list.get_unchecked_mut(from..from + count) }
    }
}
