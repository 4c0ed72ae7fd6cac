//! A line of samples, in Rust: the checks, the weights of b, the divisor and the three curves once, then from one place to the next by
//! differences, with one division a coordinate.

use crate::access::Access;
use crate::limits::*;
use crate::sample::{column, divisor, patch_of, weights};
use rusketja::Refusal;

/// The places of the longest line.
pub const PLACES: usize = 3 * (*STEPS.end() + 1);

/// The sum along a curve at a = 0, and its three differences.
#[inline(always)]
fn first_sums(n: usize, [w, x, y, z]: [i64; 4]) -> [i64; 4] {
    let n = n as i64;
    let (first, gap) = (x - w, y - x);
    let (half, third) = (3 * n * (gap - first), z - w - 3 * gap);
    [n * n * n * w, half + third + 3 * n * n * first, 6 * third + 2 * half, 6 * third]
}

/// A sum and its three differences, one place further.
#[inline(always)]
fn stepped([value, first, second, third]: [i64; 4]) -> [i64; 4] {
    [value + first, first + second, second + third, third]
}

/// Writes a line, as [`rusketja::sample_line`] does. Not inlined, since the library's is called too.
#[inline(never)]
pub fn sample_line<'a, A: Access>(
    patches: &[i32],
    face: usize,
    n: usize,
    b: usize,
    line: &'a mut [i32],
) -> Result<&'a [[i32; 3]], Refusal> {
    let patch = patch_of::<A>(patches, face)?;
    if !STEPS.contains(&n) || n < b {
        return Err(Refusal(14));
    }
    let places = 3 * (n + 1);
    if line.len() < places {
        return Err(Refusal(17));
    }
    let line = A::part_mut(line, 0, places);
    let (v, divisor) = (weights(n, b), divisor(n));
    let column = |k, i| column::<A>(patch, k, v, i);
    let first_sums = |k| first_sums(n, [column(k, 0), column(k, 1), column(k, 2), column(k, 3)]);
    let (mut x, mut y, mut z) = (first_sums(0), first_sums(1), first_sums(2));
    for a in 0..=n {
        *A::at(line, 3 * a) = round(x[0], divisor).value as i32;
        *A::at(line, 3 * a + 1) = round(y[0], divisor).value as i32;
        *A::at(line, 3 * a + 2) = round(z[0], divisor).value as i32;
        (x, y, z) = (stepped(x), stepped(y), stepped(z));
    }
    Ok(line.as_chunks().0)
}
