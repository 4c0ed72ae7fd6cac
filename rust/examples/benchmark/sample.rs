//! The sample of a patch, with its mark and without, in Rust: Bernstein sums along v, then along u, and one rounding.

use crate::access::Access;
use crate::limits::*;
use rusketja::{MarkedPoint, Refusal, PATCH_MARKS, PATCH_VALUES};

/// The weights of place a.
#[inline(always)]
pub fn weights(n: usize, a: usize) -> [u32; 4] {
    let (s, t) = (a as u32, (n - a) as u32);
    [t * t * t, 3 * s * t * t, 3 * s * s * t, s * s * s]
}

/// N^6.
#[inline(always)]
pub fn divisor(n: usize) -> u32 {
    let cube = (n * n * n) as u32;
    cube * cube
}

#[inline(always)]
pub fn blend(weights: [u32; 4], values: [i64; 4]) -> i64 {
    weights.into_iter().zip(values).map(|(weight, value)| i64::from(weight) * value).sum()
}

/// Coordinate k of control point m.
#[inline(always)]
fn control<A: Access>(patch: &[i32; PATCH_VALUES], k: usize, m: usize) -> i64 {
    A::get(patch, 3 * m + k).into()
}

/// The control values of coordinate k at one i, blended along v.
#[inline(always)]
pub fn column<A: Access>(patch: &[i32; PATCH_VALUES], k: usize, v: [u32; 4], i: usize) -> i64 {
    let control = |m| control::<A>(patch, k, m);
    blend(v, [control(i), control(i + 4), control(i + 8), control(i + 12)])
}

/// Coordinate k of the sample.
fn coordinate<A: Access>(patch: &[i32; PATCH_VALUES], k: usize, u: [u32; 4], v: [u32; 4], divisor: u32) -> Rounded {
    let column = |i| column::<A>(patch, k, v, i);
    round(blend(u, [column(0), column(1), column(2), column(3)]), divisor)
}

/// The patch of a face, with no control value beyond its limit.
#[inline(always)]
pub fn patch_of<A: Access>(patches: &[i32], face: usize) -> Result<&[i32; PATCH_VALUES], Refusal> {
    if patches.len() / PATCH_VALUES <= face {
        return Err(Refusal(12));
    }
    let patch: &[i32; PATCH_VALUES] = A::array(patches, PATCH_VALUES * face);
    if patch.iter().fold(false, |off, x| off | (MAX_CONTROL < x.unsigned_abs())) {
        return Err(Refusal(13));
    }
    Ok(patch)
}

/// The three coordinates of the sample of a patch.
#[inline(always)]
fn coordinates<A: Access>(patch: &[i32; PATCH_VALUES], n: usize, a: usize, b: usize) -> Result<[Rounded; 3], Refusal> {
    if !STEPS.contains(&n) || n < a || n < b {
        return Err(Refusal(14));
    }
    let (u, v, divisor) = (weights(n, a), weights(n, b), divisor(n));
    let coordinate = |k| coordinate::<A>(patch, k, u, v, divisor);
    Ok([coordinate(0), coordinate(1), coordinate(2)])
}

/// Takes a sample, as [`rusketja::sample`] does. Not inlined, since the library's is called too.
#[inline(never)]
pub fn sample<A: Access>(patches: &[i32], face: usize, n: usize, a: usize, b: usize) -> Result<[i32; 3], Refusal> {
    let coordinates = coordinates::<A>(patch_of::<A>(patches, face)?, n, a, b)?;
    Ok(coordinates.map(|x| x.value as i32))
}

/// Takes a sample with its mark, as [`rusketja::marked_sample`] does. Not inlined either.
#[inline(never)]
pub fn marked_sample<A: Access>(
    patches: &[i32],
    exact: &[u8],
    face: usize,
    n: usize,
    a: usize,
    b: usize,
) -> Result<MarkedPoint, Refusal> {
    if exact.len() / PATCH_MARKS <= face {
        return Err(Refusal(12));
    }
    let coordinates = coordinates::<A>(patch_of::<A>(patches, face)?, n, a, b)?;
    let marks: &[u8; PATCH_MARKS] = A::array(exact, PATCH_MARKS * face);
    let whole = coordinates.iter().fold(true, |whole, x| whole & x.exact);
    Ok(MarkedPoint {
        point: coordinates.map(|x| x.value as i32),
        exact: marks.iter().fold(whole, |exact, &mark| exact & (mark == 1)),
    })
}
