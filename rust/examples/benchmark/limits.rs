//! The limits of rules M1 to M3, T6, B3 and S1, and the corners of a face by their numbers.

use std::ops::RangeInclusive;

pub const VERTICES: RangeInclusive<usize> = 4..=MAX_VERTICES;
pub const FACES: RangeInclusive<usize> = 1..=MAX_FACES;
pub const VALENCE: RangeInclusive<u16> = 3..=16;
pub const BOUNDARY_FACES: RangeInclusive<u16> = 1..=8;
pub const STEPS: RangeInclusive<usize> = 1..=32;
pub const MAX_VERTICES: usize = 512;
pub const MAX_FACES: usize = 256;
pub const MAX_COORDINATE: u32 = 1_048_576;
pub const MAX_CONTROL: u32 = 268_435_456;
pub const CORNER_TAG: u8 = 1;

/// The corner i further than c in its face.
#[inline(always)]
pub fn turned(i: usize, c: usize) -> usize {
    (c & !3) | ((c + i) & 3)
}

/// A rounded quotient, and whether the rounding leaves nothing.
#[derive(Clone, Copy)]
pub struct Rounded {
    pub value: i64,
    pub exact: bool,
}

/// `num / den` rounded once, a half to the even neighbour; 0 for a divisor 0.
#[inline(always)]
pub fn round(num: i64, den: u32) -> Rounded {
    if den == 0 {
        return Rounded { value: 0, exact: num == 0 };
    }
    let (size, den) = (num.unsigned_abs(), u64::from(den));
    let (quotient, rest) = (size / den, size % den);
    let (up, exact) = (den < 2 * rest + (quotient & 1), rest == 0);
    let value = (quotient + u64::from(up)) as i64;
    Rounded { value: if num < 0 { value.wrapping_neg() } else { value }, exact }
}
