//! The refusals.

use std::error::Error;
use std::fmt;

/// A refusal, by its number: the first cause that was met, in the order of the numbers.
///
/// | number | cause |
/// |---|---|
/// | 1 | V is not from 4 to 512, F is not from 1 to 256, or a list of the mesh has another length than 3V, V or 4F |
/// | 2 | a lent list is too short: 4F twins, 48F control values, 16F marks |
/// | 3 | a coordinate is not from -1,048,576 to 1,048,576 |
/// | 4 | a tag is above 1 |
/// | 5 | a face names a vertex of V or above |
/// | 6 | a face names a vertex twice |
/// | 7 | a half-edge occurs twice, the same way round |
/// | 8 | a vertex is in no face |
/// | 9 | the corners at a vertex form neither one closed turn nor one chain |
/// | 10 | an inner vertex has less than 3 or more than 16 faces, or a boundary vertex more than 8 |
/// | 11 | an inner vertex is tagged 1 |
/// | 12 | the patch list ends before the patch of the face, shorter than 48f + 48, or the list of marks before its marks, shorter than 16f + 16; for tangents, the face is F or above |
/// | 13 | a control value of the face is beyond 268,435,456 either way |
/// | 14 | n is not from 1 to 32, or a or b is above n (a where the function is passed one) |
/// | 16 | a list to be written, `out_positions`, `out_tags` or `out_indices`, is not as long as that list of the mesh |
/// | 17 | the list lent for a line of samples is shorter than 3(n + 1) |
/// | 18 | a corner of the face is on the boundary, or the list lent for its tangent vectors has not exactly 72 places |
///
/// 15 belongs to files alone (`docs/REFUSALS.md`): no function here gives it.
#[derive(Clone, Copy, Debug, PartialEq, Eq, Hash)]
pub struct Refusal(pub u8);

impl Refusal {
    /// The cause, in words.
    pub fn meaning(self) -> &'static str {
        match self.0 {
            1 => "a size of the mesh is off its range, or a list of the mesh has another length",
            2 => "a lent list is too short",
            3 => "a coordinate is off its range",
            4 => "a tag is above 1",
            5 => "a face names a vertex that the mesh does not have",
            6 => "a face names a vertex twice",
            7 => "a half-edge occurs twice the same way round",
            8 => "a vertex is in no face",
            9 => "the corners at a vertex are not one fan, closed or open",
            10 => "a vertex has too few or too many faces",
            11 => "an inner vertex is tagged as a corner",
            12 => "the patch list, the list of marks, or the mesh, has no such face",
            13 => "a control value is beyond its limit",
            14 => "the number of steps is off its range, or a place is beyond it",
            16 => "a list to be written is not as long as that list of the mesh",
            17 => "the list for a line of samples is too short",
            18 => "a corner of the face is on the boundary, or the list for its tangent vectors has another length",
            _ => "no refusal of this library",
        }
    }
}

impl fmt::Display for Refusal {
    fn fmt(&self, out: &mut fmt::Formatter<'_>) -> fmt::Result {
        write!(out, "refused {}: {}", self.0, self.meaning())
    }
}

impl Error for Refusal {}
