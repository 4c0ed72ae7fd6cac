//! The sample with its mark.

use crate::{accepted, ffi, Refusal};

/// A sample, and whether it is exact.
#[derive(Clone, Copy, Debug, PartialEq, Eq, Hash)]
pub struct MarkedPoint {
    /// x, y and z in 1/256 micrometre, as [`sample`](crate::sample) gives them.
    pub point: [i32; 3],
    /// Whether nothing was rounded: neither a control point of the patch nor the sample itself.
    pub exact: bool,
}

/// Takes the sample of a face at (a, b) of n by n steps, with its mark: whether it is exact.
///
/// Where one call of [`patches()`](crate::patches()) wrote both lists, and nothing has been written to them since, a sample that is marked
/// exact is a point of the exact surface itself, and not only near it (rule C12).
///
/// - Returns the [`sample`](crate::sample), and `exact`: the sixteen marks of face f are all 1, and the sample's own rounding left nothing in
///   x, y and z.
/// - Reads no more of `patches` than the patch of face f, 48 control values, and no more of `exact` than its marks, 16 bytes.
/// - Refuses 12, 13, 14, in this order; 12 is a `patches` shorter than 48f + 48 or an `exact` shorter than 16f + 16.
///
/// ```
/// use rusketja::{marked_sample, patches, MarkedPoint, Mesh, Refusal};
///
/// let square = Mesh {
///     vertices: 4,
///     faces: 1,
///     positions: &[0, 0, 0, 21, 0, 0, 21, 21, 0, 0, 21, 0],
///     tags: &[0; 4],
///     indices: &[0, 1, 2, 3],
/// };
/// let (mut controls, mut exact) = ([0; 48], [0; 16]);
/// patches(&square, &mut [0; 4], &mut controls, &mut exact)?;
/// // A seventh of 5376 is whole, a fifth is not.
/// assert_eq!(marked_sample(&controls, &exact, 0, 7, 1, 1)?, MarkedPoint { point: [768, 768, 0], exact: true });
/// assert_eq!(marked_sample(&controls, &exact, 0, 5, 1, 1)?, MarkedPoint { point: [1075, 1075, 0], exact: false });
/// assert_eq!(marked_sample(&controls, &exact[..15], 0, 7, 1, 1), Err(Refusal(12)));
/// # Ok::<(), Refusal>(())
/// ```
// Inlined: it has more arguments than there are registers, and to hand them on from the stack takes a third of the call's time.
#[inline]
pub fn marked_sample(
    patches: &[i32],
    exact: &[u8],
    face: usize,
    n: usize,
    a: usize,
    b: usize,
) -> Result<MarkedPoint, Refusal> {
    let (mut x, mut y, mut z, mut mark) = (0, 0, 0, 0);
    let (list, places) = (patches.as_ptr(), patches.len());
    // SAFETY: each pointer and length are those of one slice, and x, y, z and the mark are apart from them and from each other.
    let code = unsafe {
        let (marks, count) = (exact.as_ptr(), exact.len());
        ffi::rusketja_marked_sample(list, places, marks, count, face, n, a, b, &mut x, &mut y, &mut z, &mut mark)
    };
    accepted(code, MarkedPoint { point: [x, y, z], exact: mark == 1 })
}

#[cfg(test)]
mod tests {
    use super::*;
    use crate::sample;

    /// What the call returns, and its lent numbers and its lent byte afterwards, which all held 7.
    fn stored(patches: &[i32], exact: &[u8], [face, n, a, b]: [usize; 4]) -> (u8, [i32; 3], u8) {
        let (mut x, mut y, mut z, mut mark) = (7, 7, 7, 7);
        let (list, places) = (patches.as_ptr(), patches.len());
        // SAFETY: each pointer and length are those of one slice, and the lent numbers are apart from them and from each other.
        let code = unsafe {
            let (marks, count) = (exact.as_ptr(), exact.len());
            ffi::rusketja_marked_sample(list, places, marks, count, face, n, a, b, &mut x, &mut y, &mut z, &mut mark)
        };
        (code, [x, y, z], mark)
    }

    #[test]
    fn a_refused_marked_sample_leaves_its_numbers_alone() {
        let mut off = [0; 96];
        off[95] = -268_435_457;
        // Each cause alone, then with all that come behind it.
        for (patches, marks, n, number) in [
            (&off[..48], 32, 2, 12),
            (&[0; 96], 31, 2, 12),
            (&off, 31, 33, 12),
            (&off[..95], 0, 0, 12),
            (&off, 32, 2, 13),
            (&off, 33, 0, 13),
            (&[0; 96], 32, 33, 14),
        ] {
            assert_eq!(stored(patches, &vec![1; marks], [1, n, 1, 1]), (number, [7; 3], 7));
        }
        for face in [2, 1 << 28, 1 << 60, usize::MAX / 48, usize::MAX / 16, usize::MAX / 16 + 1, usize::MAX] {
            assert_eq!(stored(&[0; 96], &[1; 32], [face, 1, 0, 0]), (12, [7; 3], 7));
        }
        for (a, b) in [(3, 0), (0, 3), (usize::MAX, 0)] {
            assert_eq!(stored(&[0; 96], &[1; 32], [1, 2, a, b]), (14, [7; 3], 7));
        }
    }

    #[test]
    fn a_mark_is_the_byte_1_or_0() {
        // From one corner of the face to the one across it a coordinate grows by 15 times 576, which 7 does not divide.
        let controls: Vec<i32> = (0..96).map(|place| 192 * place - 9000).collect();
        let mut exact = [1; 32];
        for (n, number) in [(2, 1), (7, 0)] {
            let point = sample(&controls, 1, n, 1, 1).expect("a sample");
            assert_eq!(stored(&controls, &exact, [1, n, 1, 1]), (0, point, number));
            assert_eq!(marked_sample(&controls, &exact, 1, n, 1, 1), Ok(MarkedPoint { point, exact: number == 1 }));
        }
        exact[31] = 255;
        assert_eq!(stored(&controls, &exact, [1, 2, 1, 1]).2, 0);
        assert_eq!(stored(&controls, &exact, [0, 2, 1, 1]).2, 1);
    }
}
