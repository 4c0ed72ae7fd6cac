//! The tangent vectors of a face.

use crate::{accepted, ffi, Mesh, Refusal};

/// The numbers of the tangent vectors of one face: 24 vectors of three coordinates.
pub const TANGENT_VALUES: usize = 72;

/// The tangent vectors of one face, as [`tangents`] has written them: the control vectors of its two tangent patches, x, y and z of each
/// in 1/256 micrometre.
#[derive(Clone, Copy, Debug, PartialEq, Eq)]
pub struct Tangents<'a> {
    vectors: &'a [[i64; 3]],
}

impl<'a> Tangents<'a> {
    pub(crate) fn of(vectors: &'a [[i64; 3]]) -> Tangents<'a> {
        Tangents { vectors }
    }

    /// Vector (i, j) of the patch along u: i from 0 to 2 along u, j from 0 to 3 along v. Panics beyond these.
    pub fn u(self, i: usize, j: usize) -> [i64; 3] {
        assert!(i < 3 && j < 4, "u({i}, {j}) is no tangent vector");
        self.vectors[i + 3 * j]
    }

    /// Vector (i, j) of the patch along v: i from 0 to 3 along u, j from 0 to 2 along v. Panics beyond these.
    pub fn v(self, i: usize, j: usize) -> [i64; 3] {
        assert!(i < 4 && j < 3, "v({i}, {j}) is no tangent vector");
        self.vectors[12 + i + 4 * j]
    }

    /// All 24 by their numbers: number i + 3j is u(i, j), and number 12 + i + 4j is v(i, j).
    pub fn vectors(self) -> &'a [[i64; 3]] {
        self.vectors
    }
}

/// Writes the tangent vectors of a face of a mesh, which is checked first: the control vectors of two patches that stand in for the
/// derivatives of its patch along u and along v where the surface is shaded (rules D7 to D10).
///
/// - Returns the vectors, as that list itself, to be read by their numbers.
/// - Writes u(i, j), i from 0 to 2 and j from 0 to 3, as vector i + 3j, and v(i, j), i from 0 to 3 and j from 0 to 2, as vector
///   12 + i + 4j: x, y and z of vector m into places 3m, 3m + 1 and 3m + 2 of `tangents`, in 1/256 micrometre, each rounded once to the
///   nearest, halves to the even one.
/// - Leaves alone all of `tangents` after a refusal.
/// - Refuses 1, 3 to 12, 18, in this order; 12 is a `face` of F or above, 18 a face with a corner on the boundary, or a `tangents` of
///   another length than 72.
///
/// ```
/// use rusketja::{tangents, Mesh, Refusal};
///
/// // The cube of rule X3: 48 micrometres wide, three faces at each vertex.
/// let cube = Mesh {
///     vertices: 8,
///     faces: 6,
///     positions: &[
///         -24, -24, -24, 24, -24, -24, -24, 24, -24, 24, 24, -24, -24, -24, 24, 24, -24, 24, -24, 24, 24, 24, 24, 24,
///     ],
///     tags: &[0; 8],
///     indices: &[7, 6, 4, 5, 0, 2, 3, 1, 0, 1, 5, 4, 2, 6, 7, 3, 0, 4, 6, 2, 1, 3, 7, 5],
/// };
/// let mut list = [7; 73];
/// assert_eq!(tangents(&cube, 6, &mut list[..72]), Err(Refusal(12)));
/// assert_eq!(tangents(&cube, 0, &mut list), Err(Refusal(18)));
/// assert_eq!(list, [7; 73]);
///
/// let found = tangents(&cube, 0, &mut list[..72])?;
/// assert_eq!([found.u(0, 0), found.u(1, 0), found.u(2, 0)], [[-7076, 3538, 3538], [-9216, 0, 0], [-7076, -3538, -3538]]);
/// assert_eq!([found.v(1, 0), found.v(2, 0)], [[1893, -6322, 7502], [-1893, -6322, 7502]]);
/// assert_eq!(list[72], 7);
/// # Ok::<(), Refusal>(())
/// ```
pub fn tangents<'a>(mesh: &Mesh, face: usize, tangents: &'a mut [i64]) -> Result<Tangents<'a>, Refusal> {
    // SAFETY: each pointer and length are those of one slice, and what is written overlaps nothing, as it is borrowed mutably.
    let code = unsafe {
        ffi::rusketja_tangents(
            mesh.vertices,
            mesh.faces,
            mesh.positions.as_ptr(),
            mesh.positions.len(),
            mesh.tags.as_ptr(),
            mesh.tags.len(),
            mesh.indices.as_ptr(),
            mesh.indices.len(),
            face,
            tangents.as_mut_ptr(),
            tangents.len(),
        )
    };
    accepted(code, ())?;
    Ok(Tangents::of(tangents.as_chunks().0))
}
