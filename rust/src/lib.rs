//! Bicubic patches of a quad mesh and their exact samples, by a library that is proved in Rattle.
//!
//! Each function here calls the one of its name in the static library (`rt lib` in crates/capi), whose contract, for every input, is
//! in `crates/capi/src`. These wrappers pass the lists and turn a returned number that may be a refusal into a `Result`; nothing
//! proves the wrappers themselves, and no input is refused by them.
//!
//! Names, with those of the user's document: half-edge (side), twin (mate), boundary (rim), control value (patch number). Half-edge
//! 4f + s runs from corner s of face f to the next corner. Rules are those of `docs/SPECIFICATION.md`.
//!
//! ```
//! use rusketja::{marked_sample, patches, reading, sample, sample_line, Counts, Mesh};
//!
//! // The square of rule X1: four vertices in micrometres, one face.
//! let square = Mesh {
//!     vertices: 4,
//!     faces: 1,
//!     positions: &[0, 0, 0, 21, 0, 0, 21, 21, 0, 0, 21, 0],
//!     tags: &[0; 4],
//!     indices: &[0, 1, 2, 3],
//! };
//! let mut twins = [0; 4];
//! let mut controls = [0; 48];
//! let mut exact = [0; 16];
//! let counts = patches(&square, &mut twins, &mut controls, &mut exact)?;
//! assert_eq!(counts, Counts { vertices: 4, faces: 1, edges: 4, boundary: 4 });
//! assert_eq!(sample(&controls, 0, 2, 1, 1)?, [2688, 2688, 0]);
//! assert_eq!(reading(&controls, 0, 2, 1, 1)?, [10.5, 10.5, 0.0]);
//!
//! // Nothing was rounded on the way to this sample.
//! assert!(marked_sample(&controls, &exact, 0, 2, 1, 1)?.exact);
//!
//! // All samples with b = 1, by one call.
//! let mut line = [0; 9];
//! for [x, y, z] in sample_line(&controls, 0, 2, 1, &mut line)? {
//!     println!("{x} {y} {z}");
//! }
//! assert_eq!(line, [0, 2688, 0, 2688, 2688, 0, 5376, 2688, 0]);
//! # Ok::<(), rusketja::Refusal>(())
//! ```
#![warn(missing_docs)]

mod ffi;
mod marked;
mod refusal;
mod tangent;

pub use marked::{marked_sample, MarkedPoint};
pub use refusal::Refusal;
pub use tangent::{tangents, Tangents, TANGENT_VALUES};

/// The twin of a boundary half-edge, which has none.
pub const NO_TWIN: u16 = 65535;

/// The control values of one face: sixteen points of three coordinates.
pub const PATCH_VALUES: usize = 48;

/// The marks of one face: one for each control point.
pub const PATCH_MARKS: usize = 16;

/// A mesh as it is handed to [`check`], [`patches`], [`mirror`] and [`tangents()`]: any sizes and lists, which are checked there.
#[derive(Clone, Copy, Debug)]
pub struct Mesh<'a> {
    /// V, from 4 to 512.
    pub vertices: usize,
    /// F, from 1 to 256.
    pub faces: usize,
    /// 3V coordinates in micrometres, x, y, z of each vertex; a magnitude is at most 1,048,576.
    pub positions: &'a [i32],
    /// V tags: 0 smooth, 1 corner, which only a boundary vertex may be.
    pub tags: &'a [u8],
    /// 4F vertex numbers, four to a face, counterclockwise.
    pub indices: &'a [u16],
}

/// The counts of an accepted mesh: V, F, E and B, with 4F + B = 2E (rule T8).
#[derive(Clone, Copy, Debug, Default, PartialEq, Eq, Hash)]
pub struct Counts {
    /// V.
    pub vertices: usize,
    /// F.
    pub faces: usize,
    /// E: unordered pairs of vertices joined by a half-edge.
    pub edges: usize,
    /// B: boundary half-edges.
    pub boundary: usize,
}

/// The result, or the refusal of a number other than 0.
fn accepted<T>(code: u8, result: T) -> Result<T, Refusal> {
    match code {
        0 => Ok(result),
        number => Err(Refusal(number)),
    }
}

/// Checks a whole mesh.
///
/// - Returns the counts of an accepted mesh.
/// - Writes the twin of each half-edge into the first 4F places of `twins`, [`NO_TWIN`] for a boundary half-edge; after a refusal
///   from 8 to 11, [`NO_TWIN`] into all of them.
/// - Leaves alone `twins` from 4F on, and all of it after a refusal from 1 to 7.
/// - Refuses 1 to 11, in this order; 2 is a `twins` shorter than 4F.
///
/// ```
/// use rusketja::{check, Counts, Mesh, Refusal, NO_TWIN};
///
/// let square = Mesh {
///     vertices: 4,
///     faces: 1,
///     positions: &[0, 0, 0, 21, 0, 0, 21, 21, 0, 0, 21, 0],
///     tags: &[0; 4],
///     indices: &[0, 1, 2, 3],
/// };
/// let mut twins = [7; 5];
/// assert_eq!(check(&square, &mut twins), Ok(Counts { vertices: 4, faces: 1, edges: 4, boundary: 4 }));
/// assert_eq!(twins, [NO_TWIN, NO_TWIN, NO_TWIN, NO_TWIN, 7]);
///
/// let twice = Mesh { indices: &[0, 1, 2, 0], ..square };
/// assert_eq!(check(&twice, &mut twins), Err(Refusal(6)));
/// ```
pub fn check(mesh: &Mesh, twins: &mut [u16]) -> Result<Counts, Refusal> {
    let mut counts = Counts::default();
    // SAFETY: each pointer and length are those of one slice, and what is written overlaps nothing, as it is borrowed mutably.
    let code = unsafe {
        ffi::rusketja_check(
            mesh.vertices,
            mesh.faces,
            mesh.positions.as_ptr(),
            mesh.positions.len(),
            mesh.tags.as_ptr(),
            mesh.tags.len(),
            mesh.indices.as_ptr(),
            mesh.indices.len(),
            twins.as_mut_ptr(),
            twins.len(),
            &mut counts.vertices,
            &mut counts.faces,
            &mut counts.edges,
            &mut counts.boundary,
        )
    };
    accepted(code, counts)
}

/// Writes the bicubic patches of a mesh, which is checked first, and a mark for each control point: whether it is exact.
///
/// - Returns the counts of an accepted mesh, as [`check`] does.
/// - Writes the patch of each face f into places 48f to 48f + 47 of `patches`, in 1/256 micrometre: point i + 4j of the net, where i
///   counts along u, as x, y, z, each rounded once with ties to even. Writes the marks of face f into places 16f to 16f + 15 of `exact`:
///   for point i + 4j the byte 1 where rounding left nothing in x, y and z, else 0. Writes `twins` as [`check`] does.
/// - Leaves alone `patches` from 48F on and `exact` from 16F on, and all of both after a refusal; `twins` as [`check`] does.
/// - Refuses 1 to 11, in this order; 2 is a `twins` shorter than 4F, a `patches` shorter than 48F or an `exact` shorter than 16F.
///
/// ```
/// use rusketja::{patches, Mesh};
///
/// let square = Mesh {
///     vertices: 4,
///     faces: 1,
///     positions: &[0, 0, 0, 21, 0, 0, 21, 21, 0, 0, 21, 0],
///     tags: &[0; 4],
///     indices: &[0, 1, 2, 3],
/// };
/// let (mut controls, mut exact) = ([0; 48], [7; 17]);
/// patches(&square, &mut [0; 4], &mut controls, &mut exact)?;
/// // b(1,0), b(1,1) and b(2,1)
/// assert_eq!(controls[3..6], [1792, 0, 0]);
/// assert_eq!(controls[15..18], [1792, 1792, 0]);
/// assert_eq!(controls[18..21], [3584, 1792, 0]);
/// assert_eq!(exact, [1, 1, 1, 1, 1, 1, 1, 1, 1, 1, 1, 1, 1, 1, 1, 1, 7]);
///
/// // Of a side of 20 micrometres a third is no whole number of 1/256 micrometre.
/// let rounded = Mesh { positions: &[0, 0, 0, 20, 0, 0, 20, 21, 0, 0, 21, 0], ..square };
/// patches(&rounded, &mut [0; 4], &mut controls, &mut exact)?;
/// assert_eq!(exact, [1, 0, 0, 1, 1, 0, 0, 1, 1, 0, 0, 1, 1, 0, 0, 1, 7]);
/// # Ok::<(), rusketja::Refusal>(())
/// ```
pub fn patches(mesh: &Mesh, twins: &mut [u16], patches: &mut [i32], exact: &mut [u8]) -> Result<Counts, Refusal> {
    let mut counts = Counts::default();
    // SAFETY: each pointer and length are those of one slice, and what is written overlaps nothing, as it is borrowed mutably.
    let code = unsafe {
        ffi::rusketja_patches(
            mesh.vertices,
            mesh.faces,
            mesh.positions.as_ptr(),
            mesh.positions.len(),
            mesh.tags.as_ptr(),
            mesh.tags.len(),
            mesh.indices.as_ptr(),
            mesh.indices.len(),
            twins.as_mut_ptr(),
            twins.len(),
            patches.as_mut_ptr(),
            patches.len(),
            exact.as_mut_ptr(),
            exact.len(),
            &mut counts.vertices,
            &mut counts.faces,
            &mut counts.edges,
            &mut counts.boundary,
        )
    };
    accepted(code, counts)
}

/// Takes the sample of a face at (a, b) of n by n steps (n is the N of rule S1): the point of its patch at u = a/n, v = b/n.
///
/// - Returns x, y and z in 1/256 micrometre, each rounded once to the nearest, halves to the even one.
/// - Reads no more of `patches` than the patch of face f, 48 control values, as [`patches()`] writes them.
/// - Refuses 12, 13, 14, in this order.
///
/// ```
/// use rusketja::{patches, sample, Mesh, Refusal};
///
/// let square = Mesh {
///     vertices: 4,
///     faces: 1,
///     positions: &[0, 0, 0, 21, 0, 0, 21, 21, 0, 0, 21, 0],
///     tags: &[0; 4],
///     indices: &[0, 1, 2, 3],
/// };
/// let mut controls = [0; 48];
/// patches(&square, &mut [0; 4], &mut controls, &mut [0; 16])?;
/// assert_eq!(sample(&controls, 0, 2, 1, 0), Ok([2688, 0, 0]));
/// assert_eq!(sample(&controls, 1, 2, 1, 0), Err(Refusal(12)));
/// assert_eq!(sample(&controls, 0, 2, 3, 0), Err(Refusal(14)));
/// # Ok::<(), Refusal>(())
/// ```
pub fn sample(patches: &[i32], face: usize, n: usize, a: usize, b: usize) -> Result<[i32; 3], Refusal> {
    let mut point = [0; 3];
    let [x, y, z] = &mut point;
    // SAFETY: the pointer and the length are those of one slice, and x, y, z are apart from it and from each other.
    let code = unsafe { ffi::rusketja_sample(patches.as_ptr(), patches.len(), face, n, a, b, x, y, z) };
    accepted(code, point)
}

/// Takes the sample of a face at (a, b) of n by n steps, in micrometres.
///
/// - Returns x, y and z in micrometres, each exactly the coordinate of the [`sample`] over 256.
/// - Reads no more of `patches` than the patch of face f, 48 control values, as [`patches()`] writes them.
/// - Refuses 12, 13, 14, in this order.
///
/// ```
/// use rusketja::{patches, reading, Mesh};
///
/// let square = Mesh {
///     vertices: 4,
///     faces: 1,
///     positions: &[0, 0, 0, 21, 0, 0, 21, 21, 0, 0, 21, 0],
///     tags: &[0; 4],
///     indices: &[0, 1, 2, 3],
/// };
/// let mut controls = [0; 48];
/// patches(&square, &mut [0; 4], &mut controls, &mut [0; 16])?;
/// assert_eq!(reading(&controls, 0, 2, 1, 0)?, [10.5, 0.0, 0.0]);
/// # Ok::<(), rusketja::Refusal>(())
/// ```
pub fn reading(patches: &[i32], face: usize, n: usize, a: usize, b: usize) -> Result<[f64; 3], Refusal> {
    let mut point = [0.0; 3];
    let [x, y, z] = &mut point;
    // SAFETY: the pointer and the length are those of one slice, and x, y, z are apart from it and from each other.
    let code = unsafe { ffi::rusketja_reading(patches.as_ptr(), patches.len(), face, n, a, b, x, y, z) };
    accepted(code, point)
}

/// Writes all samples of a face with one b of n by n steps: a line of n + 1 points of its patch at v = b/n, a rising from 0 to n.
///
/// - Returns the points, as that part of `line`: point a is the [`sample`] at (a, b), to the very number.
/// - Writes x, y and z of point a into places 3a, 3a + 1 and 3a + 2 of `line`, in 1/256 micrometre.
/// - Leaves alone `line` from 3(n + 1) on, and all of it after a refusal.
/// - Reads no more of `patches` than the patch of face f, 48 control values, as [`patches()`] writes them.
/// - Refuses 12, 13, 14, 17, in this order; 17 is a `line` shorter than 3(n + 1), for which 99 places always do.
///
/// ```
/// use rusketja::{patches, sample, sample_line, Mesh, Refusal};
///
/// let square = Mesh {
///     vertices: 4,
///     faces: 1,
///     positions: &[0, 0, 0, 21, 0, 0, 21, 21, 0, 0, 21, 0],
///     tags: &[0; 4],
///     indices: &[0, 1, 2, 3],
/// };
/// let mut controls = [0; 48];
/// patches(&square, &mut [0; 4], &mut controls, &mut [0; 16])?;
///
/// let mut line = [7; 10];
/// assert_eq!(sample_line(&controls, 0, 2, 1, &mut line[..8]), Err(Refusal(17)));
/// assert_eq!(line, [7; 10]);
///
/// for (a, point) in sample_line(&controls, 0, 2, 1, &mut line)?.iter().enumerate() {
///     assert_eq!(*point, sample(&controls, 0, 2, a, 1)?);
/// }
/// assert_eq!(line, [0, 2688, 0, 2688, 2688, 0, 5376, 2688, 0, 7]);
/// # Ok::<(), Refusal>(())
/// ```
pub fn sample_line<'a>(
    patches: &[i32],
    face: usize,
    n: usize,
    b: usize,
    line: &'a mut [i32],
) -> Result<&'a [[i32; 3]], Refusal> {
    let (list, places) = (line.as_mut_ptr(), line.len());
    // SAFETY: each pointer and length are those of one slice, and what is written overlaps nothing, as it is borrowed mutably.
    let code = unsafe { ffi::rusketja_sample_line(patches.as_ptr(), patches.len(), face, n, b, list, places) };
    accepted(code, ())?;
    let (points, _) = line.as_chunks();
    Ok(&points[..=n])
}

/// Writes the mirror image of a mesh, which is checked first: the last of the other foot.
///
/// - Returns nothing more than that it is done. The image is accepted too, with the same counts, and its [`sample`] of a face at
///   (b, a) is that of the mesh at (a, b) with the sign of x changed.
/// - Writes the positions into `out_positions`, x with its sign changed, the tags into `out_tags`, and each face into its place of
///   `out_indices`, from its first corner the other way round: corners 0, 3, 2, 1.
/// - Leaves alone all three lists after a refusal.
/// - Refuses 1, 3 to 11, 16, in this order; 16 is a list that is shorter or longer than the list of the mesh that goes into it.
///
/// ```
/// use rusketja::{mirror, patches, sample, Mesh, Refusal};
///
/// let square = Mesh {
///     vertices: 4,
///     faces: 1,
///     positions: &[0, 0, 0, 21, 0, 0, 21, 21, 0, 0, 21, 0],
///     tags: &[0; 4],
///     indices: &[0, 1, 2, 3],
/// };
/// let (mut positions, mut tags, mut indices) = ([7; 12], [7; 4], [7; 4]);
/// assert_eq!(mirror(&square, &mut positions, &mut tags[..3], &mut indices), Err(Refusal(16)));
/// assert_eq!((positions, tags, indices), ([7; 12], [7; 4], [7; 4]));
///
/// mirror(&square, &mut positions, &mut tags, &mut indices)?;
/// assert_eq!(positions, [0, 0, 0, -21, 0, 0, -21, 21, 0, 0, 21, 0]);
/// assert_eq!((tags, indices), ([0; 4], [0, 3, 2, 1]));
///
/// let image = Mesh { positions: &positions, tags: &tags, indices: &indices, ..square };
/// let (mut controls, mut mirrored) = ([0; 48], [0; 48]);
/// patches(&square, &mut [0; 4], &mut controls, &mut [0; 16])?;
/// patches(&image, &mut [0; 4], &mut mirrored, &mut [0; 16])?;
/// assert_eq!(sample(&controls, 0, 2, 1, 0)?, [2688, 0, 0]);
/// assert_eq!(sample(&mirrored, 0, 2, 0, 1)?, [-2688, 0, 0]);
/// # Ok::<(), Refusal>(())
/// ```
pub fn mirror(
    mesh: &Mesh,
    out_positions: &mut [i32],
    out_tags: &mut [u8],
    out_indices: &mut [u16],
) -> Result<(), Refusal> {
    // SAFETY: each pointer and length are those of one slice, and what is written overlaps nothing, as it is borrowed mutably.
    let code = unsafe {
        ffi::rusketja_mirror(
            mesh.vertices,
            mesh.faces,
            mesh.positions.as_ptr(),
            mesh.positions.len(),
            mesh.tags.as_ptr(),
            mesh.tags.len(),
            mesh.indices.as_ptr(),
            mesh.indices.len(),
            out_positions.as_mut_ptr(),
            out_positions.len(),
            out_tags.as_mut_ptr(),
            out_tags.len(),
            out_indices.as_mut_ptr(),
            out_indices.len(),
        )
    };
    accepted(code, ())
}

/// The four corners of a face, as that part of the list of vertex numbers; the part is empty where the list ends before them.
///
/// ```
/// use rusketja::face_corners;
///
/// let indices = [0, 1, 4, 3, 1, 2, 5, 4];
/// assert_eq!(face_corners(&indices, 1), [1, 2, 5, 4]);
/// assert!(face_corners(&indices, 2).is_empty());
/// ```
pub fn face_corners(indices: &[u16], face: usize) -> &[u16] {
    let mut first = 0;
    // SAFETY: the pointer and the length are those of one slice, and `first` is apart from it.
    let count = unsafe { ffi::rusketja_face_corners(indices.as_ptr(), indices.len(), face, &mut first) };
    &indices[first..first + count]
}

/// The cosine of 2 pi / m in 1/2^20: of all whole numbers the nearest to 1,048,576 times it.
///
/// - Returns that number where m is at least 3 and at most 32, and 0 for another m.
/// - Refuses nothing.
///
/// ```
/// use rusketja::cosine;
///
/// assert_eq!([3, 4, 5, 6].map(cosine), [-524_288, 0, 324_028, 524_288]);
/// assert_eq!([2, 33].map(cosine), [0, 0]);
/// ```
pub fn cosine(m: usize) -> i32 {
    // SAFETY: the call is passed a number and nothing else.
    unsafe { ffi::rusketja_cosine(m) }
}

/// The weight of an edge in the tangent at an inner vertex of n faces, in 1/2^20.
///
/// The n edges of the vertex are numbered around it, from 0, the one that the tangent runs along; the weight is that of the far end of
/// edge i. Each weight, also those of [`face_weight`], is within one unit of the exact one, equation (2) of Loop and Schaefer
/// (`docs/SPECIFICATION.md`).
///
/// - Returns the weight for n from 3 to 16 and i below n, and 0 for others.
/// - Refuses nothing.
///
/// ```
/// use rusketja::edge_weight;
///
/// // Of four faces: a third of the edge itself, less a third of the one that leaves the other way.
/// assert_eq!([0, 1, 2, 3].map(|i| edge_weight(4, i)), [349_525, 0, -349_525, 0]);
/// assert_eq!([edge_weight(4, 4), edge_weight(2, 0), edge_weight(17, 0)], [0, 0, 0]);
/// ```
pub fn edge_weight(n: usize, i: usize) -> i32 {
    // SAFETY: the call is passed two numbers and nothing else.
    unsafe { ffi::rusketja_edge_weight(n, i) }
}

/// The weight of a face in the tangent at an inner vertex of n faces, in 1/2^20: of the vertex across the face between edges i and
/// i + 1, numbered as for [`edge_weight`]; behind the last edge comes edge 0.
///
/// - Returns the weight for n from 3 to 16 and i below n, and 0 for others.
/// - Refuses nothing.
///
/// ```
/// use rusketja::face_weight;
///
/// // Of four faces: a twelfth of the two beside the edge, less a twelfth of the two others.
/// assert_eq!([0, 1, 2, 3].map(|i| face_weight(4, i)), [87_381, -87_381, -87_381, 87_381]);
/// assert_eq!([face_weight(4, 4), face_weight(2, 0), face_weight(17, 0)], [0, 0, 0]);
/// ```
pub fn face_weight(n: usize, i: usize) -> i32 {
    // SAFETY: the call is passed two numbers and nothing else.
    unsafe { ffi::rusketja_face_weight(n, i) }
}

#[cfg(test)]
mod tests {
    use super::*;

    const SQUARE: Mesh = Mesh {
        vertices: 4,
        faces: 1,
        positions: &[0, 0, 0, 21, 0, 0, 21, 21, 0, 0, 21, 0],
        tags: &[0; 4],
        indices: &[0, 1, 2, 3],
    };

    #[test]
    fn empty_lists_and_the_largest_numbers_are_refused() {
        let none = Mesh { vertices: usize::MAX, faces: usize::MAX, positions: &[], tags: &[], indices: &[] };
        assert_eq!(check(&none, &mut []), Err(Refusal(1)));
        assert_eq!(patches(&none, &mut [], &mut [], &mut []), Err(Refusal(1)));
        assert_eq!(mirror(&none, &mut [], &mut [], &mut []), Err(Refusal(1)));
        assert_eq!(tangents(&none, usize::MAX, &mut []), Err(Refusal(1)));
        assert_eq!(check(&SQUARE, &mut []), Err(Refusal(2)));
        assert_eq!(patches(&SQUARE, &mut [0; 4], &mut [0; 47], &mut [0; 16]), Err(Refusal(2)));
        assert_eq!(patches(&SQUARE, &mut [0; 4], &mut [0; 48], &mut [0; 15]), Err(Refusal(2)));
        assert_eq!(sample(&[], 0, 1, 0, 0), Err(Refusal(12)));
        assert_eq!(reading(&[0; 48], usize::MAX, 1, 0, 0), Err(Refusal(12)));
        assert_eq!(marked_sample(&[], &[], usize::MAX, usize::MAX, usize::MAX, 0), Err(Refusal(12)));
        assert_eq!(sample(&[268_435_457; 48], 0, 1, 0, 0), Err(Refusal(13)));
        assert_eq!(reading(&[0; 48], 0, usize::MAX, 0, 0), Err(Refusal(14)));
        assert_eq!(sample_line(&[], usize::MAX, usize::MAX, usize::MAX, &mut []), Err(Refusal(12)));
        assert_eq!(sample_line(&[i32::MIN; 48], 0, usize::MAX, usize::MAX, &mut []), Err(Refusal(13)));
        assert_eq!(sample_line(&[0; 48], 0, usize::MAX, usize::MAX, &mut []), Err(Refusal(14)));
        assert_eq!(sample_line(&[0; 48], 0, 1, usize::MAX, &mut []), Err(Refusal(14)));
        assert_eq!(tangents(&SQUARE, usize::MAX, &mut []), Err(Refusal(12)));
        assert_eq!(mirror(&SQUARE, &mut [], &mut [], &mut []), Err(Refusal(16)));
        assert_eq!(sample_line(&[0; 48], 0, 1, 0, &mut []), Err(Refusal(17)));
        assert_eq!(tangents(&SQUARE, 0, &mut []), Err(Refusal(18)));
        assert!(face_corners(&[], 0).is_empty());
        assert!(face_corners(&[1; 7], usize::MAX).is_empty());
    }

    #[test]
    fn lent_lists_are_left_alone_beyond_their_ends_and_after_a_refusal() {
        let mut twins = [7; 6];
        let mut controls = [7; 50];
        let mut exact = [7; 18];
        let sizes = Mesh { vertices: 3, ..SQUARE };
        assert_eq!(patches(&sizes, &mut twins, &mut controls, &mut exact), Err(Refusal(1)));
        assert_eq!(patches(&SQUARE, &mut twins, &mut controls, &mut exact[..15]), Err(Refusal(2)));
        assert_eq!((twins, controls, exact), ([7; 6], [7; 50], [7; 18]));
        assert!(patches(&SQUARE, &mut twins, &mut controls, &mut exact).is_ok());
        assert_eq!(twins, [NO_TWIN, NO_TWIN, NO_TWIN, NO_TWIN, 7, 7]);
        assert_eq!(controls[PATCH_VALUES..], [7, 7]);
        assert_eq!(exact[..PATCH_MARKS], [1; 16]);
        assert_eq!(exact[PATCH_MARKS..], [7, 7]);
        // A vertex in no face: the twins are cleared, the patches and their marks are as they were.
        exact[3] = 9;
        let written = (controls, exact);
        let unused = Mesh { vertices: 5, positions: &[0; 15], tags: &[0; 5], ..SQUARE };
        twins = [7; 6];
        assert_eq!(patches(&unused, &mut twins, &mut controls, &mut exact), Err(Refusal(8)));
        assert_eq!(twins, [NO_TWIN, NO_TWIN, NO_TWIN, NO_TWIN, 7, 7]);
        assert_eq!((controls, exact), written);
    }

    /// The refusal of a line on a list of so many places, each 7 before and after.
    fn refused_line(patches: &[i32], face: usize, n: usize, b: usize, places: usize) -> Refusal {
        let mut line = vec![7; places];
        let refusal = sample_line(patches, face, n, b, &mut line).expect_err("a refusal");
        assert_eq!(line, vec![7; places]);
        refusal
    }

    #[test]
    fn a_refused_line_leaves_its_list_alone() {
        let flat = [0; 96];
        let mut off = flat;
        off[95] = -268_435_457;
        for places in [0, 8, 9, 99] {
            // Each cause alone where the list is long enough, then with all that come behind it.
            assert_eq!(refused_line(&flat, 2, 2, 1, places), Refusal(12));
            assert_eq!(refused_line(&off[..95], 1, 2, 1, places), Refusal(12));
            assert_eq!(refused_line(&[i32::MAX; 95], 1, 33, 34, places), Refusal(12));
            assert_eq!(refused_line(&off, 1, 2, 1, places), Refusal(13));
            assert_eq!(refused_line(&off, 1, 0, 1, places), Refusal(13));
            for (n, b) in [(0, 0), (33, 0), (2, 3), (32, 33), (2, usize::MAX), (usize::MAX, 2)] {
                assert_eq!(refused_line(&flat, 1, n, b, places), Refusal(14));
            }
        }
        for (n, places) in [(1, 0), (1, 5), (2, 6), (2, 8), (32, 96), (32, 98)] {
            assert_eq!(refused_line(&flat, 1, n, n, places), Refusal(17));
        }
    }

    #[test]
    fn a_line_has_the_samples_and_leaves_alone_what_is_behind() {
        let controls: Vec<i32> = (0..96).map(|place| 50_003 * place * place - 200_000_000).collect();
        for (n, b) in (1..=32).flat_map(|n| (0..=n).map(move |b| (n, b))) {
            let samples: Vec<_> = (0..=n).map(|a| sample(&controls, 1, n, a, b).expect("a sample")).collect();
            for places in [3 * (n + 1), 100] {
                let mut line = [7; 101];
                assert_eq!(sample_line(&controls, 1, n, b, &mut line[..places]), Ok(&samples[..]));
                assert_eq!(line[..3 * (n + 1)], samples.concat());
                assert!(line[3 * (n + 1)..].iter().all(|&place| place == 7));
            }
        }
    }

    /// Three faces around vertex 0, which is inner and tagged.
    const TAGGED: Mesh = Mesh {
        vertices: 7,
        faces: 3,
        positions: &[0; 21],
        tags: &[1, 0, 0, 0, 0, 0, 0],
        indices: &[0, 1, 2, 3, 0, 3, 4, 5, 0, 5, 6, 1],
    };

    /// A mesh for each refusal of the check that does not concern a lent list.
    const REFUSED: [(u8, Mesh); 10] = [
        (1, Mesh { vertices: 3, ..SQUARE }),
        (3, Mesh { positions: &[0, 0, 0, 0, 0, 0, 0, 0, 0, 0, 0, -1_048_577], ..SQUARE }),
        (4, Mesh { tags: &[0, 0, 0, 2], ..SQUARE }),
        (5, Mesh { indices: &[0, 1, 2, 4], ..SQUARE }),
        (6, Mesh { indices: &[0, 1, 2, 0], ..SQUARE }),
        (7, Mesh { faces: 2, indices: &[0, 1, 2, 3, 0, 1, 2, 3], ..SQUARE }),
        (8, Mesh { vertices: 5, positions: &[0; 15], tags: &[0; 5], ..SQUARE }),
        (9, Mesh { faces: 2, tags: &[0; 7], indices: &[0, 1, 2, 3, 0, 4, 5, 6], ..TAGGED }),
        (10, Mesh { faces: 2, indices: &[0, 1, 2, 3, 3, 2, 1, 0], ..SQUARE }),
        (11, TAGGED),
    ];

    /// The refusal of the mirror on lists of these lengths, each place 7 before and after.
    fn refused_mirror(mesh: &Mesh, [positions, tags, indices]: [usize; 3]) -> Refusal {
        let mut lists = (vec![7; positions], vec![7; tags], vec![7; indices]);
        let before = lists.clone();
        let answer = mirror(mesh, &mut lists.0, &mut lists.1, &mut lists.2);
        assert_eq!(lists, before);
        answer.expect_err("a refusal")
    }

    #[test]
    fn a_refused_mirror_leaves_its_lists_alone() {
        for (number, mesh) in REFUSED {
            let right = [mesh.positions.len(), mesh.tags.len(), mesh.indices.len()];
            assert_eq!(refused_mirror(&mesh, right), Refusal(number));
            assert_eq!(refused_mirror(&mesh, right.map(|length| length + 1)), Refusal(number));
        }
        for lengths in [[11, 4, 4], [13, 4, 4], [12, 3, 4], [12, 5, 4], [12, 4, 3], [12, 4, 5], [0, 0, 0], [4, 12, 4]] {
            assert_eq!(refused_mirror(&SQUARE, lengths), Refusal(16));
        }
    }

    #[test]
    fn a_mirror_writes_each_list_whole() {
        let tagged = Mesh { positions: &[-9, 8, 7, 6, -5, 4, 3, 2, 1, 0, 1, 2], tags: &[0, 1, 0, 1], ..SQUARE };
        let (mut positions, mut tags, mut indices) = ([7; 12], [7; 4], [7; 4]);
        assert_eq!(mirror(&tagged, &mut positions, &mut tags, &mut indices), Ok(()));
        assert_eq!(positions, [9, 8, 7, -6, -5, 4, -3, 2, 1, 0, 1, 2]);
        assert_eq!((tags, indices), ([0, 1, 0, 1], [0, 3, 2, 1]));
    }

    /// A cube of any places, closed: each vertex has three faces.
    const CUBE: Mesh = Mesh {
        vertices: 8,
        faces: 6,
        positions: &[9, 8, 7, 6, 5, 4, 3, 2, 1, 0, -1, -2, -3, -4, -5, -6, -7, -8, -9, 0, 9, 8, -8, 7],
        tags: &[0; 8],
        indices: &[7, 6, 4, 5, 0, 2, 3, 1, 0, 1, 5, 4, 2, 6, 7, 3, 0, 4, 6, 2, 1, 3, 7, 5],
    };

    /// The refusal of the tangents on a list of so many places, each 7 before and after.
    fn refused_tangents(mesh: &Mesh, face: usize, places: usize) -> Refusal {
        let mut list = vec![7; places];
        let refusal = tangents(mesh, face, &mut list).expect_err("a refusal");
        assert_eq!(list, vec![7; places]);
        refusal
    }

    #[test]
    fn refused_tangents_leave_their_list_alone() {
        for places in [0, 71, 72, 73] {
            // Each cause alone where the list is right, then with all that come behind it.
            for (number, mesh) in REFUSED {
                for face in [0, mesh.faces, usize::MAX] {
                    assert_eq!(refused_tangents(&mesh, face, places), Refusal(number));
                }
            }
            for (mesh, face) in
                [(SQUARE, 1), (SQUARE, usize::MAX), (CUBE, 6), (CUBE, 6 + (1 << 32)), (CUBE, usize::MAX)]
            {
                assert_eq!(refused_tangents(&mesh, face, places), Refusal(12));
            }
            assert_eq!(refused_tangents(&SQUARE, 0, places), Refusal(18));
        }
        for places in [0, 1, 71, 73, 144, 72 + 256, 72 + 65536] {
            assert_eq!(refused_tangents(&CUBE, 5, places), Refusal(18));
        }
    }

    #[test]
    fn tangents_are_read_by_their_numbers() {
        let mut list = [7; TANGENT_VALUES];
        let found = tangents(&CUBE, 0, &mut list).expect("the cube has no boundary").vectors().to_vec();
        assert_eq!(found.concat(), list);
        let vectors: Vec<[i64; 3]> = (0..24).map(|m| [3 * m, 3 * m + 1, 3 * m + 2]).collect();
        let numbered = Tangents::of(&vectors);
        for (i, j) in (0..4).flat_map(|j| (0..3).map(move |i| (i, j))) {
            assert_eq!(numbered.u(i, j), vectors[i + 3 * j]);
        }
        for (i, j) in (0..3).flat_map(|j| (0..4).map(move |i| (i, j))) {
            assert_eq!(numbered.v(i, j), vectors[12 + i + 4 * j]);
        }
        for (i, j) in [(3, 0), (0, 4), (usize::MAX, 3)] {
            assert!(std::panic::catch_unwind(|| numbered.u(i, j)).is_err());
        }
        for (i, j) in [(4, 0), (0, 3), (3, usize::MAX)] {
            assert!(std::panic::catch_unwind(|| numbered.v(i, j)).is_err());
        }
    }

    #[test]
    fn numbers_without_a_cosine_or_a_weight_give_0() {
        assert_eq!([0, 1, 2, 33, 64, usize::MAX].map(cosine), [0; 6]);
        assert!([3, 5, 32].iter().all(|&m| cosine(m) != 0));
        for (n, i) in [(0, 0), (2, 0), (2, 1), (3, 3), (16, 16), (17, 0), (4, usize::MAX), (usize::MAX, 0)] {
            assert_eq!((edge_weight(n, i), face_weight(n, i)), (0, 0));
        }
        for (n, i) in [(3, 0), (3, 2), (16, 0), (16, 15)] {
            assert!(edge_weight(n, i) != 0 && face_weight(n, i) != 0);
        }
    }

    #[test]
    fn a_refusal_says_its_number_and_its_cause() {
        assert_eq!(Refusal(7).to_string(), "refused 7: a half-edge occurs twice the same way round");
        assert_eq!(Refusal(15).meaning(), Refusal(0).meaning());
        let causes: Vec<_> = (1..=14).chain([16, 17, 18]).map(|number| Refusal(number).meaning()).collect();
        for (place, cause) in causes.iter().enumerate() {
            assert!(!causes[..place].contains(cause) && *cause != Refusal(0).meaning());
        }
    }
}
