//! The tangent vectors of a face, in Rust: for each side six vectors, from two corner vectors, two edge points and two inner points.

use crate::access::Access;
use crate::check::check;
use crate::limits::*;
use crate::patch::in_units;
use rusketja::{Mesh, Refusal, NO_TWIN, TANGENT_VALUES};

/// 1 as a cosine, and as a weight.
const ONE: i64 = 1 << 20;

const MAX_VALENCE: usize = *VALENCE.end() as usize;

/// The cosines and the weights by valence.
pub struct Weights {
    cosines: [i32; MAX_VALENCE + 1],
    edges: [[i32; MAX_VALENCE]; MAX_VALENCE + 1],
    faces: [[i32; MAX_VALENCE]; MAX_VALENCE + 1],
}

impl Weights {
    /// Those of the library.
    pub fn new() -> Weights {
        let rows = |weight: fn(usize, usize) -> i32| std::array::from_fn(|n| std::array::from_fn(|i| weight(n, i)));
        Weights {
            cosines: std::array::from_fn(rusketja::cosine),
            edges: rows(rusketja::edge_weight),
            faces: rows(rusketja::face_weight),
        }
    }
}

/// A checked mesh with its twins.
struct Around<'a> {
    positions: &'a [i32],
    indices: &'a [u16],
    twins: &'a [u16],
    weights: &'a Weights,
}

/// A corner of the face: its number, its valence and its cosine.
#[derive(Clone, Copy, Default)]
struct Corner {
    c: usize,
    valence: usize,
    cosine: i64,
}

/// The numbers of the six vectors of each side, start, middle, end, inner, from its start and from its end into the face. On the last two sides
/// the first four run against u or v; the others point against it on the second and the third side.
const NUMBERS: [[usize; 6]; 4] =
    [[0, 1, 2, 4, 13, 14], [15, 19, 23, 18, 5, 8], [11, 10, 9, 7, 22, 21], [20, 16, 12, 17, 6, 3]];
const ALONG_SIGNS: [i64; 4] = [1, 1, -1, -1];
const INTO_SIGNS: [i64; 4] = [1, -1, -1, 1];

impl Around<'_> {
    /// Coordinate k of the vertex of the corner i further than c.
    #[inline(always)]
    fn value<A: Access>(&self, k: usize, i: usize, c: usize) -> i64 {
        A::get(self.positions, 3 * usize::from(A::get(self.indices, turned(i, c))) + k).into()
    }

    #[inline(always)]
    fn twin<A: Access>(&self, c: usize) -> usize {
        A::get(self.twins, c).into()
    }

    /// The valence of the vertex of corner c, nothing on the boundary.
    fn valence<A: Access>(&self, c: usize) -> Option<usize> {
        let (mut e, mut valence) = (c, 0);
        loop {
            if A::get(self.twins, turned(3, e)) == NO_TWIN {
                return None;
            }
            e = self.twin::<A>(turned(3, e));
            valence += 1;
            if e == c {
                return Some(valence);
            }
        }
    }

    /// The corner vector along half-edge c.
    #[inline(always)]
    fn corner_vector<A: Access>(&self, k: usize, c: usize, valence: usize) -> i64 {
        let (edges, faces) = (&self.weights.edges[valence], &self.weights.faces[valence]);
        let (mut sum, mut e) = (0, c);
        for i in 0..valence {
            sum += i64::from(A::get(edges, i)) * self.value::<A>(k, 1, e);
            sum += i64::from(A::get(faces, i)) * self.value::<A>(k, 2, e);
            e = self.twin::<A>(turned(3, e));
        }
        round(256 * sum, ONE as u32).value
    }

    /// The edge point of half-edge c near its start.
    #[inline(always)]
    fn edge_point<A: Access>(&self, k: usize, c: usize, valence: usize) -> i64 {
        let (value, d) = (|i, c| self.value::<A>(k, i, c), self.twin::<A>(c));
        let near = 2 * valence as i64 * value(0, c) + 4 * value(1, c);
        in_units(near + 2 * value(3, c) + 2 * value(2, d) + value(2, c) + value(3, d), 2 * valence as u32 + 10).value
    }

    /// The inner point of corner c.
    #[inline(always)]
    fn inner_point<A: Access>(&self, k: usize, c: usize, valence: usize) -> i64 {
        let value = |i| self.value::<A>(k, i, c);
        in_units(valence as i64 * value(0) + 2 * value(1) + 2 * value(3) + value(2), valence as u32 + 5).value
    }

    /// Coordinate k of the six vectors of the side from one corner to the next.
    #[inline(always)]
    fn side<A: Access>(&self, k: usize, from: Corner, to: Corner) -> [i64; 6] {
        let d = self.twin::<A>(from.c);
        let (start, end) =
            (self.corner_vector::<A>(k, from.c, from.valence), -self.corner_vector::<A>(k, d, to.valence));
        let (b1, b2) = (self.edge_point::<A>(k, from.c, from.valence), self.edge_point::<A>(k, d, to.valence));
        let (b5, b6) = (self.inner_point::<A>(k, from.c, from.valence), self.inner_point::<A>(k, to.c, to.valence));
        let middle = 3 * (b2 - b1);
        let corrected = |term: i64, x: i64| round(term + 9 * ONE * x, 3 * ONE as u32).value;
        let from_start = corrected(2 * from.cosine * middle - to.cosine * start, b5 - b1);
        let from_end = corrected(from.cosine * end - 2 * to.cosine * middle, b6 - b2);
        [start, middle, end, 3 * (b6 - b5), from_start, from_end]
    }
}

/// Writes the tangents of a face, as [`rusketja::tangents`] does.
#[inline(never)]
pub fn tangents<A: Access>(mesh: &Mesh, weights: &Weights, face: usize, tangents: &mut [i64]) -> Result<(), Refusal> {
    let mut twins = [0; 4 * MAX_FACES];
    check::<A>(mesh, &mut twins)?;
    if mesh.faces <= face {
        return Err(Refusal(12));
    }
    let around = Around { positions: mesh.positions, indices: mesh.indices, twins: &twins, weights };
    let mut corners = [Corner::default(); 4];
    for (s, corner) in corners.iter_mut().enumerate() {
        let c = 4 * face + s;
        let valence = around.valence::<A>(c).ok_or(Refusal(18))?;
        *corner = Corner { c, valence, cosine: A::get(&weights.cosines, valence).into() };
    }
    if tangents.len() != TANGENT_VALUES {
        return Err(Refusal(18));
    }
    for s in 0..4 {
        for k in 0..3 {
            let side = around.side::<A>(k, corners[s], corners[(s + 1) % 4]);
            for (which, number) in side.into_iter().enumerate() {
                let sign = if which < 4 { ALONG_SIGNS[s] } else { INTO_SIGNS[s] };
                *A::at(tangents, 3 * NUMBERS[s][which] + k) = sign * number;
            }
        }
    }
    Ok(())
}
