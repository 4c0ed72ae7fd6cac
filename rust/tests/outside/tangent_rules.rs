//! The tangent vectors of a face in whole numbers, slow and plain: section 3 of [LS] with its indices and the user's request for tangents.
//! Written from these alone and in the user's words, as document.rs is: the rim is the boundary.

use crate::document::{self, nearest, Fraction, Ring, Surface};
use crate::model::Model;
use crate::weights::{c, weights, ONE};
use std::array::from_fn;

pub type Vector = [i128; 3];

/// The cosine and the weights for each n from 3 to 16.
pub struct Masks {
    cosines: Vec<i128>,
    weights: Vec<Vec<[i128; 2]>>,
}

impl Masks {
    pub fn new() -> Masks {
        Masks { cosines: (3..=16).map(c).collect(), weights: (3..=16).map(weights).collect() }
    }

    pub fn cosine(&self, n: usize) -> i128 {
        self.cosines[n - 3]
    }
}

/// The vectors of one face: u[i][j] is u(i,j), v[i][j] is v(i,j).
#[derive(Clone, Debug, PartialEq)]
pub struct Vectors {
    pub u: [[Vector; 4]; 3],
    pub v: [[Vector; 3]; 4],
}

impl Vectors {
    /// Those of a list: u(i,j) is number i + 3j, v(i,j) number 12 + i + 4j, each of three places.
    pub fn read(list: &[i64]) -> Vectors {
        let vector = |number: usize| from_fn(|x| list[3 * number + x] as i128);
        let u = from_fn(|i| from_fn(|j| vector(i + 3 * j)));
        let v = from_fn(|i| from_fn(|j| vector(12 + i + 4 * j)));
        Vectors { u, v }
    }

    /// The list of them: u(0,0), u(1,0), u(2,0), u(0,1) and so on.
    pub fn list(&self) -> Vec<i64> {
        let along_u = (0..4).flat_map(|j| (0..3).map(move |i| self.u[i][j]));
        let along_v = (0..3).flat_map(|j| (0..4).map(move |i| self.v[i][j]));
        along_u.chain(along_v).flatten().map(|x| i64::try_from(x).expect("64 bits")).collect()
    }
}

pub fn minus(vector: Vector) -> Vector {
    vector.map(|x| -x)
}

/// The fraction rounded, 256 times.
fn in_units(point: &Fraction) -> Vector {
    point.over.map(|over| nearest(256 * over, point.divisor))
}

/// Condition (4) solved: a third of 2 c0 u10 - c1 u00, and x.
fn corrected_first([c0, c1]: [i128; 2], [u00, u10]: [Vector; 2], x: Vector) -> Fraction {
    Fraction { over: from_fn(|k| 2 * c0 * u10[k] - c1 * u00[k] + 3 * ONE * x[k]), divisor: 3 * ONE }
}

/// Condition (5) solved: a third of c0 u20 - 2 c1 u10, and x.
fn corrected_second([c0, c1]: [i128; 2], [u10, u20]: [Vector; 2], x: Vector) -> Fraction {
    Fraction { over: from_fn(|k| c0 * u20[k] - 2 * c1 * u10[k] + 3 * ONE * x[k]), divisor: 3 * ONE }
}

/// A mesh with the causes that it meets; if there is none, its surface, and whether that is closed.
pub struct Rules<'a> {
    pub mesh: &'a Model,
    pub closed: bool,
    surface: Option<Surface<'a>>,
    masks: &'a Masks,
    causes: Vec<u8>,
}

impl<'a> Rules<'a> {
    pub fn new(mesh: &'a Model, masks: &'a Masks) -> Rules<'a> {
        let causes = document::causes(mesh, &[]);
        let surface = causes.is_empty().then(|| Surface::new(mesh));
        let closed = surface.as_ref().is_some_and(|surface| surface.counts()[3] == 0);
        Rules { mesh, closed, surface, masks, causes }
    }

    pub fn surface(&self) -> &Surface<'a> {
        self.surface.as_ref().expect("an accepted mesh")
    }

    /// The four vertices of a face.
    fn vertices(&self, face: usize) -> [usize; 4] {
        from_fn(|s| self.mesh.indices[4 * face + s] as usize)
    }

    /// n at each corner of a face of an accepted mesh, nothing at a corner on the rim.
    pub fn valences(&self, face: usize) -> [Option<usize>; 4] {
        self.vertices(face).map(|p| match self.surface().ring(p) {
            Ring::Turn(n) => Some(n),
            _ => None,
        })
    }

    /// The vector at p along its edge to q, not yet rounded: edge 0 is that to q, and each face on the way around leads to the next.
    fn corner_vector(&self, p: usize, q: usize) -> Fraction {
        let (surface, mut terms, mut edge) = (self.surface(), Vec::new(), q);
        let Ring::Turn(n) = surface.ring(p) else { panic!("vertex {p} is not inner") };
        for &[a, b] in &self.masks.weights[n - 3] {
            let face = surface.side(p, edge).expect("a face beyond each edge") / 4;
            let ([this, next], across) = surface.seen_from(face, p);
            assert_eq!(this, edge);
            terms.extend([(a, edge), (b, across)]);
            edge = next;
        }
        assert_eq!(edge, q, "n faces are one whole turn");
        surface.mix(&terms, ONE)
    }

    /// The corner vectors along and against each side, not rounded: q0 q1, q3 q2, q0 q3 and q1 q2.
    fn corner_vectors(&self, face: usize) -> [Fraction; 8] {
        let [q0, q1, q2, q3] = self.vertices(face);
        [(q0, q1), (q1, q0), (q3, q2), (q2, q3), (q0, q3), (q3, q0), (q1, q2), (q2, q1)]
            .map(|(p, q)| self.corner_vector(p, q))
    }

    /// The vectors of a face with four inner corners, and the fractions that were rounded to whole numbers for them.
    pub fn vectors(&self, face: usize) -> (Vectors, Vec<Fraction>) {
        let points = self.surface().patch(face);
        let b = |i: usize, j: usize| in_units(&points[i + 4 * j]);
        let thrice = |to: Vector, from: Vector| from_fn(|x| 3 * (to[x] - from[x]));
        // Equation (1).
        let mut u: [[Vector; 4]; 3] = from_fn(|i| from_fn(|j| thrice(b(i + 1, j), b(i, j))));
        let mut v: [[Vector; 3]; 4] = from_fn(|i| from_fn(|j| thrice(b(i, j + 1), b(i, j))));
        // Section 3.1: the corners.
        let exact = self.corner_vectors(face);
        let ends = exact.each_ref().map(in_units);
        [u[0][0], u[2][0], u[0][3], u[2][3]] = [ends[0], minus(ends[1]), ends[2], minus(ends[3])];
        [v[0][0], v[0][2], v[3][0], v[3][2]] = [ends[4], minus(ends[5]), ends[6], minus(ends[7])];
        // Section 3.2: the edges, each seen from itself inwards.
        let [c0, c1, c2, c3] = self.valences(face).map(|n| self.masks.cosine(n.expect("an inner corner")));
        let edges = [
            corrected_first([c0, c1], [u[0][0], u[1][0]], thrice(b(1, 1), b(1, 0))),
            corrected_second([c0, c1], [u[1][0], u[2][0]], thrice(b(2, 1), b(2, 0))),
            corrected_first([c3, c2], [u[0][3], u[1][3]], thrice(b(1, 2), b(1, 3))),
            corrected_second([c3, c2], [u[1][3], u[2][3]], thrice(b(2, 2), b(2, 3))),
            corrected_first([c0, c3], [v[0][0], v[0][1]], thrice(b(1, 1), b(0, 1))),
            corrected_second([c0, c3], [v[0][1], v[0][2]], thrice(b(1, 2), b(0, 2))),
            corrected_first([c1, c2], [v[3][0], v[3][1]], thrice(b(2, 1), b(3, 1))),
            corrected_second([c1, c2], [v[3][1], v[3][2]], thrice(b(2, 2), b(3, 2))),
        ];
        let whole = edges.each_ref().map(|edge| edge.over.map(|over| nearest(over, edge.divisor)));
        [v[1][0], v[2][0], v[1][2], v[2][2]] = [whole[0], whole[1], minus(whole[2]), minus(whole[3])];
        [u[0][1], u[0][2], u[2][1], u[2][2]] = [whole[4], whole[5], minus(whole[6]), minus(whole[7])];
        let scaled = exact.map(|end| Fraction { over: end.over.map(|over| 256 * over), ..end });
        (Vectors { u, v }, scaled.into_iter().chain(edges).collect())
    }

    /// The causes that the call meets: those of the mesh, then 12, then 18. A corner on the rim can be told on an accepted mesh alone.
    pub fn causes(&self, face: usize, places: usize) -> Vec<u8> {
        let mut met = self.causes.clone();
        let missing = face >= self.mesh.faces;
        if missing {
            met.push(12);
        }
        let rim = met.is_empty() && self.valences(face).contains(&None);
        if rim || places != 72 {
            met.push(18);
        }
        met
    }
}
