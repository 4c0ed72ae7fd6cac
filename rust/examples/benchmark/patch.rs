//! The patches of a mesh and their marks, in Rust: sums by vertex in scatter passes, then sixteen points a face.

use crate::access::Access;
use crate::check::check;
use crate::limits::*;
use rusketja::{Counts, Mesh, Refusal, NO_TWIN, PATCH_MARKS, PATCH_VALUES};

/// A fraction in units, rounded once.
#[inline(always)]
pub fn in_units(num: i64, den: u32) -> Rounded {
    round(256 * num, den)
}

/// A control value in units, and whether nothing was left when it was rounded.
#[derive(Clone, Copy)]
struct Value {
    units: i32,
    exact: bool,
}

impl From<Rounded> for Value {
    #[inline(always)]
    fn from(rounded: Rounded) -> Value {
        Value { units: rounded.value as i32, exact: rounded.exact }
    }
}

/// A checked mesh with its twins, and the tables by vertex.
struct Tables<'a> {
    positions: &'a [i32],
    indices: &'a [u16],
    twins: &'a [u16],
    /// n at an inner vertex; at a boundary vertex 2k, but 4 for k = 1.
    weights: [u16; MAX_VERTICES],
    /// The corner point of each vertex, and its mark.
    points: [i32; 3 * MAX_VERTICES],
    marks: [bool; MAX_VERTICES],
}

/// The four points of its face that each corner owns.
#[derive(Clone, Copy)]
enum Kind {
    Corner,
    Along,
    Before,
    Inner,
}

/// The corner of the face that owns each of the sixteen points, and which of its points each is.
const POINTS: [(usize, Kind); 16] = [
    (0, Kind::Corner),
    (0, Kind::Along),
    (1, Kind::Before),
    (1, Kind::Corner),
    (0, Kind::Before),
    (0, Kind::Inner),
    (1, Kind::Inner),
    (1, Kind::Along),
    (3, Kind::Along),
    (3, Kind::Inner),
    (2, Kind::Inner),
    (2, Kind::Before),
    (3, Kind::Corner),
    (3, Kind::Before),
    (2, Kind::Along),
    (2, Kind::Corner),
];

impl Tables<'_> {
    #[inline(always)]
    fn vertex<A: Access>(&self, c: usize) -> usize {
        A::get(self.indices, c).into()
    }

    /// Coordinate k of the vertex of corner c.
    #[inline(always)]
    fn value<A: Access>(&self, k: usize, c: usize) -> i64 {
        A::get(self.positions, 3 * self.vertex::<A>(c) + k).into()
    }

    #[inline(always)]
    fn on_boundary<A: Access>(&self, c: usize) -> bool {
        A::get(self.twins, c) == NO_TWIN
    }

    #[inline(always)]
    fn weight<A: Access>(&self, c: usize) -> u32 {
        A::get(&self.weights, self.vertex::<A>(c)).into()
    }

    /// Twice the two neighbours of corner c and the vertex across.
    #[inline(always)]
    fn ring_term<A: Access>(&self, k: usize, c: usize) -> i64 {
        let value = |i| self.value::<A>(k, turned(i, c));
        2 * value(1) + 2 * value(3) + value(2)
    }

    /// The boundary neighbours of corner c in its face.
    #[inline(always)]
    fn sharp_term<A: Access>(&self, k: usize, c: usize) -> i64 {
        let before = turned(3, c);
        let leaving = if self.on_boundary::<A>(c) { self.value::<A>(k, turned(1, c)) } else { 0 };
        let entering = if self.on_boundary::<A>(before) { self.value::<A>(k, before) } else { 0 };
        leaving + entering
    }

    /// Adds each corner's term to the sum of its vertex.
    #[inline(always)]
    fn scatter<A: Access>(&self, term: impl Fn(usize) -> i64) -> [i64; MAX_VERTICES] {
        let mut sums = [0; MAX_VERTICES];
        for (c, &p) in self.indices.iter().enumerate() {
            *A::at(&mut sums, p.into()) += term(c);
        }
        sums
    }

    fn fill<A: Access>(&mut self, tags: &[u8]) {
        let leaving = self.scatter::<A>(|c| self.on_boundary::<A>(c).into());
        let valences = self.scatter::<A>(|_| 1);
        for p in 0..tags.len() {
            let valence = A::get(&valences, p) as u16;
            *A::at(&mut self.weights, p) = match (A::get(&leaving, p), valence) {
                (0, n) => n,
                (_, 1) => 4,
                (_, k) => 2 * k,
            };
        }
        for k in 0..3 {
            let ring = self.scatter::<A>(|c| self.ring_term::<A>(k, c));
            let sharp = self.scatter::<A>(|c| self.sharp_term::<A>(k, c));
            for p in 0..tags.len() {
                let x = i64::from(A::get(self.positions, 3 * p + k));
                let valence = A::get(&valences, p) as u32;
                let value = Value::from(if A::get(&leaving, p) == 0 {
                    in_units(i64::from(valence * valence) * x + A::get(&ring, p), valence * (valence + 5))
                } else if A::get(tags, p) == CORNER_TAG || valence == 1 {
                    in_units(x, 1)
                } else {
                    in_units(4 * x + A::get(&sharp, p), 6)
                });
                *A::at(&mut self.points, 3 * p + k) = value.units;
                *A::at(&mut self.marks, p) &= value.exact;
            }
        }
    }

    /// The edge point on the inner edge of half-edge c, with twin d, near its start.
    #[inline(always)]
    fn edge_point<A: Access>(&self, k: usize, c: usize, d: usize) -> Rounded {
        let weight = 2 * self.weight::<A>(c);
        let value = |i, c| self.value::<A>(k, turned(i, c));
        let near = i64::from(weight) * value(0, c) + 4 * value(1, c);
        in_units(near + 2 * value(3, c) + 2 * value(2, d) + value(2, c) + value(3, d), weight + 10)
    }

    /// Coordinate k of a point of corner c.
    #[inline(always)]
    fn number<A: Access>(&self, k: usize, c: usize, kind: Kind) -> Value {
        let value = |i| self.value::<A>(k, turned(i, c));
        let rounded = match kind {
            Kind::Corner => {
                let p = self.vertex::<A>(c);
                return Value { units: A::get(&self.points, 3 * p + k), exact: A::get(&self.marks, p) };
            }
            Kind::Along => match A::get(self.twins, c) {
                NO_TWIN => in_units(2 * value(0) + value(1), 3),
                d => self.edge_point::<A>(k, c, d.into()),
            },
            Kind::Before => match A::get(self.twins, turned(3, c)) {
                NO_TWIN => in_units(2 * value(0) + value(3), 3),
                d => self.edge_point::<A>(k, d.into(), turned(3, c)),
            },
            Kind::Inner => {
                let weight = self.weight::<A>(c);
                in_units(i64::from(weight) * value(0) + 2 * value(1) + 2 * value(3) + value(2), weight + 5)
            }
        };
        rounded.into()
    }

    fn write_patch<A: Access>(&self, face: usize, patch: &mut [i32], marks: &mut [u8]) {
        for (m, (owner, kind)) in POINTS.into_iter().enumerate() {
            let mut exact = true;
            for k in 0..3 {
                let value = self.number::<A>(k, 4 * face + owner, kind);
                *A::at(patch, 3 * m + k) = value.units;
                exact &= value.exact;
            }
            *A::at(marks, m) = exact.into();
        }
    }
}

/// Writes the patches of a mesh and their marks, as [`rusketja::patches`] does.
#[inline(never)]
pub fn patches<A: Access>(
    mesh: &Mesh,
    twins: &mut [u16],
    patches: &mut [i32],
    exact: &mut [u8],
) -> Result<Counts, Refusal> {
    if patches.len() / PATCH_VALUES < mesh.faces || exact.len() / PATCH_MARKS < mesh.faces {
        return check::<A>(mesh, &mut []);
    }
    let counts = check::<A>(mesh, twins)?;
    let mut tables = Tables {
        positions: mesh.positions,
        indices: mesh.indices,
        twins,
        weights: [0; MAX_VERTICES],
        points: [0; 3 * MAX_VERTICES],
        marks: [true; MAX_VERTICES],
    };
    tables.fill::<A>(mesh.tags);
    for face in 0..mesh.faces {
        let patch = A::part_mut(patches, PATCH_VALUES * face, PATCH_VALUES);
        tables.write_patch::<A>(face, patch, A::part_mut(exact, PATCH_MARKS * face, PATCH_MARKS));
    }
    Ok(counts)
}
