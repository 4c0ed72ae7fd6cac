//! The rules of docs/SPECIFICATION.md, one by one, in exact fractions: slow and plain. Written from the user's documents alone, not
//! from that page, and so in the user's words: a side is a half-edge, a mate a twin, the rim the boundary, a patch number a control value.

use crate::compare::Lent;
use crate::model::Model;
use std::collections::BTreeSet;

/// The mate of a rim side in the list of mates.
pub const RIM: u16 = 65535;

/// The four counts of rule T8: V, F, E and B.
pub type Four = [usize; 4];

/// The corners at a vertex: one closed turn of n, one chain of k, or neither.
#[derive(Clone, Copy, PartialEq)]
pub enum Ring {
    Turn(usize),
    Chain(usize),
    Neither,
}

/// A point as one fraction: three numbers over one positive divisor.
#[derive(Clone, Copy)]
pub struct Fraction {
    pub over: [i128; 3],
    pub divisor: i128,
}

impl Fraction {
    /// Its three numbers, each rounded.
    pub fn nearest(&self) -> [i32; 3] {
        self.over.map(|over| nearest(over, self.divisor) as i32)
    }

    /// Whether its three numbers, each times a factor, are whole.
    pub fn whole(&self, factor: i128) -> bool {
        self.over.iter().all(|over| factor * over % self.divisor == 0)
    }
}

/// A mesh that passed 1 and 5, with the corners at each vertex and what they form.
pub struct Surface<'a> {
    mesh: &'a Model,
    corners: Vec<Vec<usize>>,
    rings: Vec<Ring>,
}

impl<'a> Surface<'a> {
    pub fn new(mesh: &'a Model) -> Surface<'a> {
        let mut corners = vec![Vec::new(); mesh.vertices];
        for c in 0..4 * mesh.faces {
            corners[mesh.indices[c] as usize].push(c);
        }
        let mut surface = Surface { mesh, corners, rings: Vec::new() };
        surface.rings = (0..mesh.vertices).map(|p| surface.ring_at(p)).collect();
        surface
    }

    pub fn start(&self, side: usize) -> usize {
        self.mesh.indices[side] as usize
    }

    /// The vertex where a side ends: the next corner of its face, after the last the first.
    pub fn end(&self, side: usize) -> usize {
        self.start(later(side, 1))
    }

    /// The side that runs from p to q.
    pub fn side(&self, p: usize, q: usize) -> Option<usize> {
        self.corners[p].iter().copied().find(|&side| self.end(side) == q)
    }

    /// The side that runs back along this one, if there is one.
    pub fn mate(&self, side: usize) -> Option<usize> {
        self.side(self.end(side), self.start(side))
    }

    /// The corner of the neighbouring face at the same vertex, across the side that ends there.
    fn next(&self, corner: usize) -> Option<usize> {
        self.mate(later(corner, 3))
    }

    /// Whether the corners at p form one closed turn, one chain, or neither.
    fn ring_at(&self, p: usize) -> Ring {
        let corners = &self.corners[p];
        let reached: Vec<usize> = corners.iter().filter_map(|&c| self.next(c)).collect();
        let heads: Vec<usize> = corners.iter().copied().filter(|c| !reached.contains(c)).collect();
        let first = if heads.is_empty() { corners.first() } else { heads.first() };
        let mut seen = Vec::new();
        let mut at = first.copied();
        while let Some(corner) = at.filter(|corner| !seen.contains(corner)) {
            seen.push(corner);
            at = self.next(corner);
        }
        match heads.len() {
            0 if seen.len() == corners.len() => Ring::Turn(corners.len()),
            1 if seen.len() == corners.len() => Ring::Chain(corners.len()),
            _ => Ring::Neither,
        }
    }

    pub fn ring(&self, p: usize) -> Ring {
        self.rings[p]
    }

    /// V, F, E, B: an edge counts once, whether one side runs along it or two, and B are the sides without a mate.
    pub fn counts(&self) -> Four {
        let sides = 0..4 * self.mesh.faces;
        let pair = |s: usize| (self.start(s).min(self.end(s)), self.start(s).max(self.end(s)));
        let pairs: BTreeSet<(usize, usize)> = sides.clone().map(pair).collect();
        let rim = sides.filter(|&s| self.mate(s).is_none()).count();
        [self.mesh.vertices, self.mesh.faces, pairs.len(), rim]
    }

    /// The weight w of rule B4: the number of faces, doubled on the rim; a lone face there counts as two.
    fn w(&self, p: usize) -> i128 {
        match self.ring(p) {
            Ring::Turn(n) => n as i128,
            Ring::Chain(1) => 4,
            Ring::Chain(k) => 2 * k as i128,
            Ring::Neither => panic!("no w at a vertex that is neither inner nor on the rim"),
        }
    }

    /// In the face, the two neighbours of its corner p and the vertex across from p.
    pub fn seen_from(&self, face: usize, p: usize) -> ([usize; 2], usize) {
        let corner = (4 * face..4 * face + 4).find(|&c| self.start(c) == p).expect("a corner of the face");
        ([self.start(later(corner, 1)), self.start(later(corner, 3))], self.start(later(corner, 2)))
    }

    /// The sum of the weighted positions over the divisor.
    pub fn mix(&self, terms: &[(i128, usize)], divisor: i128) -> Fraction {
        let at = |p: usize, x: usize| self.mesh.positions[3 * p + x] as i128;
        let over = [0, 1, 2].map(|x| terms.iter().map(|&(weight, p)| weight * at(p, x)).sum());
        Fraction { over, divisor }
    }

    /// (w p + 2e + 2e' + f) / (w + 5).
    fn interior_point(&self, face: usize, p: usize) -> Fraction {
        let ([e, e2], f) = self.seen_from(face, p);
        let w = self.w(p);
        self.mix(&[(w, p), (2, e), (2, e2), (1, f)], w + 5)
    }

    /// The point beside p towards q, by the mask of rule B7, or on the rim of B8.
    fn edge_point(&self, p: usize, q: usize) -> Fraction {
        let (Some(there), Some(back)) = (self.side(p, q), self.side(q, p)) else {
            return self.mix(&[(2, p), (1, q)], 3);
        };
        let w = self.w(p);
        let mut terms = vec![(2 * w, p), (4, q)];
        for side in [there, back] {
            let (neighbours, c) = self.seen_from(side / 4, p);
            let a = neighbours.into_iter().find(|&e| e != q).expect("the other neighbour");
            terms.extend([(2, a), (1, c)]);
        }
        self.mix(&terms, 2 * w + 10)
    }

    /// The inner rule, the rim rule, or p itself with tag 1 or with k = 1.
    fn corner_point(&self, p: usize) -> Fraction {
        let neighbours: BTreeSet<usize> = self.corners[p].iter().flat_map(|&c| self.seen_from(c / 4, p).0).collect();
        if let Ring::Turn(n) = self.ring(p) {
            let n = n as i128;
            let mut terms = vec![(n * n, p)];
            terms.extend(neighbours.iter().map(|&q| (4, q)));
            terms.extend(self.corners[p].iter().map(|&c| (1, self.seen_from(c / 4, p).1)));
            return self.mix(&terms, n * (n + 5));
        }
        if self.ring(p) == Ring::Chain(1) || self.mesh.tags[p] == 1 {
            return self.mix(&[(1, p)], 1);
        }
        let one_way = |q: usize| self.side(p, q).is_some() != self.side(q, p).is_some();
        let mut terms = vec![(4, p)];
        terms.extend(neighbours.iter().filter(|&&q| one_way(q)).map(|&q| (1, q)));
        self.mix(&terms, 6)
    }

    /// The sixteen control points of a face, b(i,j) at i + 4j.
    pub fn patch(&self, face: usize) -> [Fraction; 16] {
        const CORNER: [usize; 4] = [at(0, 0), at(3, 0), at(3, 3), at(0, 3)];
        const INTERIOR: [usize; 4] = [at(1, 1), at(2, 1), at(2, 2), at(1, 2)];
        const NEAR_START: [usize; 4] = [at(1, 0), at(3, 1), at(2, 3), at(0, 2)];
        const NEAR_END: [usize; 4] = [at(2, 0), at(3, 2), at(1, 3), at(0, 1)];
        let mut points = [Fraction { over: [0; 3], divisor: 0 }; 16];
        for s in 0..4 {
            let (p, q) = (self.start(4 * face + s), self.end(4 * face + s));
            points[CORNER[s]] = self.corner_point(p);
            points[INTERIOR[s]] = self.interior_point(face, p);
            points[NEAR_START[s]] = self.edge_point(p, q);
            points[NEAR_END[s]] = self.edge_point(q, p);
        }
        points
    }
}

/// The corner that stands by so many corners later in the same face.
fn later(corner: usize, by: usize) -> usize {
    corner / 4 * 4 + (corner + by) % 4
}

const fn at(i: usize, j: usize) -> usize {
    i + 4 * j
}

/// Rounds a fraction; of two whole numbers that are as near the even one is taken.
pub fn nearest(over: i128, divisor: i128) -> i128 {
    let (floor, rest) = (over.div_euclid(divisor), over.rem_euclid(divisor));
    match (2 * rest).cmp(&divisor) {
        std::cmp::Ordering::Less => floor,
        std::cmp::Ordering::Greater => floor + 1,
        std::cmp::Ordering::Equal => floor + floor.rem_euclid(2),
    }
}

/// Refusal 1: a size beyond its limits, or a list that does not fit the sizes.
fn sizes_wrong(mesh: &Model) -> bool {
    !(4..=512).contains(&mesh.vertices)
        || !(1..=256).contains(&mesh.faces)
        || mesh.positions.len() != 3 * mesh.vertices
        || mesh.tags.len() != mesh.vertices
        || mesh.indices.len() != 4 * mesh.faces
}

/// 6: a face names a vertex twice.
fn named_twice(mesh: &Model) -> bool {
    mesh.indices.chunks(4).any(|face| face.iter().collect::<BTreeSet<_>>().len() < 4)
}

/// 7: one side occurs twice the same way round.
fn side_twice(surface: &Surface) -> bool {
    let sides = 0..4 * surface.mesh.faces;
    let ends: BTreeSet<(usize, usize)> = sides.map(|s| (surface.start(s), surface.end(s))).collect();
    ends.len() < 4 * surface.mesh.faces
}

/// 10: n from 3 to 16, k from 1 to 8.
fn off_range(ring: Ring) -> bool {
    match ring {
        Ring::Turn(n) => !(3..=16).contains(&n),
        Ring::Chain(k) => !(1..=8).contains(&k),
        Ring::Neither => false,
    }
}

/// The first cause met in the order of the numbers; of each list that is lent, its length and the places that a face takes up in it.
pub fn refusal(mesh: &Model, lent: &[(usize, usize)]) -> Option<u8> {
    causes(mesh, lent).first().copied()
}

/// The causes met, in the order of the numbers, as far as they can be told: nothing after 1, no 7 to 11 after 5, nothing after 7.
pub fn causes(mesh: &Model, lent: &[(usize, usize)]) -> Vec<u8> {
    if sizes_wrong(mesh) {
        return vec![1];
    }
    let short = lent.iter().any(|&(length, places)| length < places * mesh.faces);
    let coordinate_off = mesh.positions.iter().any(|x| !(-1_048_576..=1_048_576).contains(x));
    let tag_off = mesh.tags.iter().any(|&tag| tag > 1);
    let vertex_off = mesh.indices.iter().any(|&p| p as usize >= mesh.vertices);
    let mut met = numbers(2, &[short, coordinate_off, tag_off, vertex_off, named_twice(mesh)]);
    if !vertex_off {
        met.extend(causes_of_surface(&Surface::new(mesh)));
    }
    met
}

/// Those of the numbers from the first on whose cause is met.
fn numbers(first: u8, met: &[bool]) -> Vec<u8> {
    (first..).zip(met).filter(|&(_, &met)| met).map(|(number, _)| number).collect()
}

/// The causes 7 to 11.
fn causes_of_surface(surface: &Surface) -> Vec<u8> {
    if side_twice(surface) {
        return vec![7];
    }
    let vertices = || 0..surface.mesh.vertices;
    let used = |p: usize| !surface.corners[p].is_empty();
    let loose = vertices().any(|p| !used(p));
    let neither = vertices().any(|p| used(p) && surface.ring(p) == Ring::Neither);
    let off = vertices().any(|p| used(p) && off_range(surface.ring(p)));
    let inner_tagged =
        vertices().any(|p| used(p) && matches!(surface.ring(p), Ring::Turn(_)) && surface.mesh.tags[p] == 1);
    numbers(8, &[loose, neither, off, inner_tagged])
}

/// What a call answers and what it leaves in the list of mates, given what was there before.
fn answer(mesh: &Model, twins: &[u16], lent: &[(usize, usize)]) -> (Result<Four, u8>, Vec<u16>) {
    let mut after = twins.to_vec();
    if let Some(number) = refusal(mesh, lent) {
        if number >= 8 {
            after[..4 * mesh.faces].fill(RIM);
        }
        return (Err(number), after);
    }
    let surface = Surface::new(mesh);
    for (s, place) in after.iter_mut().enumerate().take(4 * mesh.faces) {
        *place = surface.mate(s).map_or(RIM, |mate| mate as u16);
    }
    (Ok(surface.counts()), after)
}

pub fn check(mesh: &Model, twins: &[u16]) -> (Result<Four, u8>, Vec<u16>) {
    answer(mesh, twins, &[(twins.len(), 4)])
}

/// The answer of the patch call, and the mates, the patch list and the marks afterwards.
pub fn patches(mesh: &Model, lent: &Lent) -> (Result<Four, u8>, Lent) {
    let (answer, twins) = answer(mesh, &lent.twins, &lent.lengths());
    let mut after = Lent { twins, ..lent.clone() };
    if answer.is_ok() {
        let surface = Surface::new(mesh);
        for face in 0..mesh.faces {
            for (number, point) in surface.patch(face).iter().enumerate() {
                for x in 0..3 {
                    after.patches[48 * face + 3 * number + x] = nearest(256 * point.over[x], point.divisor) as i32;
                }
                after.exact[16 * face + number] = point.whole(256) as u8;
            }
        }
    }
    (answer, after)
}

/// The other foot: every vertex with x negated, every face from its first corner backwards.
fn mirrored(mesh: &Model) -> Model {
    let positions = mesh.positions.chunks(3).flat_map(|vertex| [-vertex[0], vertex[1], vertex[2]]).collect();
    let indices = mesh.indices.chunks(4).flat_map(|face| [face[0], face[3], face[2], face[1]]).collect();
    Model { positions, indices, ..mesh.clone() }
}

/// The causes that the mirror meets, those of the mesh and then 16, and its lent lists afterwards.
pub fn mirror(mesh: &Model, lent: &Model) -> (Vec<u8>, Model) {
    let mut met = causes(mesh, &[]);
    if lent.lengths() != mesh.lengths() {
        met.push(16);
    }
    let after = if met.is_empty() { mirrored(mesh) } else { lent.clone() };
    (met, after)
}

/// W0 to W3 of a.
pub fn weights(n: usize, a: usize) -> [i128; 4] {
    let (a, rest) = (a as i128, n as i128 - a as i128);
    [rest * rest * rest, 3 * a * rest * rest, 3 * a * a * rest, a * a * a]
}

/// Those of 12, 13 and 14 that are met, as far as they can be told: no 13 after 12. The places are a and b, or b alone.
fn sample_causes(patches: &[i32], face: usize, n: usize, places: &[usize]) -> Vec<u8> {
    let missing = 48 * face as u128 + 48 > patches.len() as u128;
    let beyond = |x: &i32| !(-268_435_456..=268_435_456).contains(x);
    let number_off = !missing && patches[48 * face..48 * face + 48].iter().any(beyond);
    let place_off = !(1..=32).contains(&n) || places.iter().any(|&place| place > n);
    numbers(12, &[missing, number_off, place_off])
}

/// The first of 12, 13 and 14 that is met.
pub fn sample_refusal(patches: &[i32], face: usize, n: usize, a: usize, b: usize) -> Option<u8> {
    sample_causes(patches, face, n, &[a, b]).first().copied()
}

/// A sample as a fraction over N^6, not yet rounded: the control points, each times its two weights.
pub fn sample_fraction(patches: &[i32], face: usize, n: usize, a: usize, b: usize) -> Fraction {
    let (along_u, along_v) = (weights(n, a), weights(n, b));
    let mut over = [0; 3];
    for j in 0..4 {
        for i in 0..4 {
            for x in 0..3 {
                over[x] += along_u[i] * along_v[j] * patches[48 * face + 3 * at(i, j) + x] as i128;
            }
        }
    }
    Fraction { over, divisor: (n as i128).pow(6) }
}

/// A sample with its mark, or the first of 12, 13 and 14 that is met: the face has sixteen marks, all of them 1, and the fraction is whole.
pub fn marked_sample(
    patches: &[i32],
    exact: &[u8],
    face: usize,
    n: usize,
    a: usize,
    b: usize,
) -> Result<([i32; 3], bool), u8> {
    let missing = 16 * face as u128 + 16 > exact.len() as u128;
    if let Some(number) = missing.then_some(12).or(sample_refusal(patches, face, n, a, b)) {
        return Err(number);
    }
    let fraction = sample_fraction(patches, face, n, a, b);
    let mark = exact[16 * face..][..16] == [1; 16] && fraction.whole(1);
    Ok((fraction.nearest(), mark))
}

/// The causes that a line meets, those of its samples and then 17, and its lent list afterwards: the samples of one b, a rising.
pub fn line(patches: &[i32], face: usize, n: usize, b: usize, lent: &[i32]) -> (Vec<u8>, Vec<i32>) {
    let mut met = sample_causes(patches, face, n, &[b]);
    if (lent.len() as u128) < 3 * (n as u128 + 1) {
        met.push(17);
    }
    let mut after = lent.to_vec();
    if met.is_empty() {
        for a in 0..=n {
            after[3 * a..3 * a + 3].copy_from_slice(&sample_fraction(patches, face, n, a, b).nearest());
        }
    }
    (met, after)
}
