//! Accepted meshes: basic closed and open shapes, random changes that keep a mesh accepted, coordinates and tags.

use crate::document::{self, Ring, Surface};
use crate::model::{Model, Renumbering};
use crate::random::Random;

/// The largest coordinate.
pub const LIMIT: i64 = 1_048_576;

/// The faces of a mesh without positions and tags.
#[derive(Clone)]
pub struct Quads {
    pub vertices: usize,
    pub faces: Vec<[usize; 4]>,
}

impl Quads {
    /// The mesh with these faces, all coordinates and tags 0.
    pub fn model(&self) -> Model {
        Model {
            vertices: self.vertices,
            faces: self.faces.len(),
            positions: vec![0; 3 * self.vertices],
            tags: vec![0; self.vertices],
            indices: self.faces.iter().flatten().map(|&p| p as u16).collect(),
        }
    }

    fn accepted(&self) -> bool {
        document::refusal(&self.model(), &[]).is_none()
    }

    /// The other mesh set beside this one.
    pub fn beside(mut self, other: &Quads) -> Quads {
        let shift = self.vertices;
        self.faces.extend(other.faces.iter().map(|face| face.map(|p| p + shift)));
        self.vertices += other.vertices;
        self
    }

    /// The same faces over the vertices that they name.
    fn packed(self) -> Quads {
        let mut used: Vec<usize> = self.faces.iter().flatten().copied().collect();
        used.sort();
        used.dedup();
        let number = |p: usize| used.binary_search(&p).expect("a used vertex");
        let faces = self.faces.iter().map(|face| face.map(number)).collect();
        Quads { vertices: used.len(), faces }
    }
}

/// A sheet of a by b faces, closed along its first way, its second way, both or none.
pub fn sheet(a: usize, b: usize, around_a: bool, around_b: bool) -> Quads {
    let (columns, rows) = (if around_a { a } else { a + 1 }, if around_b { b } else { b + 1 });
    let at = |i: usize, j: usize| i % columns + columns * (j % rows);
    let face = |f: usize| {
        let (i, j) = (f % a, f / a);
        [at(i, j), at(i + 1, j), at(i + 1, j + 1), at(i, j + 1)]
    };
    Quads { vertices: columns * rows, faces: (0..a * b).map(face).collect() }
}

/// The outside of a block of a by b by c cubes.
pub fn block(a: usize, b: usize, c: usize) -> Quads {
    let at = |x: usize, y: usize, z: usize| x + (a + 1) * (y + (b + 1) * z);
    let mut faces = Vec::new();
    for (x, y) in (0..a).flat_map(|x| (0..b).map(move |y| (x, y))) {
        faces.push([at(x, y, c), at(x + 1, y, c), at(x + 1, y + 1, c), at(x, y + 1, c)]);
        faces.push([at(x, y, 0), at(x, y + 1, 0), at(x + 1, y + 1, 0), at(x + 1, y, 0)]);
    }
    for (y, z) in (0..b).flat_map(|y| (0..c).map(move |z| (y, z))) {
        faces.push([at(a, y, z), at(a, y + 1, z), at(a, y + 1, z + 1), at(a, y, z + 1)]);
        faces.push([at(0, y, z), at(0, y, z + 1), at(0, y + 1, z + 1), at(0, y + 1, z)]);
    }
    for (z, x) in (0..c).flat_map(|z| (0..a).map(move |x| (z, x))) {
        faces.push([at(x, b, z), at(x, b, z + 1), at(x + 1, b, z + 1), at(x + 1, b, z)]);
        faces.push([at(x, 0, z), at(x + 1, 0, z), at(x + 1, 0, z + 1), at(x, 0, z + 1)]);
    }
    Quads { vertices: (a + 1) * (b + 1) * (c + 1), faces }.packed()
}

/// Two poles of n faces each over a belt of 2n vertices.
pub fn poles(n: usize) -> Quads {
    let belt = |i: usize| 2 + i % (2 * n);
    let north = (0..n).map(|i| [0, belt(2 * i), belt(2 * i + 1), belt(2 * i + 2)]);
    let south = (0..n).map(|i| [1, belt(2 * i + 3), belt(2 * i + 2), belt(2 * i + 1)]);
    Quads { vertices: 2 * n + 2, faces: north.chain(south).collect() }
}

/// n faces all around one vertex.
pub fn wheel(n: usize) -> Quads {
    let ring = |i: usize| 1 + i % (2 * n);
    let faces = (0..n).map(|i| [0, ring(2 * i), ring(2 * i + 1), ring(2 * i + 2)]).collect();
    Quads { vertices: 2 * n + 1, faces }
}

/// k faces about a vertex of the rim.
pub fn fan(k: usize) -> Quads {
    let faces = (0..k).map(|i| [0, 2 * i + 1, 2 * i + 2, 2 * i + 3]).collect();
    Quads { vertices: 2 * k + 2, faces }
}

/// Any small basic shape, with up to about 60 faces.
pub fn small(random: &mut Random) -> Quads {
    let (a, b, c) = (1 + random.below(6), 1 + random.below(6), 1 + random.below(3));
    match random.below(8) {
        0 => sheet(a, b, false, false),
        1 => sheet(a + 2, b, true, false),
        2 => sheet(a + 2, b + 2, true, true),
        3 => block(1 + a % 3, 1 + b % 3, c),
        4 => poles(3 + random.below(14)),
        5 => wheel(3 + random.below(14)),
        6 => fan(1 + random.below(8)),
        _ => sewn_soup(random),
    }
}

/// Separate faces sewn along their rim sides at random.
fn sewn_soup(random: &mut Random) -> Quads {
    let count = 1 + random.below(12);
    let mut quads = Quads { vertices: 4 * count, faces: (0..count).map(|f| [0, 1, 2, 3].map(|s| 4 * f + s)).collect() };
    for _ in 0..random.below(6 * count) {
        quads = kept(quads, sew, random);
    }
    quads
}

/// Shapes near the limits: V up to 512, F up to 256.
pub fn large(random: &mut Random) -> Quads {
    match random.below(7) {
        0 => sheet(16, 16, false, false),
        1 => sheet(16, 16, true, true),
        2 => sheet(32, 8, true, false),
        3 => block(6, 6, 7),
        4 => (1..128).fold(sheet(1, 1, false, false), |all, _| all.beside(&sheet(1, 1, false, false))),
        5 => (0..64).fold(sheet(16, 8, true, true), |all, _| all.beside(&sheet(2, 1, false, false))),
        _ => {
            let mut all = small(random);
            for _ in 0..40 {
                let more = small(random);
                if all.vertices + more.vertices <= 512 && all.faces.len() + more.faces.len() <= 256 {
                    all = all.beside(&more);
                }
            }
            all
        }
    }
}

/// A change of the faces; what comes out need not be accepted.
pub type Change = fn(&Quads, &mut Random) -> Quads;

/// All changes.
pub const CHANGES: [Change; 7] = [drop_face, inset, open_path, rotate_edge, merge, sew, turn_over];

/// The changed mesh if it is accepted, else the mesh as it was.
pub fn kept(quads: Quads, change: impl Fn(&Quads, &mut Random) -> Quads, random: &mut Random) -> Quads {
    let new = change(&quads, random);
    if new.accepted() {
        new
    } else {
        quads
    }
}

/// One face taken out.
pub fn drop_face(quads: &Quads, random: &mut Random) -> Quads {
    let mut new = quads.clone();
    new.faces.swap_remove(random.below(quads.faces.len()));
    new.packed()
}

/// Any face replaced by five.
fn inset(quads: &Quads, random: &mut Random) -> Quads {
    inset_at(quads, random.below(quads.faces.len()))
}

/// One face replaced by five: a smaller one and four around it. Each of its corners has one face more.
pub fn inset_at(quads: &Quads, face: usize) -> Quads {
    let mut new = quads.clone();
    let [a, b, c, d] = new.faces.swap_remove(face);
    let v = quads.vertices;
    new.vertices += 4;
    new.faces.extend([
        [v, v + 1, v + 2, v + 3],
        [a, b, v + 1, v],
        [b, c, v + 2, v + 1],
        [c, d, v + 3, v + 2],
        [d, a, v, v + 3],
    ]);
    new
}

/// Two edges at an inner vertex opened into a new face, the faces of one sector moved to a new vertex.
fn open_path(quads: &Quads, random: &mut Random) -> Quads {
    let mut new = quads.clone();
    let side = |from: usize, to: usize| {
        let runs = |face: &[usize; 4]| (0..4).any(|s| face[s] == from && face[(s + 1) % 4] == to);
        quads.faces.iter().position(runs)
    };
    let p = random.below(quads.vertices);
    let first = quads.faces.iter().find_map(|face| (0..4).find(|&s| face[s] == p).map(|s| face[(s + 1) % 4]));
    let Some(first) = first else { return new };
    let mut to = first;
    for _ in 0..2 + random.below(6) {
        let Some(f) = side(p, to) else {
            return quads.clone();
        };
        let s = (0..4).find(|&s| quads.faces[f][s] == p).expect("p is a corner");
        new.faces[f][s] = quads.vertices;
        to = quads.faces[f][(s + 3) % 4];
        if to == first {
            return quads.clone();
        }
    }
    new.vertices += 1;
    new.faces.push([first, quads.vertices, to, p]);
    new
}

/// The edge between two faces turned on to the next pair of the six vertices around.
pub fn rotate_edge(quads: &Quads, random: &mut Random) -> Quads {
    let mut new = quads.clone();
    let (f, s) = (random.below(quads.faces.len()), random.below(4));
    let turned = |f: usize, s: usize| [0, 1, 2, 3].map(|i: usize| quads.faces[f][(s + i) % 4]);
    let [p, q, x, y] = turned(f, s);
    let back =
        (0..quads.faces.len()).flat_map(|g| (0..4).map(move |t| (g, t))).find(|&(g, t)| turned(g, t)[..2] == [q, p]);
    if let Some((g, t)) = back {
        let [_, _, z, w] = turned(g, t);
        new.faces[f] = [x, y, p, z];
        new.faces[g] = [z, w, q, x];
    }
    new
}

/// One vertex put in the place of another.
fn merge(quads: &Quads, random: &mut Random) -> Quads {
    let (p, q) = (random.below(quads.vertices), random.below(quads.vertices));
    let faces = quads.faces.iter().map(|face| face.map(|v| if v == p { q } else { v })).collect();
    Quads { vertices: quads.vertices, faces }.packed()
}

/// Two rim sides joined into one edge.
fn sew(quads: &Quads, random: &mut Random) -> Quads {
    let sides: Vec<(usize, usize)> =
        quads.faces.iter().flat_map(|face| (0..4).map(|s| (face[s], face[(s + 1) % 4]))).collect();
    let rim: Vec<(usize, usize)> = sides.iter().copied().filter(|&(p, q)| !sides.contains(&(q, p))).collect();
    if rim.is_empty() {
        return quads.clone();
    }
    let ((p, q), (r, u)) = (random.pick(&rim), random.pick(&rim));
    let joined = |v: usize| {
        if v == u {
            p
        } else if v == r {
            q
        } else {
            v
        }
    };
    let faces = quads.faces.iter().map(|face| face.map(joined)).collect();
    Quads { vertices: quads.vertices, faces }.packed()
}

/// Every face turned over.
fn turn_over(quads: &Quads, _: &mut Random) -> Quads {
    let faces = quads.faces.iter().map(|&[a, b, c, d]| [a, d, c, b]).collect();
    Quads { vertices: quads.vertices, faces }
}

/// Coordinates of one of several kinds: anywhere, at the limits, small, or all the same.
pub fn place(mesh: &mut Model, random: &mut Random) {
    let kind = random.below(6);
    let same = random.within(-LIMIT, LIMIT);
    for x in &mut mesh.positions {
        *x = match kind {
            0 | 1 => random.within(-LIMIT, LIMIT),
            2 => random.pick(&[-LIMIT, LIMIT]),
            3 => random.pick(&[-LIMIT, 1 - LIMIT, -1, 0, 1, LIMIT - 1, LIMIT]),
            4 => random.within(-8, 8),
            _ => same,
        } as i32;
    }
}

/// Tag 1 on none, some or all of the rim vertices.
pub fn tag(mesh: &mut Model, random: &mut Random) {
    let share = random.below(4);
    let rim: Vec<bool> = {
        let surface = Surface::new(mesh);
        (0..mesh.vertices).map(|p| matches!(surface.ring(p), Ring::Chain(_))).collect()
    };
    for (tag, rim) in mesh.tags.iter_mut().zip(rim) {
        *tag = (rim && random.below(3) < share) as u8;
    }
}

/// An accepted mesh: a shape, changes that keep it accepted, coordinates, tags, and new numbers.
pub fn accepted(random: &mut Random) -> Model {
    let is_large = random.one_in(60);
    let mut quads = if is_large { large(random) } else { small(random) };
    for _ in 0..if is_large { random.below(3) } else { random.below(10) } {
        let change = random.pick(&CHANGES);
        quads = kept(quads, change, random);
    }
    if !is_large && random.one_in(8) {
        quads = quads.beside(&small(random));
    }
    let mut mesh = quads.model();
    place(&mut mesh, random);
    tag(&mut mesh, random);
    Renumbering::random(&mesh, random).apply(&mesh)
}
