//! A mesh that owns its lists, how it is printed after a failure, and its renumberings.

use crate::random::Random;
use std::fmt;

#[derive(Clone, PartialEq)]
pub struct Model {
    pub vertices: usize,
    pub faces: usize,
    pub positions: Vec<i32>,
    pub tags: Vec<u8>,
    pub indices: Vec<u16>,
}

impl Model {
    pub fn lend(&self) -> rusketja::Mesh<'_> {
        rusketja::Mesh {
            vertices: self.vertices,
            faces: self.faces,
            positions: &self.positions,
            tags: &self.tags,
            indices: &self.indices,
        }
    }

    /// The lengths of positions, tags and faces.
    pub fn lengths(&self) -> [usize; 3] {
        [self.positions.len(), self.tags.len(), self.indices.len()]
    }

    /// A mesh of the same sizes with lists of these lengths, filled with anything.
    pub fn filled(&self, [positions, tags, indices]: [usize; 3], random: &mut Random) -> Model {
        Model {
            positions: (0..positions).map(|_| random.next() as i32).collect(),
            tags: (0..tags).map(|_| random.next() as u8).collect(),
            indices: (0..indices).map(|_| random.next() as u16).collect(),
            ..*self
        }
    }
}

impl fmt::Display for Model {
    fn fmt(&self, f: &mut fmt::Formatter) -> fmt::Result {
        writeln!(f, "V {} F {}", self.vertices, self.faces)?;
        writeln!(f, "positions ({}) {:?}", self.positions.len(), self.positions)?;
        writeln!(f, "tags ({}) {:?}", self.tags.len(), self.tags)?;
        writeln!(f, "faces ({}) {:?}", self.indices.len(), self.indices)
    }
}

/// Prints the case and its mesh when a test fails while it is alive.
pub struct Shown<'a> {
    pub case: &'a str,
    pub mesh: &'a Model,
}

impl Drop for Shown<'_> {
    fn drop(&mut self) {
        if std::thread::panicking() {
            println!("FAILED {}\n{}", self.case, self.mesh);
        }
    }
}

/// How M' comes from M: the new number of each vertex, the new place of each face, and by how many corners later it begins.
pub struct Renumbering {
    vertex: Vec<usize>,
    place: Vec<usize>,
    later: Vec<usize>,
}

impl Renumbering {
    pub fn random(mesh: &Model, random: &mut Random) -> Renumbering {
        let mut vertex: Vec<usize> = (0..mesh.vertices).collect();
        let mut place: Vec<usize> = (0..mesh.faces).collect();
        random.shuffle(&mut vertex);
        random.shuffle(&mut place);
        let later = (0..mesh.faces).map(|_| random.below(4)).collect();
        Renumbering { vertex, place, later }
    }

    /// M' of a mesh whose lists have their lengths and whose faces name vertices below V.
    pub fn apply(&self, mesh: &Model) -> Model {
        let mut new = mesh.clone();
        for (old, &number) in self.vertex.iter().enumerate() {
            new.positions[3 * number..3 * number + 3].copy_from_slice(&mesh.positions[3 * old..3 * old + 3]);
            new.tags[number] = mesh.tags[old];
        }
        for f in 0..mesh.faces {
            for s in 0..4 {
                let old = mesh.indices[4 * f + (s + self.later[f]) % 4];
                new.indices[4 * self.place[f] + s] = self.vertex[old as usize] as u16;
            }
        }
        new
    }

    /// The place in M' of face f of M, and by how many corners later it begins there.
    pub fn face(&self, f: usize) -> (usize, usize) {
        (self.place[f], self.later[f])
    }

    /// The face and the place of M' that match face f and place (a, b) of M.
    pub fn matching(&self, f: usize, n: usize, a: usize, b: usize) -> (usize, usize, usize) {
        let (mut a, mut b) = (a, b);
        for _ in 0..self.later[f] {
            (a, b) = (b, n - a);
        }
        (self.place[f], a, b)
    }
}
