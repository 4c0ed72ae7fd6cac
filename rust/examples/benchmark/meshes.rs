//! The meshes that are measured.

use rusketja::Mesh;

/// A mesh with a name.
pub struct Named {
    pub name: &'static str,
    vertices: usize,
    positions: Vec<i32>,
    tags: Vec<u8>,
    indices: Vec<u16>,
}

impl Named {
    /// A mesh whose coordinates are spread over their whole range.
    fn new(name: &'static str, vertices: usize, indices: Vec<u16>) -> Named {
        let mut state = 20_261_115_u64;
        let coordinate = || {
            state = state.wrapping_mul(6_364_136_223_846_793_005).wrapping_add(1_442_695_040_888_963_407);
            ((state >> 33) % 2_097_153) as i32 - 1_048_576
        };
        let positions = std::iter::repeat_with(coordinate).take(3 * vertices).collect();
        Named { name, vertices, positions, tags: vec![0; vertices], indices }
    }

    pub fn mesh(&self) -> Mesh<'_> {
        Mesh {
            vertices: self.vertices,
            faces: self.indices.len() / 4,
            positions: &self.positions,
            tags: &self.tags,
            indices: &self.indices,
        }
    }

    /// The mesh as a file (rule F1).
    pub fn file(&self, n: usize) -> Vec<u8> {
        let sizes = [self.vertices, self.indices.len() / 4, n].map(|size| size as u16);
        let mut file: Vec<u8> = sizes.into_iter().flat_map(u16::to_le_bytes).collect();
        file.extend(self.positions.iter().flat_map(|x| x.to_le_bytes()));
        file.extend(&self.tags);
        file.extend(self.indices.iter().flat_map(|p| p.to_le_bytes()));
        file
    }
}

/// The faces of a sheet of a by b, over so many columns and rows of vertices.
fn sheet(a: usize, b: usize, columns: usize, rows: usize) -> Vec<u16> {
    let at = |i: usize, j: usize| (i % columns + columns * (j % rows)) as u16;
    (0..a * b)
        .map(|f| (f % a, f / a))
        .flat_map(|(i, j)| [at(i, j), at(i + 1, j), at(i + 1, j + 1), at(i, j + 1)])
        .collect()
}

fn torus(name: &'static str, a: usize, b: usize) -> Named {
    Named::new(name, a * b, sheet(a, b, a, b))
}

/// An open sheet; some vertices of its first row are corners.
fn open(name: &'static str, a: usize, b: usize) -> Named {
    let mut mesh = Named::new(name, (a + 1) * (b + 1), sheet(a, b, a + 1, b + 1));
    mesh.tags[..a].iter_mut().step_by(5).for_each(|tag| *tag = 1);
    mesh
}

/// Spheres of 32 faces, each with two poles of the largest valence, 16: the longest chains of corners.
fn poles(name: &'static str, spheres: usize) -> Named {
    let faces = (0..spheres).flat_map(|sphere| {
        (0..16).flat_map(move |i| {
            let first = 34 * sphere;
            let belt = |j: usize| first + 2 + (2 * i + j) % 32;
            let north = [first, belt(0), belt(1), belt(2)];
            let south = [first + 1, belt(3), belt(2), belt(1)];
            [north, south].into_iter().flatten().map(|p| p as u16)
        })
    });
    Named::new(name, 34 * spheres, faces.collect())
}

/// Growing closed meshes, and two of the largest number of faces with a boundary and with the largest valences.
pub fn all() -> Vec<Named> {
    vec![
        torus("torus-16", 4, 4),
        torus("torus-32", 8, 4),
        torus("torus-64", 8, 8),
        torus("torus-128", 16, 8),
        torus("torus-256", 16, 16),
        open("open-256", 16, 16),
        poles("poles-256", 8),
    ]
}
