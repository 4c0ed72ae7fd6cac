//! Accepted meshes with vertices of many faces beside each other, closed or with holes, for the tangents.

use crate::model::{Model, Renumbering};
use crate::random::Random;
use crate::shapes::{self, Quads};

/// Any face at one of these vertices replaced by five, so that the vertex has one face more.
fn grow(quads: &Quads, vertices: [usize; 4], random: &mut Random) -> Quads {
    let p = random.pick(&vertices);
    let faces: Vec<usize> = (0..quads.faces.len()).filter(|&f| quads.faces[f].contains(&p)).collect();
    shapes::inset_at(quads, random.pick(&faces))
}

/// A mesh in which the four corners of one face have grown, with faces taken out or not.
pub fn accepted(random: &mut Random) -> Model {
    let mut quads = match random.below(4) {
        0 => shapes::sheet(3, 3, true, true),
        1 => shapes::block(1 + random.below(2), 1, 1),
        2 => shapes::sheet(3, 3, false, false),
        _ => shapes::poles(3 + random.below(14)),
    };
    let vertices = random.pick(&quads.faces);
    for _ in 0..random.below(40) {
        quads = shapes::kept(quads, |quads, random| grow(quads, vertices, random), random);
    }
    for _ in 0..random.pick(&[0, 0, 0, 5]) {
        quads = shapes::kept(quads, shapes::rotate_edge, random);
    }
    for _ in 0..random.pick(&[0, 0, 1, 1, 4]) {
        quads = shapes::kept(quads, shapes::drop_face, random);
    }
    let mut mesh = quads.model();
    shapes::place(&mut mesh, random);
    shapes::tag(&mut mesh, random);
    Renumbering::random(&mesh, random).apply(&mesh)
}
