//! Damaged meshes: each of the causes 1 and 3 to 11, shapes just off a range, and loose faces at random.

use crate::model::Model;
use crate::random::Random;
use crate::shapes::{self, Quads};

/// A damage done to a mesh, which may have others already.
pub type Damage = fn(&mut Model, &mut Random);

/// One damage for each cause, or several where it comes in different ways.
pub const DAMAGES: [Damage; 18] = [
    size_off,
    size_far_off,
    list_longer,
    list_shorter,
    coordinate_off,
    tag_off,
    vertex_off,
    vertex_twice,
    face_twice,
    face_turned,
    sides_crossed,
    vertex_loose,
    vertex_renamed,
    vertices_merged,
    face_opposite,
    inner_tagged,
    corners_swapped,
    vertex_last,
];

fn size_off(mesh: &mut Model, random: &mut Random) {
    match random.below(4) {
        0 => mesh.vertices = random.pick(&[0, 1, 2, 3, 513, 514]),
        1 => mesh.faces = random.pick(&[0, 257, 258]),
        2 => mesh.vertices = mesh.vertices.wrapping_sub(1).wrapping_add(random.below(3)),
        _ => mesh.faces = mesh.faces.wrapping_sub(1).wrapping_add(random.below(3)),
    }
}

/// A size that is the right one only in its low bits.
fn size_far_off(mesh: &mut Model, random: &mut Random) {
    let far = random.pick(&[1 << 8, 1 << 16, 1 << 32, 1 << 48, 1 << 62, 1 << 63, usize::MAX]);
    let size = if random.one_in(2) { &mut mesh.vertices } else { &mut mesh.faces };
    *size = size.wrapping_add(far);
}

fn list_longer(mesh: &mut Model, random: &mut Random) {
    let more = 1 + random.below(5);
    match random.below(3) {
        0 => mesh.positions.extend(vec![0; more]),
        1 => mesh.tags.extend(vec![0; more]),
        _ => mesh.indices.extend(vec![0; more]),
    }
}

fn list_shorter(mesh: &mut Model, random: &mut Random) {
    let keep = |length: usize, random: &mut Random| {
        if random.one_in(3) {
            0
        } else {
            length.saturating_sub(1 + random.below(4))
        }
    };
    match random.below(3) {
        0 => mesh.positions.truncate(keep(mesh.positions.len(), random)),
        1 => mesh.tags.truncate(keep(mesh.tags.len(), random)),
        _ => mesh.indices.truncate(keep(mesh.indices.len(), random)),
    }
}

fn coordinate_off(mesh: &mut Model, random: &mut Random) {
    let off = [1_048_577, -1_048_577, i32::MAX, i32::MIN, random.within(1_048_577, i32::MAX as i64) as i32];
    set_any(&mut mesh.positions, random.pick(&off), random);
}

fn tag_off(mesh: &mut Model, random: &mut Random) {
    let off = random.pick(&[2, 3, 128, 255]);
    set_any(&mut mesh.tags, off, random);
}

fn vertex_off(mesh: &mut Model, random: &mut Random) {
    let v = mesh.vertices as u16;
    let off = random.pick(&[v, v.wrapping_add(1), 65535, 65534, v.saturating_add(256)]);
    set_any(&mut mesh.indices, off, random);
}

/// The last vertex in any place, which is still below V.
fn vertex_last(mesh: &mut Model, random: &mut Random) {
    let last = (mesh.vertices as u16).wrapping_sub(1);
    set_any(&mut mesh.indices, last, random);
}

fn set_any<T: Clone>(list: &mut [T], value: T, random: &mut Random) {
    if !list.is_empty() {
        let at = random.below(list.len());
        list[at] = value;
    }
}

/// Two places of one face, or nothing when there is no whole face.
fn two_corners(mesh: &Model, random: &mut Random) -> Option<(usize, usize)> {
    let whole = mesh.indices.len() / 4;
    (whole > 0).then(|| {
        let (f, s) = (random.below(whole), random.below(4));
        (4 * f + s, 4 * f + (s + 1 + random.below(3)) % 4)
    })
}

fn vertex_twice(mesh: &mut Model, random: &mut Random) {
    if let Some((one, other)) = two_corners(mesh, random) {
        mesh.indices[one] = mesh.indices[other];
    }
}

fn corners_swapped(mesh: &mut Model, random: &mut Random) {
    if let Some((one, other)) = two_corners(mesh, random) {
        mesh.indices.swap(one, other);
    }
}

fn add_face(mesh: &mut Model, face: [u16; 4]) {
    mesh.indices.extend(face);
    mesh.faces = mesh.faces.wrapping_add(1);
}

/// The corners of any face in the order given, or nothing when there is no whole face.
fn any_face(mesh: &Model, order: [usize; 4], random: &mut Random) -> Option<[u16; 4]> {
    two_corners(mesh, random).map(|(corner, _)| order.map(|s| mesh.indices[corner / 4 * 4 + (corner + s) % 4]))
}

fn face_twice(mesh: &mut Model, random: &mut Random) {
    if let Some(face) = any_face(mesh, [0, 1, 2, 3], random) {
        add_face(mesh, face);
    }
}

fn face_opposite(mesh: &mut Model, random: &mut Random) {
    if let Some(face) = any_face(mesh, [0, 3, 2, 1], random) {
        add_face(mesh, face);
    }
}

/// One face turned over where it stands.
fn face_turned(mesh: &mut Model, random: &mut Random) {
    if let Some((corner, _)) = two_corners(mesh, random) {
        mesh.indices[corner / 4 * 4..corner / 4 * 4 + 4].reverse();
    }
}

/// A new face over one side of an old one, the same way round, with two new vertices.
fn sides_crossed(mesh: &mut Model, random: &mut Random) {
    if let Some([p, q, _, _]) = any_face(mesh, [0, 1, 2, 3], random) {
        let new = mesh.vertices as u16;
        vertex_loose(mesh, random);
        vertex_loose(mesh, random);
        add_face(mesh, [p, q, new, new.wrapping_add(1)]);
    }
}

/// A vertex more, in no face.
fn vertex_loose(mesh: &mut Model, random: &mut Random) {
    mesh.vertices = mesh.vertices.wrapping_add(1);
    mesh.positions.extend([0; 3]);
    mesh.tags.push(random.one_in(2) as u8);
}

/// A vertex more, in place of an old one in one face only.
fn vertex_renamed(mesh: &mut Model, random: &mut Random) {
    let new = mesh.vertices as u16;
    vertex_loose(mesh, random);
    set_any(&mut mesh.indices, new, random);
}

/// Every place of one vertex given to another; the last vertex takes the number that is free.
fn vertices_merged(mesh: &mut Model, random: &mut Random) {
    if mesh.vertices < 2 || mesh.vertices > 65535 {
        return;
    }
    let last = mesh.vertices as u16 - 1;
    let (gone, other) = (random.below(mesh.vertices) as u16, random.below(mesh.vertices) as u16);
    let renamed = |p: u16| if p == gone { other } else { p };
    let moved = |p: u16| if p == last { gone } else { p };
    mesh.indices.iter_mut().for_each(|p| *p = moved(renamed(*p)));
    if gone != other {
        mesh.vertices -= 1;
        mesh.positions.truncate(3 * mesh.vertices);
        mesh.tags.truncate(mesh.vertices);
    }
}

/// Tag 1 at any vertex, inner or not.
fn inner_tagged(mesh: &mut Model, random: &mut Random) {
    set_any(&mut mesh.tags, 1, random);
}

/// A shape with a vertex just off its range, or with a vertex where two fans meet.
pub fn off_range(random: &mut Random) -> Quads {
    let off = match random.below(7) {
        0 => shapes::poles(17 + random.below(3)),
        1 => shapes::poles(2),
        2 => shapes::wheel(17 + random.below(3)),
        3 => shapes::wheel(2),
        4 => shapes::fan(9 + random.below(3)),
        5 => Quads { vertices: 4, faces: vec![[0, 1, 2, 3], [3, 2, 1, 0]] },
        _ => Quads { vertices: 7, faces: vec![[0, 1, 2, 3], [3, 4, 5, 6]] },
    };
    if random.one_in(2) {
        off
    } else {
        shapes::small(random).beside(&off)
    }
}

/// Faces of any vertices, with no side twice the same way round unless by chance.
pub fn loose_faces(random: &mut Random) -> Quads {
    let (vertices, tries) = (4 + random.below(5), 1 + random.below(24));
    let mut quads = Quads { vertices, faces: Vec::new() };
    let mut sides = Vec::new();
    let careful = !random.one_in(6);
    for _ in 0..tries {
        let mut order: Vec<usize> = (0..vertices).collect();
        random.shuffle(&mut order);
        let face = [order[0], order[1], order[2], order[3]];
        let own = [0, 1, 2, 3].map(|s| (face[s], face[(s + 1) % 4]));
        if !careful || own.iter().all(|side| !sides.contains(side)) {
            sides.extend(own);
            quads.faces.push(face);
        }
    }
    quads
}

/// A mesh that is most often refused: a damaged shape, a shape off its range, loose faces, or changes not looked at.
pub fn damaged(random: &mut Random) -> Model {
    let mut mesh = match random.below(6) {
        0 => with_places(off_range(random), random),
        1 => with_places(loose_faces(random), random),
        2 => {
            let change = random.pick(&shapes::CHANGES);
            with_places(change(&shapes::small(random), random), random)
        }
        _ => shapes::accepted(random),
    };
    let times = random.pick(&[0, 1, 1, 1, 1, 2, 2, 3, 4]);
    for _ in 0..times {
        let damage = random.pick(&DAMAGES);
        damage(&mut mesh, random);
    }
    mesh
}

/// The mesh with coordinates, and with tags on any vertex once in a while.
fn with_places(quads: Quads, random: &mut Random) -> Model {
    let mut mesh = quads.model();
    shapes::place(&mut mesh, random);
    let share = random.pick(&[0, 0, 0, 8]);
    mesh.tags.iter_mut().for_each(|tag| *tag = (random.below(64) < share) as u8);
    mesh
}
