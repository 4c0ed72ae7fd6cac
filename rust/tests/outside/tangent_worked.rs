//! The tangents of worked meshes, with the numbers that stand there: the cube, and three boxes set together to an L.

use crate::model::Model;
use crate::tangent_rules::Vector;
use crate::tangents::{library_vectors, side};
use crate::worked::{cube_model, model};
use std::array::from_fn;

/// The rows of u(0,j), u(1,j), u(2,j) and of v(0,j) to v(3,j), j rising.
type Rows = ([[Vector; 3]; 4], [[Vector; 4]; 3]);

fn rows(mesh: &Model, face: usize) -> Rows {
    let found = library_vectors(mesh, face);
    (from_fn(|j| from_fn(|i| found.u[i][j])), from_fn(|j| from_fn(|i| found.v[i][j])))
}

#[test]
fn tangents_of_the_cube() {
    let u = [
        [[-7076, 3538, 3538], [-9216, 0, 0], [-7076, -3538, -3538]],
        [[-6322, 1893, 7502], [-9216, 0, 0], [-6322, -1893, -7502]],
        [[-6322, -1893, 7502], [-9216, 0, 0], [-6322, 1893, -7502]],
        [[-7076, -3538, 3538], [-9216, 0, 0], [-7076, 3538, -3538]],
    ];
    let v = [
        [[3538, -7076, 3538], [1893, -6322, 7502], [-1893, -6322, 7502], [-3538, -7076, 3538]],
        [[0, -9216, 0], [0, -9216, 0], [0, -9216, 0], [0, -9216, 0]],
        [[-3538, -7076, -3538], [-1893, -6322, -7502], [1893, -6322, -7502], [3538, -7076, -3538]],
    ];
    assert_eq!(rows(&cube_model(), 0), (u, v));
}

/// Vertices of 3, 4 and 5 faces, and no two edges alike.
fn boxes() -> Model {
    let grid = [
        [0, 0, 0],
        [0, 0, 1],
        [0, 1, 1],
        [0, 1, 0],
        [1, 0, 0],
        [1, 0, 1],
        [1, 1, 1],
        [1, 1, 0],
        [1, 2, 0],
        [1, 2, 1],
        [0, 2, 1],
        [0, 2, 0],
        [2, 0, 0],
        [2, 1, 0],
        [2, 1, 1],
        [2, 0, 1],
    ];
    let faces = [
        [0, 1, 2, 3],
        [0, 4, 5, 1],
        [1, 5, 6, 2],
        [0, 3, 7, 4],
        [7, 8, 9, 6],
        [3, 2, 10, 11],
        [11, 10, 9, 8],
        [2, 6, 9, 10],
        [3, 11, 8, 7],
        [12, 13, 14, 15],
        [7, 6, 14, 13],
        [4, 12, 15, 5],
        [5, 15, 14, 6],
        [4, 7, 13, 12],
    ];
    model(&grid.map(|[x, y, z]| [31 * x + 2 * y * z, 29 * y + 3 * z, 37 * z + 5 * x * y]), &faces)
}

#[test]
fn tangents_of_three_boxes() {
    let u = [
        [[4505, -1916, 2831], [6912, -417, 780], [7936, 0, 213]],
        [[4601, -1749, 5308], [6879, -927, 372], [7964, 422, 983]],
        [[4069, -853, 5124], [8781, 744, 1068], [7256, 1682, 1058]],
        [[4224, 384, 5376], [8730, 0, 1407], [5911, -264, -2309]],
    ];
    let v = [
        [[-2032, 4496, 2831], [-2016, 4747, 5308], [-1068, 4098, 5124], [256, 4096, 5376]],
        [[-123, 6543, 780], [-543, 6495, 372], [1359, 8166, 1068], [561, 8166, 1407]],
        [[427, 7424, 213], [945, 7465, 983], [2257, 6681, 1058], [170, 5444, -2309]],
    ];
    assert_eq!(rows(&boxes(), 2), (u, v));
    // For each face the sum of its numbers, and that of each number times its place, counted from 1.
    let sums = [
        [142667, 5432520],
        [144183, 6318531],
        [193310, 7075505],
        [122950, 5289287],
        [124718, 4706896],
        [180955, 6918108],
        [155906, 5128164],
        [130057, 3554356],
        [167873, 5954331],
        [149592, 5174839],
        [125759, 3434088],
        [178628, 6380924],
        [130703, 4353247],
        [168103, 6699375],
    ];
    for (face, expected) in sums.into_iter().enumerate() {
        let list = library_vectors(&boxes(), face).list();
        let by_place: i64 = (1..).zip(&list).map(|(place, number)| place * number).sum();
        assert_eq!([list.iter().sum(), by_place], expected, "face {face}, left: library");
    }
}

/// The sides of one face with their mates: the sum of the vectors into the two faces, near the start of the side. Twice the cosine term
/// there is (-4608, 278, -520), (-52.74, -843.82, -1107.52), (-3596.96, 0, -579.72) and (-142.33, -2474.67, -71).
#[test]
fn sums_across_the_edges_of_three_boxes() {
    let vectors = [0, 1, 2, 7, 12].map(|face| (face, library_vectors(&boxes(), face)));
    let of = |face: usize| &vectors.iter().find(|(number, _)| *number == face).expect("a face beside").1;
    let mates = [(1, 2), (12, 3), (7, 0), (0, 1)];
    let sums = [[-4608, 278, -520], [-55, -844, -1111], [-3593, 0, -580], [-139, -2474, -74]];
    for (s, ((face, t), sum)) in mates.into_iter().zip(sums).enumerate() {
        let ((_, here), (_, there)) = (side(of(2), s), side(of(face), t));
        let found: Vector = from_fn(|x| here[0][x] + there[1][x]);
        assert_eq!(found, sum, "side {s}");
    }
}
