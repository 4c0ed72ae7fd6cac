//! The worked meshes of rules X1 to X6 and X14 and the limits of rule X9, with the numbers that stand there, and mirror images by hand.

use crate::compare::{self, Lent};
use crate::model::Model;
use crate::random::Random;
use crate::shapes::{self, Quads};
use crate::tally::Tally;
use crate::{claim, document};

pub fn model(positions: &[[i32; 3]], faces: &[[usize; 4]]) -> Model {
    let mut mesh = Quads { vertices: positions.len(), faces: faces.to_vec() }.model();
    mesh.positions = positions.concat();
    mesh
}

/// The answers of the check, the patch call and the mirror, which must be the same: 0 or the number of the refusal.
fn answer(mesh: &Model) -> u8 {
    let (mut tally, mut random) = (Tally::default(), Random::case(0, 0, 0));
    let faces = mesh.faces.min(300);
    compare::mesh_calls(mesh, &Lent::filled([4, 48, 16].map(|places| places * faces), &mut random), &mut tally);
    compare::mirror_call(mesh, &mesh.filled(mesh.lengths(), &mut random), &mut tally);
    let check = tally.check.iter().position(|&seen| seen > 0);
    assert_eq!(check, tally.patches.iter().position(|&seen| seen > 0));
    assert_eq!(check, tally.mirror.iter().position(|&seen| seen > 0));
    check.expect("an answer") as u8
}

/// Control point b(i,j) of the first patch.
fn at(patches: &[i32], i: usize, j: usize) -> [i32; 3] {
    [0, 1, 2].map(|x| patches[3 * (i + 4 * j) + x])
}

/// The sample at a place that is not refused.
fn sample(patches: &[i32], face: usize, n: usize, a: usize, b: usize) -> [i32; 3] {
    rusketja::sample(patches, face, n, a, b).expect("a sample")
}

pub fn square() -> Model {
    model(&[[0, 0, 0], [21, 0, 0], [21, 21, 0], [0, 21, 0]], &[[0, 1, 2, 3]])
}

#[test]
fn square_and_its_samples() {
    let patches = claim::library_patches(&square());
    assert_eq!(at(&patches, 1, 0), [1792, 0, 0]);
    assert_eq!(at(&patches, 1, 1), [1792, 1792, 0]);
    assert_eq!(at(&patches, 2, 1), [3584, 1792, 0]);
    assert_eq!(rusketja::sample(&patches, 0, 2, 1, 0).ok(), Some([2688, 0, 0]));
    assert_eq!(rusketja::sample(&patches, 0, 2, 1, 1).ok(), Some([2688, 2688, 0]));
    assert_eq!(rusketja::reading(&patches, 0, 2, 1, 1).ok(), Some([10.5, 10.5, 0.0]));
    // A flat square is divided evenly, by control points as by samples.
    for (i, j) in (0..4).flat_map(|j| (0..4).map(move |i| (i, j))) {
        assert_eq!(at(&patches, i, j), [1792 * i as i32, 1792 * j as i32, 0]);
    }
    for n in (1..=32).filter(|n| 5376 % n == 0) {
        for (a, b) in (0..=n).flat_map(|b| (0..=n).map(move |a| (a, b))) {
            assert_eq!(sample(&patches, 0, n, a, b), [(5376 / n * a) as i32, (5376 / n * b) as i32, 0]);
        }
    }
}

/// The faces of the cube, that of z = 24 first.
pub fn cube_model() -> Model {
    let corner = |p: i32| [p & 1, p >> 1 & 1, p >> 2].map(|bit| 48 * bit - 24);
    let positions: Vec<[i32; 3]> = (0..8).map(corner).collect();
    let top_first = [[7, 6, 4, 5], [0, 2, 3, 1], [0, 1, 5, 4], [1, 3, 7, 5], [3, 2, 6, 7], [2, 0, 4, 6]];
    model(&positions, &top_first)
}

#[test]
fn cube() {
    let cube = cube_model();
    let counts = rusketja::check(&cube.lend(), &mut [0; 24]).expect("the cube is accepted");
    assert_eq!([counts.vertices, counts.faces, counts.edges, counts.boundary], [8, 6, 12, 0]);
    let patches = claim::library_patches(&cube);
    assert_eq!(at(&patches, 0, 0), [3072, 3072, 3072]);
    assert_eq!(at(&patches, 1, 1), [1536, 1536, 6144]);
    assert_eq!(at(&patches, 1, 0), [1536, 3840, 3840]);
}

pub fn strip() -> Model {
    let positions = [[0, 0, 0], [9, 0, 0], [18, 0, 9], [18, 9, 0], [9, 9, 0], [0, 9, 0]];
    model(&positions, &[[0, 1, 4, 5], [1, 2, 3, 4]])
}

/// One face and two side by side: the inner points at vertices 0, 1 and 2 have w = 4 each, and of these the corner point is the vertex at 0 and 2
/// alone.
#[test]
fn one_face_beside_two() {
    let patches = claim::library_patches(&strip());
    assert_eq!([at(&patches, 1, 1), at(&patches, 2, 1)], [[768, 768, 0], [1536, 768, 0]]);
    assert_eq!([at(&patches, 0, 0), at(&patches, 3, 0)], [[0, 0, 0], [2304, 0, 384]]);
    assert_eq!([at(&patches[48..], 1, 1), at(&patches[48..], 2, 1)], [[3072, 768, 512], [3840, 768, 1024]]);
    assert_eq!([at(&patches[48..], 0, 0), at(&patches[48..], 3, 0)], [[2304, 0, 384], [4608, 0, 2304]]);
}

/// Three of the four squares about a vertex: in the first, w is 4 at its outer corner, 4 beside that and 6 at the vertex with three faces.
#[test]
fn one_two_and_three_faces() {
    let positions =
        [[0, 0, 0], [99, 0, 0], [198, 0, 0], [0, 99, 0], [99, 99, 0], [198, 99, 0], [0, 198, 0], [99, 198, 0]];
    let mesh = model(&positions, &[[0, 1, 4, 3], [1, 2, 5, 4], [3, 4, 7, 6]]);
    let patches = claim::library_patches(&mesh);
    assert_eq!([at(&patches, 1, 1), at(&patches, 2, 1)], [[8448, 8448, 0], [16896, 8448, 0]]);
    assert_eq!([at(&patches, 2, 2), at(&patches, 1, 2)], [[18432, 18432, 0], [8448, 16896, 0]]);
    assert_eq!([at(&patches, 0, 0), at(&patches, 3, 3)], [[0, 0, 0], [29568, 29568, 0]]);
}

#[test]
fn mirrored_square() {
    let image = claim::library_image(&square());
    assert!(image == model(&[[0, 0, 0], [-21, 0, 0], [-21, 21, 0], [0, 21, 0]], &[[0, 3, 2, 1]]));
    let patches = claim::library_patches(&image);
    assert_eq!(at(&patches, 0, 1), [-1792, 0, 0]);
    assert_eq!(at(&patches, 1, 1), [-1792, 1792, 0]);
    assert_eq!(at(&patches, 1, 2), [-3584, 1792, 0]);
    assert_eq!(sample(&patches, 0, 2, 0, 1), [-2688, 0, 0]);
    assert_eq!(sample(&patches, 0, 2, 1, 1), [-2688, 2688, 0]);
    for (a, b) in [(0, 0), (1, 0), (0, 1), (1, 1)] {
        assert_eq!(sample(&patches, 0, 1, a, b), [-5376 * b as i32, 5376 * a as i32, 0]);
    }
}

#[test]
fn mirrored_strip() {
    let mut mesh = strip();
    // Tags where k is 1, which leave every point as it is.
    mesh.tags = vec![0, 0, 1, 0, 0, 1];
    let image = claim::library_image(&mesh);
    assert_eq!(image.positions, [0, 0, 0, -9, 0, 0, -18, 0, 9, -18, 9, 0, -9, 9, 0, 0, 9, 0]);
    assert_eq!(image.tags, [0, 0, 1, 0, 0, 1]);
    assert_eq!(image.indices, [0, 5, 4, 1, 1, 4, 3, 2]);
    let counts = rusketja::check(&image.lend(), &mut [0; 8]).expect("the image is accepted");
    assert_eq!([counts.vertices, counts.faces, counts.edges, counts.boundary], [6, 2, 7, 6]);
    let patches = claim::library_patches(&image);
    assert_eq!(at(&patches, 1, 2), [-1536, 768, 0]);
    assert_eq!(at(&patches, 1, 3), [-2304, 768, 256]);
    assert_eq!(at(&patches, 0, 3), [-2304, 0, 384]);
    assert_eq!(at(&patches[48..], 1, 1), [-3072, 768, 512]);
    // The middle of the edge between the faces: (384 + 3 * 256 + 3 * 128 + 0) / 8 in z.
    let old = claim::library_patches(&mesh);
    assert_eq!([sample(&old, 0, 2, 2, 1), sample(&old, 1, 2, 0, 1)], [[2304, 1152, 192]; 2]);
    assert_eq!([sample(&patches, 0, 2, 1, 2), sample(&patches, 1, 2, 1, 0)], [[-2304, 1152, 192]; 2]);
}

/// The lines of the square, and those of the strip through the middle of the edge between its faces.
#[test]
fn lines_of_square_and_strip() {
    let line = |patches: &[i32], face: usize, n: usize, b: usize| {
        rusketja::sample_line(patches, face, n, b, &mut [7; 99]).expect("a line").to_vec()
    };
    let patches = claim::library_patches(&square());
    for b in 0..2 {
        assert_eq!(line(&patches, 0, 1, b), [[0, 5376 * b as i32, 0], [5376, 5376 * b as i32, 0]]);
    }
    for (b, y) in [(0, 0), (1, 2688), (2, 5376)] {
        assert_eq!(line(&patches, 0, 2, b), [[0, y, 0], [2688, y, 0], [5376, y, 0]]);
    }
    let patches = claim::library_patches(&strip());
    let [left, right] = [0, 1].map(|face| line(&patches, face, 2, 1));
    assert_eq!(left, [[0, 1152, 0], [1152, 1152, 24], [2304, 1152, 192]]);
    assert_eq!(right, [[2304, 1152, 192], [3456, 1152, 600], [4608, 1152, 1152]]);
}

#[test]
fn mirror_at_the_largest_coordinates() {
    for x in [shapes::LIMIT as i32, -shapes::LIMIT as i32] {
        let mut mesh = square();
        (mesh.positions[3], mesh.positions[6]) = (x, -x);
        let image = claim::library_image(&mesh);
        assert_eq!(image.positions, [0, 0, 0, -x, 0, 0, x, 21, 0, 0, 21, 0]);
        let patches = claim::library_patches(&image);
        assert_eq!(sample(&patches, 0, 1, 0, 1), [-256 * x, 0, 0]);
        assert_eq!(sample(&patches, 0, 1, 1, 1), [256 * x, 5376, 0]);
        mesh.positions[6] = x + x.signum();
        assert_eq!(answer(&mesh), 3);
    }
}

/// Lists of the lengths of others, and lengths that differ in their high bits alone.
#[test]
fn mirror_lists_of_other_lengths() {
    let (mut tally, mut random) = (Tally::default(), Random::case(0, 0, 1));
    let mut lengths = vec![[0, 0, 0], [6, 18, 8], [18, 8, 6], [8, 6, 18]];
    for more in [1 << 8, 1 << 16] {
        lengths.extend([[18 + more, 6, 8], [18, 6 + more, 8], [18, 6, 8 + more]]);
    }
    for &other in &lengths {
        compare::mirror_call(&strip(), &strip().filled(other, &mut random), &mut tally);
    }
    assert_eq!(tally.mirror[16], lengths.len() as u64);
}

/// The answer to faces over vertices that all lie at one place.
fn alone(vertices: usize, faces: &[[usize; 4]]) -> u8 {
    answer(&Quads { vertices, faces: faces.to_vec() }.model())
}

#[test]
fn halves_to_the_even() {
    let halves = [(1, 0), (3, 2), (5, 2), (-1, 0), (-3, -2)];
    for (over, whole) in halves {
        assert_eq!(document::nearest(over, 2), whole);
    }
}

#[test]
fn refused_meshes() {
    assert_eq!(alone(4, &[[0, 1, 2, 3], [3, 2, 1, 0]]), 10);
    assert_eq!(alone(4, &[[0, 1, 2, 3], [0, 1, 2, 3]]), 7);
    assert_eq!(alone(7, &[[0, 1, 2, 3], [3, 4, 5, 6]]), 9);
    assert_eq!(alone(3, &[[0, 1, 2, 0]]), 1);
    assert_eq!(alone(4, &[[0, 1, 2, 3]]), 0);
}

#[test]
fn edges_of_the_ranges() {
    let both = |passes: Quads, refused: Quads| [passes, refused].map(|quads| answer(&quads.model()));
    let tube = |faces: usize| shapes::sheet(faces, 1, true, false);
    assert_eq!(both(tube(256), tube(257)), [0, 1]);
    assert_eq!(both(shapes::poles(16), shapes::poles(17)), [0, 10]);
    assert_eq!(both(shapes::wheel(16), shapes::wheel(17)), [0, 10]);
    assert_eq!(both(shapes::fan(8), shapes::fan(9)), [0, 10]);
    for (coordinate, number) in [(1_048_576, 0), (1_048_577, 3), (-1_048_576, 0), (-1_048_577, 3)] {
        let mut mesh = square();
        mesh.positions[7] = coordinate;
        assert_eq!(answer(&mesh), number);
    }
    let patches = claim::library_patches(&square());
    for (n, number) in [(32, None), (33, Some(14)), (0, Some(14)), (1, None)] {
        let refused = rusketja::sample(&patches, 0, n, 0, 0).err();
        assert_eq!(refused.map(|refusal| refusal.0), number);
    }
}
