//! The claim in its three parts, on the library's own numbers: distance, seam and renumbering. And the claim of the mirror.

use crate::document::{weights, Fraction, Surface};
use crate::model::{Model, Renumbering};
use crate::random::Random;
use crate::tally::Tally;

/// A place from 0 to N, often one of the ends.
pub fn place(n: usize, random: &mut Random) -> usize {
    match random.below(6) {
        0 => 0,
        1 => n,
        _ => random.below(n + 1),
    }
}

fn library_sample(patches: &[i32], face: usize, n: usize, a: usize, b: usize) -> [i32; 3] {
    let refused = |refusal: rusketja::Refusal| panic!("face {face}, N {n}, a {a}, b {b} refused with {}", refusal.0);
    rusketja::sample(patches, face, n, a, b).unwrap_or_else(refused)
}

pub fn common_multiple(points: &[Fraction; 16]) -> i128 {
    fn common_divisor(a: i128, b: i128) -> i128 {
        if b == 0 {
            a
        } else {
            common_divisor(b, a % b)
        }
    }
    points.iter().fold(1, |all, point| all / common_divisor(all, point.divisor) * point.divisor)
}

/// At most one unit from the exact surface in each coordinate, in whole numbers, at some places of some faces.
pub fn distance(mesh: &Model, patches: &[i32], n: usize, random: &mut Random, tally: &mut Tally) {
    let surface = Surface::new(mesh);
    for _ in 0..mesh.faces.min(12) {
        let face = random.below(mesh.faces);
        let points = surface.patch(face);
        let multiple = common_multiple(&points);
        for _ in 0..4 {
            let (a, b) = (place(n, random), place(n, random));
            let sample = library_sample(patches, face, n, a, b);
            let unit = (n as i128).pow(6) * multiple;
            for (x, &coordinate) in sample.iter().enumerate() {
                let apart = (coordinate as i128 * unit - exact(&points, multiple, n, a, b, x)).abs();
                assert!(
                    apart <= unit,
                    "distance: face {face}, N {n}, a {a}, b {b}, coordinate {x}: {apart} over {unit}"
                );
                tally.farthest = tally.farthest.max((apart as f64 / unit as f64 * 1e6) as u64);
            }
            tally.distances += 1;
        }
    }
}

/// The exact surface times 256, N^6 and the common multiple.
pub fn exact(points: &[Fraction; 16], multiple: i128, n: usize, a: usize, b: usize, x: usize) -> i128 {
    let (along_u, along_v) = (weights(n, a), weights(n, b));
    let term = |number: usize| {
        let weight = along_u[number % 4] * along_v[number / 4];
        weight * 256 * points[number].over[x] * (multiple / points[number].divisor)
    };
    (0..16).map(term).sum()
}

/// Place t of side 4f + s.
fn side_place(side: usize, n: usize, t: usize) -> (usize, usize, usize) {
    let (a, b) = [(t, 0), (n, t), (n - t, n), (0, n - t)][side % 4];
    (side / 4, a, b)
}

/// Place t of a side and place N - t of its mate, the same three numbers.
pub fn seam(mesh: &Model, patches: &[i32], n: usize, random: &mut Random, tally: &mut Tally) {
    let surface = Surface::new(mesh);
    for _ in 0..(4 * mesh.faces).min(60) {
        let side = random.below(4 * mesh.faces);
        let Some(mate) = surface.mate(side) else {
            continue;
        };
        for t in [0, n, random.below(n + 1), random.below(n + 1)] {
            let (face, a, b) = side_place(side, n, t);
            let (other, c, d) = side_place(mate, n, n - t);
            let (here, there) = (library_sample(patches, face, n, a, b), library_sample(patches, other, n, c, d));
            assert_eq!(here, there, "seam: side {side}, mate {mate}, N {n}, place {t}");
            tally.seams += 1;
        }
    }
}

/// The patch list and the marks of the library for a mesh that must be accepted.
pub fn library_marks(mesh: &Model) -> (Vec<i32>, Vec<u8>) {
    let (mut twins, mut patches) = (vec![0; 4 * mesh.faces], vec![0; 48 * mesh.faces]);
    let mut exact = vec![7; 16 * mesh.faces];
    let refused = |refusal: rusketja::Refusal| panic!("an accepted mesh is refused with {}", refusal.0);
    rusketja::patches(&mesh.lend(), &mut twins, &mut patches, &mut exact).unwrap_or_else(refused);
    (patches, exact)
}

/// The patch list alone.
pub fn library_patches(mesh: &Model) -> Vec<i32> {
    library_marks(mesh).0
}

/// The samples of the renumbered mesh at matching places.
pub fn renumbering(mesh: &Model, patches: &[i32], n: usize, random: &mut Random, tally: &mut Tally) {
    let change = Renumbering::random(mesh, random);
    let new = library_patches(&change.apply(mesh));
    for _ in 0..(4 * mesh.faces).min(60) {
        let (face, a, b) = (random.below(mesh.faces), place(n, random), place(n, random));
        let (other, c, d) = change.matching(face, n, a, b);
        let (here, there) = (library_sample(patches, face, n, a, b), library_sample(&new, other, n, c, d));
        assert_eq!(here, there, "renumbering: face {face} and {other}, N {n}, ({a}, {b}) and ({c}, {d})");
        tally.matches += 1;
    }
    tally.renumbered += 1;
}

/// The counts of the library for a mesh that must be accepted.
fn library_counts(mesh: &Model) -> rusketja::Counts {
    let refused = |refusal: rusketja::Refusal| panic!("an accepted mesh is refused with {}", refusal.0);
    rusketja::check(&mesh.lend(), &mut vec![0; 4 * mesh.faces]).unwrap_or_else(refused)
}

/// The image that the library writes of a mesh that must be accepted.
pub fn library_image(mesh: &Model) -> Model {
    let mut image = mesh.filled(mesh.lengths(), &mut Random::case(0, 0, 0));
    let refused = |refusal: rusketja::Refusal| panic!("the mirror refuses an accepted mesh with {}", refusal.0);
    rusketja::mirror(&mesh.lend(), &mut image.positions, &mut image.tags, &mut image.indices).unwrap_or_else(refused);
    image
}

/// The image is accepted with the same counts, has the mesh as its own image, and has at (b, a) what the mesh has at (a, b), but for
/// the sign of x.
pub fn mirror(mesh: &Model, patches: &[i32], n: usize, random: &mut Random, tally: &mut Tally) {
    let image = library_image(mesh);
    assert_eq!(library_counts(&image), library_counts(mesh), "mirror: the counts of the image, left, and of the mesh");
    assert!(library_image(&image) == *mesh, "mirror: the image of the image is another mesh");
    let new = library_patches(&image);
    for _ in 0..(4 * mesh.faces).min(60) {
        let (face, a, b) = (random.below(mesh.faces), place(n, random), place(n, random));
        let [x, y, z] = library_sample(patches, face, n, a, b);
        let there = library_sample(&new, face, n, b, a);
        assert_eq!(there, [-x, y, z], "mirror: face {face}, N {n}, ({b}, {a}) of the image and ({a}, {b}) of the mesh");
        tally.reflections += 1;
    }
    tally.images += 1;
}
