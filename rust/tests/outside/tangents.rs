//! The tangent call: its numbers against tangent_rules.rs, the faces beside an edge, faces begun later, new numbers, and every refusal.

use crate::model::{Model, Renumbering, Shown};
use crate::random::Random;
use crate::shapes;
use crate::tangent_rules::{minus, Masks, Rules, Vector, Vectors};
use crate::tangent_tally::TangentTally;
use crate::weights::ONE;
use crate::{cases, damage, grown, meshes, seed, whole_run};
use std::array::from_fn;

/// The call on a list of so many places, which stands in the midst of a longer one, filled with anything; what it wrote.
fn call(rules: &Rules, face: usize, places: usize, random: &mut Random, tally: &mut TangentTally) -> Option<Vectors> {
    const FIRST: usize = 5;
    let lent = FIRST..FIRST + places;
    let case = format!("the tangents of face {face}, {places} places lent from place {FIRST} on");
    let mut list: Vec<i64> = (0..lent.end + FIRST).map(|_| random.next() as i64).collect();
    let mut after = list.clone();
    let causes = rules.causes(face, places);
    let answer = rusketja::tangents(&rules.mesh.lend(), face, &mut list[lent.clone()]);
    let answer = answer.map(|found| (found.vectors().as_ptr(), read(found))).map_err(|refusal| refusal.0);
    tally.call(&causes, places);
    let Some(&number) = causes.first() else {
        let (expected, rounded) = rules.vectors(face);
        after[lent].copy_from_slice(&expected.list());
        let (start, found) = answer.unwrap_or_else(|number| panic!("{case}: refused with {number}"));
        assert_eq!(list, after, "{case}: the list, left: library");
        assert!(std::ptr::eq(start.cast(), &list[FIRST]), "{case}: what is returned is not the list itself");
        assert!(found == expected, "{case}: read by i and j");
        tally.face(rules.closed, rules.valences(face), &rounded);
        return Some(found);
    };
    assert_eq!(answer.map(|_| ()), Err(number), "{case}: the answer, left: library");
    assert!(list == after, "{case}: the list was written after refusal {number}");
    if number == 18 {
        tally.refused(rules.valences(face), places);
    }
    None
}

/// The vectors as the crate has them by i and j.
fn read(found: rusketja::Tangents) -> Vectors {
    let wide = |vector: [i64; 3]| vector.map(i128::from);
    Vectors { u: from_fn(|i| from_fn(|j| wide(found.u(i, j)))), v: from_fn(|i| from_fn(|j| wide(found.v(i, j)))) }
}

/// The library's vectors of a face that has them.
pub fn library_vectors(mesh: &Model, face: usize) -> Vectors {
    let mut list = [0; 72];
    rusketja::tangents(&mesh.lend(), face, &mut list).expect("a face with four inner corners");
    Vectors::read(&list)
}

/// The vectors of side s of a face: the three along it, and from its two inner places into the face.
pub fn side(Vectors { u, v }: &Vectors, s: usize) -> ([Vector; 3], [Vector; 2]) {
    match s {
        0 => ([u[0][0], u[1][0], u[2][0]], [v[1][0], v[2][0]]),
        1 => ([v[3][0], v[3][1], v[3][2]], [u[2][1], u[2][2]].map(minus)),
        2 => ([u[2][3], u[1][3], u[0][3]].map(minus), [v[2][2], v[1][2]].map(minus)),
        _ => ([v[0][2], v[0][1], v[0][0]].map(minus), [u[0][2], u[0][1]]),
    }
}

/// On an edge whose two faces have vectors, at both its inner places: those into the two faces add up to twice the cosine term within 7.
fn across(rules: &Rules, masks: &Masks, faces: &[Option<Vectors>], tally: &mut TangentTally) {
    let surface = rules.surface();
    for c in 0..4 * rules.mesh.faces {
        let Some(d) = surface.mate(c).filter(|&d| c < d) else { continue };
        let (Some(here), Some(there)) = (&faces[c / 4], &faces[d / 4]) else { continue };
        let ((along, into), (back, beyond)) = (side(here, c % 4), side(there, d % 4));
        assert_eq!(along, [2, 1, 0].map(|i| minus(back[i])), "the vectors along side {c} and back along its mate {d}");
        let valences = rules.valences(c / 4);
        let [n0, n1] = [valences[c % 4], valences[(c + 1) % 4]].map(|n| n.expect("an inner corner"));
        let [c0, c1] = [n0, n1].map(|n| masks.cosine(n));
        let near_start: Vector = from_fn(|x| 2 * c0 * along[1][x] - c1 * along[0][x]);
        let near_end: Vector = from_fn(|x| c0 * along[2][x] - 2 * c1 * along[1][x]);
        let start = farthest(near_start, into[0], beyond[1]);
        let end = farthest(near_end, into[1], beyond[0]);
        assert!(start.max(end) <= 7 * 3 * ONE, "side {c}, mate {d}: {start} and {end} over {}", 3 * ONE);
        tally.end(n0, n1, 100 * start / (3 * ONE));
        tally.end(n1, n0, 100 * end / (3 * ONE));
    }
}

/// How far the sum of two vectors is from twice a cosine term, in its farthest coordinate; the term and the distance are times 3 * 2^20.
fn farthest(term: Vector, one: Vector, other: Vector) -> i128 {
    (0..3).map(|x| (3 * ONE * (one[x] + other[x]) - 2 * term[x]).abs()).fold(0, i128::max)
}

/// The same face begun one corner later.
fn turned(Vectors { u, v }: &Vectors) -> Vectors {
    Vectors { u: from_fn(|i| from_fn(|j| v[3 - j][i])), v: from_fn(|i| from_fn(|j| minus(u[2 - j][i]))) }
}

/// A face begun later where it stands.
fn turning(mesh: &Model, face: usize, vectors: &Vectors, tally: &mut TangentTally) {
    let (mut mesh, mut expected) = (mesh.clone(), vectors.clone());
    for later in 1..4 {
        mesh.indices[4 * face..4 * face + 4].rotate_left(1);
        expected = turned(&expected);
        assert_eq!(library_vectors(&mesh, face), expected, "face {face} begun {later} corners later, left: library");
        tally.turned[later] += 1;
    }
}

/// Every vertex and face with a new number, and every face begun at any of its corners.
fn renumbering(mesh: &Model, faces: &[Option<Vectors>], random: &mut Random, tally: &mut TangentTally) {
    let change = Renumbering::random(mesh, random);
    let new = change.apply(mesh);
    for (face, vectors) in faces.iter().enumerate() {
        let Some(vectors) = vectors else { continue };
        let (place, later) = change.face(face);
        let expected = (0..later).fold(vectors.clone(), |vectors, _| turned(&vectors));
        let case = format!("face {face}, now face {place} begun {later} corners later, left: library");
        assert_eq!(library_vectors(&new, place), expected, "{case}");
        tally.renumbered[later] += 1;
    }
}

/// The number of a face that is not there: the next, and numbers that are off in their high bits alone, or the largest.
fn no_face(mesh: &Model, random: &mut Random) -> usize {
    let far = random.pick(&[1 << 8, 1 << 10, 1 << 16, 1 << 32, 1 << 61, 1 << 62, 1 << 63]);
    match random.below(4) {
        0 => mesh.faces,
        1 => usize::MAX,
        2 => mesh.faces.wrapping_add(random.below(300)).max(mesh.faces),
        _ => far + random.below(mesh.faces.clamp(1, 256)),
    }
}

/// The places of a list of another length than 72.
fn other_places(random: &mut Random) -> usize {
    match random.below(6) {
        0 => 71,
        1 => 73,
        2 => 0,
        3 => random.below(72),
        4 => 73 + random.below(300),
        _ => 72 + random.pick(&[72, 1 << 8, 1 << 16]),
    }
}

/// Calls that are refused: a face that is not there, and lists of another length.
fn refused_calls(rules: &Rules, random: &mut Random, tally: &mut TangentTally) {
    for places in [72, other_places(random)] {
        call(rules, no_face(rules.mesh, random), places, random, tally);
    }
    let face = random.below(rules.mesh.faces.clamp(1, 256));
    call(rules, face, other_places(random), random, tally);
}

/// Every face of an accepted mesh, and what is claimed of the vectors.
fn hold(mesh: &Model, masks: &Masks, random: &mut Random, tally: &mut TangentTally) {
    let (rules, before) = (Rules::new(mesh, masks), mesh.clone());
    let faces: Vec<Option<Vectors>> = (0..mesh.faces).map(|face| call(&rules, face, 72, random, tally)).collect();
    refused_calls(&rules, random, tally);
    across(&rules, masks, &faces, tally);
    renumbering(mesh, &faces, random, tally);
    let face = random.below(mesh.faces);
    if let Some(vectors) = &faces[face] {
        turning(mesh, face, vectors, tally);
    }
    assert!(*mesh == before, "a list of the mesh was written");
}

#[test]
fn tangents_of_accepted_meshes() {
    let (mut tally, masks) = (TangentTally::default(), Masks::new());
    cases("tangents of accepted meshes", 9, meshes() / 6, |case, random| {
        let mesh = if random.one_in(2) { shapes::accepted(random) } else { grown::accepted(random) };
        let _shown = Shown { case, mesh: &mesh };
        hold(&mesh, &masks, random, &mut tally);
    });
    tally.print_answers("tangents of accepted meshes");
    tally.print_faces();
    tally.print_claims();
    if whole_run() {
        tally.assert_own_answers();
        tally.assert_faces();
        tally.assert_claims();
    }
}

#[test]
fn tangents_of_damaged_meshes() {
    let (mut tally, masks) = (TangentTally::default(), Masks::new());
    cases("tangents of damaged meshes", 10, 3 * meshes(), |case, random| {
        let mesh = damage::damaged(random);
        let _shown = Shown { case, mesh: &mesh };
        let rules = Rules::new(&mesh, &masks);
        call(&rules, random.below(mesh.faces.clamp(1, 256)), 72, random, &mut tally);
        refused_calls(&rules, random, &mut tally);
    });
    tally.print_answers("tangents of damaged meshes");
    if whole_run() {
        tally.assert_refusals();
    }
}

/// The x of all vertices at the limits such that the x of one vector is as large as it can be, and y the other way round: each vertex is put
/// where the vector points with this vertex alone at the limit, all others at 0.
fn stretched(mesh: &Model, alone: &[Vec<i64>], vector: usize) -> Model {
    let mut new = mesh.clone();
    for (p, numbers) in alone.iter().enumerate() {
        let x = if numbers[3 * vector] < 0 { -shapes::LIMIT } else { shapes::LIMIT } as i32;
        new.positions[3 * p..3 * p + 3].copy_from_slice(&[x, -x, x]);
    }
    new
}

#[test]
fn largest_tangents() {
    let (mut tally, masks, mut largest) = (TangentTally::default(), Masks::new(), [0; 24]);
    cases("largest tangents", 13, 60, |case, random| {
        let mut mesh = grown::accepted(random);
        let rules = Rules::new(&mesh, &masks);
        // The face with the most faces around its corners.
        let around = |face: usize| rules.valences(face).into_iter().sum::<Option<usize>>();
        let Some((_, face)) = (0..mesh.faces).filter_map(|face| Some((around(face)?, face))).max() else { return };
        mesh.positions.fill(0);
        let mut alone = Vec::new();
        for p in 0..mesh.vertices {
            mesh.positions[3 * p] = shapes::LIMIT as i32;
            alone.push(library_vectors(&mesh, face).list());
            mesh.positions[3 * p] = 0;
        }
        for vector in 0..24 {
            let mesh = stretched(&mesh, &alone, vector);
            let _shown = Shown { case, mesh: &mesh };
            let found = call(&Rules::new(&mesh, &masks), face, 72, random, &mut tally).expect("an inner face").list();
            let [x, y] = [found[3 * vector], found[3 * vector + 1]];
            assert_eq!(x, -y, "vector {vector}");
            largest[vector] = x.max(largest[vector]);
        }
    });
    println!("  largest numbers of each vector: {largest:?}");
    if whole_run() {
        assert!(largest.iter().all(|&number| number > 1 << 28), "a vector was not seen large");
    }
}

/// Every length from 0 to twice as many and one, and some that are right in their low bits alone; every face of a mesh and some beyond it.
#[test]
fn every_length_and_face_of_tangents() {
    let (mut tally, masks, mut random) = (TangentTally::default(), Masks::new(), Random::case(seed(), 11, 0));
    let mut mesh = shapes::block(2, 2, 3).model();
    shapes::place(&mut mesh, &mut random);
    let rules = Rules::new(&mesh, &masks);
    for places in (0..=145).chain([72 + 256, 72 + 65_536]) {
        for face in [0, mesh.faces - 1, mesh.faces, usize::MAX] {
            call(&rules, face, places, &mut random, &mut tally);
        }
    }
    let far = (8..64).flat_map(|bit| [0, 3].map(|face| face + (1 << bit)));
    for face in (0..mesh.faces + 300).chain(far).chain([usize::MAX - 1, usize::MAX]) {
        call(&rules, face, 72, &mut random, &mut tally);
    }
    tally.print_answers("every length and face of tangents");
}

/// A torus with one face taken out: of the faces around the hole four have one corner on the rim, each another, and four have two.
#[test]
fn tangents_beside_a_hole() {
    let (mut tally, masks, mut random) = (TangentTally::default(), Masks::new(), Random::case(seed(), 12, 0));
    let mut quads = shapes::sheet(5, 5, true, true);
    quads.faces.remove(12);
    let mut mesh = quads.model();
    shapes::place(&mut mesh, &mut random);
    hold(&mesh, &masks, &mut random, &mut tally);
    let refused: Vec<u64> = tally.rim.iter().map(|seen| seen[0]).collect();
    assert_eq!(refused, [0, 1, 1, 1, 1, 0, 1, 0, 1, 1, 0, 0, 1, 0, 0, 0]);
    assert_eq!(tally.answers[0], 16);
}
