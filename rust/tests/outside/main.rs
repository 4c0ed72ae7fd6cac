//! The library held against an independent reading of docs/SPECIFICATION.md's rules, on random meshes and patch lists and on whole tables.
//!
//! RUSKETJA_SEED sets the seed, RUSKETJA_MESHES the number of accepted meshes, RUSKETJA_CASE runs one case alone.

mod claim;
mod compare;
mod damage;
mod document;
mod grown;
mod interval;
mod lines;
mod mark_tally;
mod marks;
mod model;
mod random;
mod shapes;
mod tally;
mod tangent_rules;
mod tangent_tally;
mod tangent_worked;
mod tangents;
mod weights;
mod worked;

use compare::Lent;
use model::Shown;
use random::Random;
use shapes::Quads;
use tally::Tally;

fn setting(name: &str, usual: u64) -> u64 {
    let read = |text: String| text.parse().unwrap_or_else(|_| panic!("{name} is not a number: {text}"));
    std::env::var(name).map_or(usual, read)
}

fn seed() -> u64 {
    setting("RUSKETJA_SEED", 20_261_115)
}

/// Runs every case of a test, or the one that was asked for, each with its own stream of numbers.
fn cases(test: &str, number: u64, count: u64, mut run: impl FnMut(&str, &mut Random)) {
    let seed = seed();
    let one = std::env::var("RUSKETJA_CASE").is_ok().then(|| setting("RUSKETJA_CASE", 0));
    let range = one.map_or(0..count, |case| case..case + 1);
    let start = std::time::Instant::now();
    for case in range {
        run(&format!("{test}: RUSKETJA_SEED={seed} RUSKETJA_CASE={case}"), &mut Random::case(seed, number, case));
    }
    println!("{test}: seed {seed}, {count} cases, {:.1} s", start.elapsed().as_secs_f64());
}

/// Whether all cases ran, so that what was covered may be asserted.
fn whole_run() -> bool {
    std::env::var("RUSKETJA_CASE").is_err()
}

fn meshes() -> u64 {
    setting("RUSKETJA_MESHES", 12_000)
}

#[test]
fn accepted_meshes() {
    let mut tally = Tally::default();
    cases("accepted meshes", 1, meshes(), |case, random| {
        let mesh = shapes::accepted(random);
        let _shown = Shown { case, mesh: &mesh };
        tally.mesh(&mesh);
        let lent = Lent::enough(&mesh, random);
        let patches = compare::mesh_calls(&mesh, &lent, &mut tally).expect("an accepted mesh").patches;
        let n = 1 + random.below(32);
        for _ in 0..20 {
            let (face, a, b) = (random.below(mesh.faces), claim::place(n, random), claim::place(n, random));
            compare::sample_calls(&patches, face, n, a, b, &mut tally);
        }
        claim::distance(&mesh, &patches, n, random, &mut tally);
        claim::seam(&mesh, &patches, n, random, &mut tally);
        claim::renumbering(&mesh, &patches, n, random, &mut tally);
        compare::face_parts(&mesh.indices, random, &mut tally);
        compare::mirror_call(&mesh, &mesh.filled(mesh.lengths(), random), &mut tally);
        claim::mirror(&mesh, &patches, n, random, &mut tally);
        // Every line of the mesh with few steps, and of one face with up to 32.
        compare::lines(&patches, 0..mesh.faces, 1 + random.below(8), random, &mut tally);
        let face = random.below(mesh.faces);
        compare::lines(&patches, face..face + 1, n, random, &mut tally);
    });
    tally.print_answers("accepted meshes");
    tally.print_mirror();
    tally.print_shapes();
    tally.print_samples("accepted meshes");
    tally.print_lines("accepted meshes");
    tally.print_claim();
    if whole_run() {
        tally.assert_shapes();
        tally.assert_claim();
    }
}

#[test]
fn every_place_of_some_faces() {
    let mut tally = Tally::default();
    cases("every place of some faces", 6, meshes() / 400, |case, random| {
        let mesh = shapes::accepted(random);
        let _shown = Shown { case, mesh: &mesh };
        let patches = claim::library_patches(&mesh);
        for n in 1..=32 {
            let face = random.below(mesh.faces);
            for (a, b) in (0..=n).flat_map(|a| (0..=n).map(move |b| (a, b))) {
                compare::sample_calls(&patches, face, n, a, b, &mut tally);
            }
            compare::lines(&patches, face..face + 1, n, random, &mut tally);
        }
    });
    tally.print_samples("every place of some faces");
    tally.print_lines("every place of some faces");
}

#[test]
fn damaged_meshes() {
    let mut tally = Tally::default();
    cases("damaged meshes", 2, 3 * meshes(), |case, random| {
        let mesh = damage::damaged(random);
        let _shown = Shown { case, mesh: &mesh };
        let lent = if random.one_in(8) { Lent::any(&mesh, random) } else { Lent::enough(&mesh, random) };
        let lists = compare::mesh_calls(&mesh, &lent, &mut tally);
        compare::face_parts(&mesh.indices, random, &mut tally);
        compare::mirror_calls(&mesh, random, &mut tally);
        if let Some(lists) = lists {
            compare::lines(&lists.patches, 0..mesh.faces, 1 + random.below(8), random, &mut tally);
        }
    });
    tally.print_answers("damaged meshes");
    tally.print_causes();
    tally.print_mirror();
    tally.print_lengths();
    tally.print_lines("damaged meshes");
    if whole_run() {
        tally.assert_refusals();
        tally.assert_mirror();
    }
}

/// A patch list of any numbers: small, up to the limit, at the limit, now and then beyond it.
pub fn patch_list(random: &mut Random) -> Vec<i32> {
    const LIMIT: i64 = 268_435_456;
    let kind = random.below(5);
    let length = 48 * random.below(4) + random.pick(&[0, 0, 1, 47, 48]);
    let beyond = random.pick(&[LIMIT + 1, -LIMIT - 1, i32::MAX as i64, i32::MIN as i64]);
    let number = |random: &mut Random| match kind {
        0 | 1 => random.within(-LIMIT, LIMIT),
        2 => random.pick(&[-LIMIT, LIMIT]),
        3 => random.within(-3, 3),
        _ if random.one_in(60) => beyond,
        _ => random.within(-LIMIT, LIMIT),
    };
    (0..length).map(|_| number(random) as i32).collect()
}

/// An N and a place, each now and then off its range, near or far.
pub fn any_place(random: &mut Random) -> [usize; 3] {
    let n = match random.below(12) {
        0 => random.pick(&[0, 33, 34, 256 + 4, (1 << 16) + 4, (1 << 32) + 4, usize::MAX]),
        1 | 2 => random.pick(&[1, 2, 4, 8, 16, 32]),
        _ => 1 + random.below(32),
    };
    let place = |random: &mut Random| match random.below(30) {
        0 => n.wrapping_add(random.pick(&[1, 2, 256, 1 << 16, 1 << 32, usize::MAX])),
        _ => claim::place(n.min(40), random),
    };
    [n, place(random), place(random)]
}

#[test]
fn arbitrary_patch_lists() {
    let mut tally = Tally::default();
    cases("arbitrary patch lists", 3, 4 * meshes(), |case, random| {
        let patches = patch_list(random);
        let before = patches.clone();
        let far = random.pick(&[1 << 28, 1 << 60, usize::MAX / 48, usize::MAX]);
        let faces = patches.len() / 48;
        for _ in 0..8 {
            let face = if random.one_in(20) {
                far.wrapping_add(random.below(9))
            } else {
                random.below(faces + 2).min(random.below(faces + 3))
            };
            let [n, a, b] = any_place(random);
            let shown = std::panic::catch_unwind(std::panic::AssertUnwindSafe(|| {
                compare::sample_calls(&patches, face, n, a, b, &mut tally);
                compare::line_call(&patches, face, n, b, lines::any_places(n, random), random, &mut tally);
            }));
            if let Err(failure) = shown {
                println!("FAILED {case}, face {face}, N {n}, a {a}, b {b}, patch list ({}) {patches:?}", patches.len());
                std::panic::resume_unwind(failure);
            }
        }
        assert!(patches == before, "{case}: the patch list was written");
    });
    tally.print_samples("arbitrary patch lists");
    tally.print_lines("arbitrary patch lists");
    tally.print_line_causes();
    if whole_run() {
        tally.assert_samples();
        tally.assert_lines();
    }
}

/// The three calls on a mesh of these faces, and its lines where it is accepted.
fn hold(case: &str, quads: &Quads, lent: &Lent, random: &mut Random, tally: &mut Tally) {
    let mut mesh = quads.model();
    mesh.positions.iter_mut().enumerate().for_each(|(at, x)| *x = (at * at) as i32);
    let _shown = Shown { case, mesh: &mesh };
    let lists = compare::mesh_calls(&mesh, lent, tally);
    compare::mirror_calls(&mesh, random, tally);
    if let Some(lists) = lists {
        compare::lines(&lists.patches, 0..mesh.faces, 1 + random.below(32), random, tally);
    }
}

/// The face with these digits in the base as its corners.
fn face_of(number: usize, base: usize) -> [usize; 4] {
    [number % base, number / base % base, number / base / base % base, number / base / base / base % base]
}

#[test]
fn every_small_mesh() {
    let mut tally = Tally::default();
    let mut random = Random::case(seed(), 4, 0);
    let lent = Lent::filled([13, 150, 50], &mut random);
    for number in 0..5usize.pow(8) {
        let faces = vec![face_of(number % 625, 5), face_of(number / 625, 5)];
        hold(
            "every pair of faces over four vertices and one more number",
            &Quads { vertices: 4, faces },
            &lent,
            &mut random,
            &mut tally,
        );
    }
    let distinct = |face: &[usize; 4]| (0..4).all(|s| (0..s).all(|r| face[r] != face[s]));
    for vertices in 5..=6 {
        let all: Vec<[usize; 4]> = (0..vertices * vertices * vertices * vertices)
            .map(|number| face_of(number, vertices))
            .filter(distinct)
            .collect();
        for (one, other) in all.iter().flat_map(|one| all.iter().map(move |other| (one, other))) {
            let quads = Quads { vertices, faces: vec![[0, 1, 2, 3], *one, *other] };
            hold("every three faces, the first 0 1 2 3", &quads, &lent, &mut random, &mut tally);
        }
    }
    tally.print_answers("every small mesh");
    tally.print_mirror();
    tally.print_lengths();
    tally.print_lines("every small mesh");
}
