//! The marks of control points and of samples: on meshes with exact points, on any lists, of every byte and every length, and by hand.

use crate::compare::{self, Lent};
use crate::document::{self, Surface};
use crate::mark_tally::MarkTally;
use crate::model::{Model, Renumbering, Shown};
use crate::random::Random;
use crate::shapes::{self, LIMIT};
use crate::tally::Tally;
use crate::worked::{model, square, strip};
use crate::{any_place, cases, claim, meshes, patch_list, seed, whole_run};

/// A face, N, a and b.
type Place = [usize; 4];
type Answer = Result<([i32; 3], bool), u8>;

/// The library's answer.
fn marked(patches: &[i32], exact: &[u8], [face, n, a, b]: Place) -> Answer {
    let answer = rusketja::marked_sample(patches, exact, face, n, a, b);
    answer.map(|marked| (marked.point, marked.exact)).map_err(|refusal| refusal.0)
}

/// The marked sample against the rules, and its point against the sample call.
fn call(patches: &[i32], exact: &[u8], place: Place, tally: &mut MarkTally) -> Answer {
    let [face, n, a, b] = place;
    let answer = marked(patches, exact, place);
    let case = format!("the marked sample of face {face}, N {n}, a {a}, b {b}");
    assert_eq!(answer, document::marked_sample(patches, exact, face, n, a, b), "{case}, left: library");
    let sample = rusketja::sample(patches, face, n, a, b).map_err(|refusal| refusal.0);
    tally.answers[answer.err().unwrap_or(0) as usize] += 1;
    match answer {
        Ok((point, mark)) => {
            assert_eq!(sample, Ok(point), "{case}, right: its point");
            let whole = document::sample_fraction(patches, face, n, a, b).whole(1);
            let all = exact[16 * face..][..16].iter().all(|&byte| byte == 1);
            tally.sample(all, whole, 0 < a && a < n && 0 < b && b < n);
            assert_eq!(mark, all && whole, "{case}: its mark");
        }
        Err(12) if sample != Err(12) => {
            tally.short_alone[sample.map_or_else(|number| number - 12, |_| 0) as usize] += 1
        }
        Err(number) => assert_eq!(sample, Err(number), "{case}, right: its refusal"),
    }
    answer
}

/// A mesh whose coordinates are multiples of the divisors of one of its faces, where the range has such, but for some of them.
fn with_exact_points(random: &mut Random) -> Model {
    let mut mesh = shapes::accepted(random);
    let multiple = claim::common_multiple(&Surface::new(&mesh).patch(random.below(mesh.faces)));
    // 256 holds every power of two that a divisor has.
    let odd = (multiple >> multiple.trailing_zeros()) as i64;
    let step = if odd <= LIMIT { odd } else { 1 };
    mesh.positions.iter_mut().for_each(|x| *x = (step * random.within(-(LIMIT / step), LIMIT / step)) as i32);
    for _ in 0..random.pick(&[0, 0, 1, 3]) {
        let at = random.below(mesh.positions.len());
        mesh.positions[at] -= mesh.positions[at].signum();
    }
    mesh
}

/// Steps that divide often, and any others.
fn steps(random: &mut Random) -> usize {
    match random.below(3) {
        0 => 1 + random.below(32),
        _ => random.pick(&[1, 2, 2, 3, 4, 6, 8]),
    }
}

/// A place of a face, often on its rim.
fn place(faces: usize, n: usize, random: &mut Random) -> Place {
    [random.below(faces), n, claim::place(n, random), claim::place(n, random)]
}

/// A sample that is marked, of the lists of one patch call, is the exact surface's point.
fn on_the_surface(surface: &Surface, [face, n, a, b]: Place, point: [i32; 3]) {
    let points = surface.patch(face);
    let multiple = claim::common_multiple(&points);
    let unit = (n as i128).pow(6) * multiple;
    for (x, &coordinate) in point.iter().enumerate() {
        let exact = claim::exact(&points, multiple, n, a, b, x);
        assert_eq!(coordinate as i128 * unit, exact, "face {face}, N {n}, a {a}, b {b}, coordinate {x}, right: exact");
    }
}

/// The renumbered mesh has the marks of the points, and the marked samples, at matching places.
fn renumbering(mesh: &Model, lists: &Lent, n: usize, random: &mut Random, tally: &mut MarkTally) {
    let change = Renumbering::random(mesh, random);
    let (patches, exact) = claim::library_marks(&change.apply(mesh));
    for (face, number) in (0..mesh.faces).flat_map(|face| (0..16).map(move |number| (face, number))) {
        let (other, i, j) = change.matching(face, 3, number % 4, number / 4);
        assert_eq!(exact[16 * other + i + 4 * j], lists.exact[16 * face + number], "face {face}, point {number}");
    }
    for _ in 0..20 {
        let [face, n, a, b] = place(mesh.faces, n, random);
        let (other, c, d) = change.matching(face, n, a, b);
        let here = marked(&lists.patches, &lists.exact, [face, n, a, b]);
        assert_eq!(marked(&patches, &exact, [other, n, c, d]), here, "face {face}, N {n}, ({a}, {b}), right");
        tally.matches += 1;
    }
}

/// The mirror image has the marks with i and j exchanged, and the marked samples with a and b, but for the sign of x.
fn mirror(mesh: &Model, lists: &Lent, n: usize, random: &mut Random, tally: &mut MarkTally) {
    let (patches, exact) = claim::library_marks(&claim::library_image(mesh));
    for (face, number) in (0..mesh.faces).flat_map(|face| (0..16).map(move |number| (face, number))) {
        let other = 16 * face + number / 4 + 4 * (number % 4);
        assert_eq!(exact[other], lists.exact[16 * face + number], "face {face}, point {number}");
    }
    for _ in 0..20 {
        let [face, n, a, b] = place(mesh.faces, n, random);
        let here = marked(&lists.patches, &lists.exact, [face, n, a, b]).map(|([x, y, z], mark)| ([-x, y, z], mark));
        assert_eq!(marked(&patches, &exact, [face, n, b, a]), here, "face {face}, N {n}, ({a}, {b}), right");
        tally.reflections += 1;
    }
}

#[test]
fn meshes_with_exact_points() {
    let (mut tally, mut marks) = (Tally::default(), MarkTally::default());
    cases("meshes with exact points", 14, meshes() / 4, |case, random| {
        let mesh = with_exact_points(random);
        let _shown = Shown { case, mesh: &mesh };
        let lent = Lent::enough(&mesh, random);
        let lists = compare::mesh_calls(&mesh, &lent, &mut tally).expect("an accepted mesh");
        for (place, &mark) in lists.exact[..16 * mesh.faces].iter().enumerate() {
            marks.points[place % 16][mark as usize] += 1;
        }
        let surface = Surface::new(&mesh);
        for _ in 0..40 {
            let place = place(mesh.faces, steps(random), random);
            let (point, mark) = call(&lists.patches, &lists.exact, place, &mut marks).expect("a marked sample");
            if mark {
                on_the_surface(&surface, place, point);
            }
        }
        renumbering(&mesh, &lists, steps(random), random, &mut marks);
        mirror(&mesh, &lists, steps(random), random, &mut marks);
    });
    marks.print_points();
    marks.print_samples();
    marks.print_claims();
    if whole_run() {
        marks.assert_marks();
    }
}

/// Marks for any number of faces: all 1, or now and then, or often, another byte.
fn mark_list(faces: usize, random: &mut Random) -> Vec<u8> {
    let length = 16 * random.below(faces + 2) + random.pick(&[0, 0, 0, 1, 15]);
    let (other, share) = (random.pick(&[0, 2, 3, 128, 129, 255]), random.pick(&[2, 40, 1 << 40, 1 << 40]));
    (0..length).map(|_| if random.one_in(share) { other } else { 1 }).collect()
}

#[test]
fn arbitrary_marks() {
    let mut tally = MarkTally::default();
    cases("arbitrary marks", 15, 4 * meshes(), |case, random| {
        let patches = patch_list(random);
        let exact = mark_list(patches.len() / 48, random);
        let before = (patches.clone(), exact.clone());
        let far = random.pick(&[1 << 28, 1 << 60, usize::MAX / 48, usize::MAX / 16, usize::MAX]);
        for _ in 0..8 {
            let face = if random.one_in(20) { far.wrapping_add(random.below(9)) } else { random.below(4) };
            let [n, a, b] = any_place(random);
            let shown = std::panic::catch_unwind(std::panic::AssertUnwindSafe(|| {
                let _ = call(&patches, &exact, [face, n, a, b], &mut tally);
            }));
            if let Err(failure) = shown {
                println!("FAILED {case}, face {face}, N {n}, a {a}, b {b}, patch list {patches:?}, marks {exact:?}");
                std::panic::resume_unwind(failure);
            }
        }
        assert!((patches, exact) == before, "{case}: a list was written");
    });
    tally.print_samples();
    tally.print_answers();
    if whole_run() {
        tally.assert_samples();
        tally.assert_answers();
    }
}

/// One byte of any value among ones: it counts for its own face alone, and there only 1 is yes.
#[test]
fn every_byte_of_a_face() {
    let patches = [0; 144];
    for (place, byte) in (0..48).flat_map(|place| (0..=255).map(move |byte| (place, byte))) {
        let mut exact = [1; 48];
        exact[place] = byte;
        for face in 0..3 {
            let mark = byte == 1 || place / 16 != face;
            assert_eq!(
                marked(&patches, &exact, [face, 3, 1, 2]),
                Ok(([0; 3], mark)),
                "byte {byte} at {place}, face {face}"
            );
        }
    }
}

/// A rest in one coordinate alone, of each control point: inside a face it counts; at a corner of it no point leaves one.
#[test]
fn every_coordinate_of_a_sample() {
    for (number, x) in (0..16).flat_map(|number| (0..3).map(move |x| (number, x))) {
        let mut patches = [0; 48];
        patches[3 * number + x] = 1;
        // In the middle with N = 2 each point has 1, 3 or 9 parts of 64.
        assert_eq!(marked(&patches, &[1; 16], [0, 2, 1, 1]), Ok(([0; 3], false)), "point {number}, coordinate {x}");
        patches[3 * number + x] = 64;
        let weight = [1, 3, 3, 1][number % 4] * [1, 3, 3, 1][number / 4];
        let point = [0, 1, 2].map(|y| if x == y { weight } else { 0 });
        assert_eq!(marked(&patches, &[1; 16], [0, 2, 1, 1]), Ok((point, true)), "point {number}, coordinate {x}");
        patches[3 * number + x] = 1;
        let corner = [0, 1, 2].map(|y| (x == y && number == 0) as i32);
        assert_eq!(marked(&patches, &[1; 16], [0, 2, 0, 0]), Ok((corner, true)), "point {number}, coordinate {x}");
    }
}

/// Every length of the marks at the sample, alone and before 13 and 14; then every length at the patch call.
#[test]
fn every_length_of_the_marks() {
    let (mut marks, mut tally, mut random) = (MarkTally::default(), Tally::default(), Random::case(seed(), 16, 0));
    let flat = vec![0; 144];
    let mut off = flat.clone();
    [0, 48, 96].into_iter().for_each(|place| off[place] = 268_435_457);
    for (length, face) in (0..=66).flat_map(|length| (0..4).map(move |face| (length, face))) {
        for (patches, n, behind) in [(&flat, 2, None), (&off, 2, Some(13)), (&flat, 33, Some(14)), (&off, 33, Some(13))]
        {
            let answer = call(patches, &vec![1; length], [face, n, 1, 1], &mut marks);
            let first = if length < 16 * face + 16 || face == 3 { Some(12) } else { behind };
            assert_eq!(answer.err(), first, "face {face} of 3, {length} marks, N {n}");
        }
    }
    marks.assert_answers();
    for length in 0..=50 {
        let lists = compare::mesh_calls(&strip(), &Lent::filled([8, 96, length], &mut random), &mut tally);
        assert_eq!(lists.is_some(), length >= 32, "{length} marks for two faces");
    }
    assert_eq!((tally.patches[2], tally.alone_short), (32, [0, 0, 32]));
}

/// The strip with z of vertex 2 one more: of points with x and y exact, z alone leaves a rest.
fn raised_strip() -> Model {
    let mut mesh = strip();
    mesh.positions[8] = 10;
    mesh
}

#[test]
fn marks_of_strips_and_squares() {
    let (_, exact) = claim::library_marks(&strip());
    assert_eq!(exact, [1; 32]);
    let (patches, exact) = claim::library_marks(&raised_strip());
    assert_eq!(exact[..16], [1, 1, 1, 0, 1, 1, 1, 0, 1, 1, 1, 0, 1, 1, 1, 1]);
    assert_eq!(exact[16..], [0, 0, 0, 1, 0, 0, 0, 0, 0, 0, 0, 0, 1, 1, 1, 1]);
    assert_eq!(patches[9..12], [2304, 0, 427]);
    assert_eq!(claim::library_marks(&square()).1, [1; 16]);
    let narrow = model(&[[0, 0, 0], [20, 0, 0], [20, 21, 0], [0, 21, 0]], &[[0, 1, 2, 3]]);
    assert_eq!(claim::library_marks(&narrow).1, [1, 0, 0, 1, 1, 0, 0, 1, 1, 0, 0, 1, 1, 0, 0, 1]);
}

#[test]
fn marked_samples_of_strips_and_squares() {
    let (patches, exact) = claim::library_marks(&strip());
    assert_eq!(marked(&patches, &exact, [0, 2, 1, 1]), Ok(([1152, 1152, 24], true)));
    // Every control point is exact, and the sample is not.
    assert_eq!(marked(&patches, &exact, [0, 3, 1, 1]), Ok(([768, 768, 9], false)));
    // The corner itself is exact, as is its sample; other points of its face are not.
    let (patches, exact) = claim::library_marks(&raised_strip());
    assert_eq!(marked(&patches, &exact, [0, 1, 0, 0]), Ok(([0, 0, 0], false)));
    let (mut patches, mut exact) = claim::library_marks(&square());
    assert_eq!(marked(&patches, &exact, [0, 2, 1, 0]), Ok(([2688, 0, 0], true)));
    assert_eq!(marked(&patches, &exact, [0, 2, 1, 1]), Ok(([2688, 2688, 0], true)));
    assert_eq!(marked(&patches, &exact, [0, 7, 1, 1]), Ok(([768, 768, 0], true)));
    exact[5] = 2;
    assert_eq!(marked(&patches, &exact, [0, 2, 1, 1]), Ok(([2688, 2688, 0], false)));
    assert_eq!(marked(&patches, &exact[..15], [0, 2, 1, 1]), Err(12));
    patches[7] = 268_435_457;
    assert_eq!(marked(&patches, &exact[..15], [0, 2, 1, 1]), Err(12));
    assert_eq!(marked(&patches, &exact, [0, 2, 1, 1]), Err(13));
}
