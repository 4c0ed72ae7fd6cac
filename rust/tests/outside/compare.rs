//! Each public call held against the rules as document.rs has them: its answer, and every list that it was lent, whole.

use crate::document::{self, Four};
use crate::model::Model;
use crate::random::Random;
use crate::tally::Tally;
use std::ops::Range;

/// Lists to lend, filled with anything.
#[derive(Clone)]
pub struct Lent {
    pub twins: Vec<u16>,
    pub patches: Vec<i32>,
    pub exact: Vec<u8>,
}

impl Lent {
    /// Lists of these lengths.
    pub fn filled([twins, patches, exact]: [usize; 3], random: &mut Random) -> Lent {
        let twins = (0..twins).map(|_| random.next() as u16).collect();
        let patches = (0..patches).map(|_| random.next() as i32).collect();
        let exact = (0..exact).map(|_| random.next() as u8).collect();
        Lent { twins, patches, exact }
    }

    /// The length of each list, and the places that a face takes up in it.
    pub fn lengths(&self) -> [(usize, usize); 3] {
        [(self.twins.len(), 4), (self.patches.len(), 48), (self.exact.len(), 16)]
    }

    /// Lists that are long enough, or longer, where F is in its range.
    pub fn enough(mesh: &Model, random: &mut Random) -> Lent {
        let faces = mesh.faces.min(256);
        let (more, more_patches) = (random.pick(&[0, 0, 1, 4, 9]), random.pick(&[0, 0, 1, 48, 50]));
        let more_exact = random.pick(&[0, 0, 1, 15, 16, 17]);
        Lent::filled([4 * faces + more, 48 * faces + more_patches, 16 * faces + more_exact], random)
    }

    /// Lists of which some or all may be too short.
    pub fn any(mesh: &Model, random: &mut Random) -> Lent {
        let faces = mesh.faces.min(256);
        let any = |whole: usize, random: &mut Random| match random.below(4) {
            0 => whole,
            1 => whole.saturating_sub(1),
            2 => random.below(whole + 1),
            _ => whole + random.below(60),
        };
        Lent::filled([4, 48, 16].map(|places| any(places * faces, random)), random)
    }
}

/// The library's answer in the terms of document.rs.
fn four(answer: Result<rusketja::Counts, rusketja::Refusal>) -> Result<Four, u8> {
    answer.map(|counts| [counts.vertices, counts.faces, counts.edges, counts.boundary]).map_err(|refusal| refusal.0)
}

/// Where two lists differ first.
fn same<T: PartialEq + std::fmt::Debug>(what: &str, library: &[T], document: &[T]) {
    assert_eq!(library.len(), document.len(), "{what}: length");
    if let Some(at) = (0..library.len()).find(|&at| library[at] != document[at]) {
        panic!(
            "{what}: place {at} holds {:?} after the library's call, {:?} by the document",
            library[at], document[at]
        );
    }
}

/// The check and the patch call on these lists; what the patch call left in those of an accepted mesh.
pub fn mesh_calls(mesh: &Model, lent: &Lent, tally: &mut Tally) -> Option<Lent> {
    let before = mesh.clone();
    let (answer, twins_after) = document::check(mesh, &lent.twins);
    let mut twins = lent.twins.clone();
    assert_eq!(four(rusketja::check(&mesh.lend(), &mut twins)), answer, "the check's answer, left: library");
    same("mates after the check", &twins, &twins_after);
    tally.check[answer.err().unwrap_or(0) as usize] += 1;

    let (answer, after) = document::patches(mesh, lent);
    let mut lists = lent.clone();
    assert_eq!(
        four(rusketja::patches(&mesh.lend(), &mut lists.twins, &mut lists.patches, &mut lists.exact)),
        answer,
        "the patch call's answer, left: library"
    );
    same("mates after the patch call", &lists.twins, &after.twins);
    same("patch list after the patch call", &lists.patches, &after.patches);
    same("marks after the patch call", &lists.exact, &after.exact);
    assert!(*mesh == before, "a list of the mesh was written");
    tally.causes(&document::causes(mesh, &lent.lengths()), lent, mesh.faces);
    tally.patches[answer.err().unwrap_or(0) as usize] += 1;
    let faces = answer.map_or(0, |[_, faces, _, _]| faces);
    tally.control_values += 48 * faces as u64;
    lists.exact[..16 * faces].iter().for_each(|&mark| tally.marks[mark as usize] += 1);
    answer.is_ok().then_some(lists)
}

/// The mirror call with the lists of another mesh to write.
pub fn mirror_call(mesh: &Model, lent: &Model, tally: &mut Tally) {
    let before = mesh.clone();
    let (causes, after) = document::mirror(mesh, lent);
    let mut image = lent.clone();
    let answer = rusketja::mirror(&mesh.lend(), &mut image.positions, &mut image.tags, &mut image.indices);
    assert_eq!(
        answer.err().map(|refusal| refusal.0),
        causes.first().copied(),
        "the refusal of the mirror on lists of {:?}, left: library",
        lent.lengths()
    );
    same("positions after the mirror", &image.positions, &after.positions);
    same("tags after the mirror", &image.tags, &after.tags);
    same("faces after the mirror", &image.indices, &after.indices);
    assert!(*mesh == before, "a list of the mesh was written");
    tally.mirror(&causes, mesh.lengths(), lent.lengths());
}

/// Another length: one less, one more, or anything, once in a while the same.
fn other_length(right: usize, random: &mut Random) -> usize {
    match random.below(4) {
        0 => right.saturating_sub(1),
        1 => right + 1,
        2 => random.below(right + 1),
        _ => right + random.below(20),
    }
}

/// Another length for one list, for two or for all three.
fn other_lengths(right: [usize; 3], random: &mut Random) -> [usize; 3] {
    let lists = 1 + random.below(7);
    [0, 1, 2].map(|list| if lists >> list & 1 == 0 { right[list] } else { other_length(right[list], random) })
}

/// The mirror call on lists of the right lengths, and on lists of others.
pub fn mirror_calls(mesh: &Model, random: &mut Random, tally: &mut Tally) {
    let right = mesh.lengths();
    for lengths in [right, other_lengths(right, random)] {
        mirror_call(mesh, &mesh.filled(lengths, random), tally);
    }
}

/// The sample call and the reading at one place.
pub fn sample_calls(patches: &[i32], face: usize, n: usize, a: usize, b: usize, tally: &mut Tally) {
    let place = format!("face {face}, N {n}, a {a}, b {b}");
    let sample = rusketja::sample(patches, face, n, a, b).map_err(|refusal| refusal.0);
    let reading = rusketja::reading(patches, face, n, a, b).map_err(|refusal| refusal.0);
    if let Some(number) = document::sample_refusal(patches, face, n, a, b) {
        assert_eq!(sample, Err(number), "the sample's answer at {place}, left: library");
        assert_eq!(reading, Err(number), "the reading's answer at {place}, left: library");
        tally.samples[number as usize] += 1;
        tally.readings[number as usize] += 1;
        return;
    }
    let fraction = document::sample_fraction(patches, face, n, a, b);
    let expected = fraction.nearest();
    assert_eq!(sample, Ok(expected), "the sample at {place}, left: library");
    let doubles = reading.unwrap_or_else(|number| panic!("the reading at {place} refuses with {number}"));
    for x in 0..3 {
        assert!(
            doubles[x].is_finite() && doubles[x] * 256.0 == expected[x] as f64,
            "the reading {doubles:?} at {place} of {expected:?}"
        );
        tally.half(fraction.over[x], fraction.divisor);
    }
    tally.samples[0] += 1;
    tally.readings[0] += 1;
    tally.steps[n - 1] += 1;
}

/// The line call on a list of so many places, which stands in the midst of a longer one, filled with anything.
pub fn line_call(
    patches: &[i32],
    face: usize,
    n: usize,
    b: usize,
    places: usize,
    random: &mut Random,
    tally: &mut Tally,
) {
    const FIRST: usize = 5;
    let lent = FIRST..FIRST + places;
    let case = format!("the line of face {face}, N {n}, b {b}, {places} places lent from place {FIRST} on");
    let mut list: Vec<i32> = (0..lent.end + FIRST).map(|_| random.next() as i32).collect();
    let (causes, line) = document::line(patches, face, n, b, &list[lent.clone()]);
    let mut after = list.clone();
    after[lent.clone()].copy_from_slice(&line);
    let expected = match causes.first() {
        Some(&number) => Err(number),
        None => Ok((list[FIRST..].as_ptr(), n + 1)),
    };
    let answer = rusketja::sample_line(patches, face, n, b, &mut list[lent]);
    let answer = answer.map(|points| (points.as_ptr().cast(), points.len())).map_err(|refusal| refusal.0);
    assert_eq!(answer, expected, "{case}: the refusal, or where the points are and how many, left: library");
    same(&case, &list, &after);
    line_samples(patches, face, n, b, expected.map(|_| &line[..]));
    tally.line(&causes, n, places);
}

/// Each point of a line is the sample there; a line is refused as its first sample is, or with 17.
fn line_samples(patches: &[i32], face: usize, n: usize, b: usize, line: Result<&[i32], u8>) {
    let sample = |a: usize| rusketja::sample(patches, face, n, a, b).map_err(|refusal| refusal.0);
    match line {
        Err(number) => {
            assert_eq!(number, sample(0).err().unwrap_or(17), "face {face}, N {n}, b {b}, right: the sample")
        }
        Ok(line) => (0..=n).for_each(|a| {
            let point = [0, 1, 2].map(|x| line[3 * a + x]);
            assert_eq!(Ok(point), sample(a), "face {face}, N {n}, a {a}, b {b}, right: the sample");
        }),
    }
}

/// Every line of these faces, on lists that are long enough, or longer.
pub fn lines(patches: &[i32], faces: Range<usize>, n: usize, random: &mut Random, tally: &mut Tally) {
    for (face, b) in faces.flat_map(|face| (0..=n).map(move |b| (face, b))) {
        let places = 3 * (n + 1) + random.pick(&[0, 0, 0, 1, 2, 3, 40]);
        line_call(patches, face, n, b, places, random, tally);
    }
}

/// The four corners of each face as a part of the face list itself, and the empty part beyond it.
pub fn face_parts(indices: &[u16], random: &mut Random, tally: &mut Tally) {
    let whole = indices.len() / 4;
    let far = random.pick(&[1 << 14, 1 << 30, 1 << 62, usize::MAX / 4, usize::MAX]);
    let faces = [0, whole / 2, whole.saturating_sub(1), whole, whole + 1, far, far.wrapping_add(random.below(9))];
    for face in faces {
        let part = rusketja::face_corners(indices, face);
        if face < whole {
            assert_eq!(part, &indices[4 * face..4 * face + 4], "the corners of face {face}");
            assert!(std::ptr::eq(part.as_ptr(), &indices[4 * face]), "face {face} is not that part of the list itself");
        } else {
            assert!(part.is_empty(), "face {face} of {whole} has corners {part:?}");
        }
        tally.corner_parts += 1;
    }
}
