//! Every call of a kind, one behind the other, by the library or by a Rust form: what is measured, and what is compared first.

use crate::line::PLACES;
use rusketja::{MarkedPoint, Mesh, Refusal, PATCH_MARKS, PATCH_VALUES, TANGENT_VALUES};
use std::hint::black_box;
use std::ops::Range;

pub fn twins(mesh: &Mesh) -> Vec<u16> {
    vec![0; 4 * mesh.faces]
}

pub fn controls(mesh: &Mesh) -> Vec<i32> {
    vec![0; PATCH_VALUES * mesh.faces]
}

pub fn marks(mesh: &Mesh) -> Vec<u8> {
    vec![0; PATCH_MARKS * mesh.faces]
}

/// Something for each place of some faces.
#[inline(always)]
fn at_every_place(faces: Range<usize>, n: usize, mut take: impl FnMut(usize, usize, usize)) {
    for face in faces {
        for b in 0..=n {
            for a in 0..=n {
                take(face, a, b);
            }
        }
    }
}

/// All samples of some faces, by any of the sample calls.
pub fn samples(
    controls: &[i32],
    faces: Range<usize>,
    n: usize,
    sample: impl Fn(&[i32], usize, usize, usize, usize) -> Result<[i32; 3], Refusal>,
    mut take: impl FnMut([i32; 3]),
) {
    at_every_place(faces, n, |face, a, b| {
        take(sample(black_box(controls), face, black_box(n), a, b).expect("a sample of an accepted mesh"));
    });
}

/// All marked samples of some faces, by any of the marked sample calls.
pub fn marked_samples(
    (controls, exact): (&[i32], &[u8]),
    faces: Range<usize>,
    n: usize,
    sample: impl Fn(&[i32], &[u8], usize, usize, usize, usize) -> Result<MarkedPoint, Refusal>,
    mut take: impl FnMut(MarkedPoint),
) {
    at_every_place(faces, n, |face, a, b| {
        let point = sample(black_box(controls), black_box(exact), face, black_box(n), a, b);
        take(point.expect("a marked sample of an accepted mesh"));
    });
}

/// All samples of some faces, by any of the line calls.
pub fn lines(
    controls: &[i32],
    faces: Range<usize>,
    n: usize,
    sample_line: impl for<'a> Fn(&[i32], usize, usize, usize, &'a mut [i32]) -> Result<&'a [[i32; 3]], Refusal>,
    mut take: impl FnMut(&[[i32; 3]]),
) {
    let mut line = [0; PLACES];
    for face in faces {
        for b in 0..=n {
            let line = black_box(&mut line);
            take(sample_line(black_box(controls), face, black_box(n), b, line).expect("a line of an accepted mesh"));
        }
    }
}

/// The tangents of some faces, by any of the tangent calls.
pub fn tangents(
    mesh: &Mesh,
    faces: Range<usize>,
    tangents: impl Fn(&Mesh, usize, &mut [i64]) -> Result<(), Refusal>,
    mut take: impl FnMut(&[i64; TANGENT_VALUES]),
) {
    let mut list = [0; TANGENT_VALUES];
    for face in faces {
        tangents(black_box(mesh), black_box(face), black_box(&mut list)).expect("a face of a closed mesh");
        take(&list);
    }
}

/// The library's tangent call, of which the list is all that is read.
pub fn library_tangents(mesh: &Mesh, face: usize, list: &mut [i64]) -> Result<(), Refusal> {
    rusketja::tangents(mesh, face, list).map(|_| ())
}

/// Whether a mesh has no boundary, so that every face has tangents.
pub fn closed(mesh: &Mesh) -> bool {
    rusketja::check(mesh, &mut twins(mesh)).is_ok_and(|counts| counts.boundary == 0)
}
