//! That a Rust form gives what the library gives, in every call on a mesh: then their times can be compared.

use crate::access::Access;
use crate::calls::{controls, library_tangents, lines, marked_samples, marks, samples, twins};
use crate::tangent::Weights;
use crate::{check, line, patch, sample, tangent, FEW, N};
use rusketja::{Mesh, TANGENT_VALUES};

/// The tangents of every face, and where the mesh is open its refusals.
pub fn assert_same_tangents<A: Access>(mesh: &Mesh, weights: &Weights) {
    for face in 0..=mesh.faces {
        for places in [TANGENT_VALUES, TANGENT_VALUES - 1] {
            let (mut ours, mut theirs) = (vec![0; places], vec![0; places]);
            let answer = library_tangents(mesh, face, &mut ours);
            assert_eq!(tangent::tangents::<A>(mesh, weights, face, &mut theirs), answer);
            assert_eq!(theirs, ours);
        }
    }
}

/// Samples, marked samples and lines with one N, on these control values and marks.
fn assert_same_samples<A: Access>(controls: &[i32], exact: &[u8], faces: usize, n: usize) {
    let (mut our_points, mut their_points) = (Vec::new(), Vec::new());
    samples(controls, 0..faces, n, rusketja::sample, |point| our_points.push(point));
    samples(controls, 0..faces, n, sample::sample::<A>, |point| their_points.push(point));
    assert!(our_points == their_points);
    let (mut our_marked, mut their_marked) = (Vec::new(), Vec::new());
    marked_samples((controls, exact), 0..faces, n, rusketja::marked_sample, |point| our_marked.push(point));
    marked_samples((controls, exact), 0..faces, n, sample::marked_sample::<A>, |point| their_marked.push(point));
    assert!(our_marked == their_marked);
    assert!(our_marked.iter().map(|marked| marked.point).eq(our_points.iter().copied()));
    let (mut our_lines, mut their_lines) = (Vec::new(), Vec::new());
    lines(controls, 0..faces, n, rusketja::sample_line, |points| our_lines.extend_from_slice(points));
    lines(controls, 0..faces, n, line::sample_line::<A>, |points| their_lines.extend_from_slice(points));
    assert!(our_lines == our_points && their_lines == our_points);
}

/// The check, the patches with their marks, and the samples. Those are compared once more with every mark set, so that theirs depend on the
/// samples alone.
pub fn assert_same<A: Access>(mesh: &Mesh) {
    let (mut ours, mut theirs) = (twins(mesh), twins(mesh));
    let counts = rusketja::check(mesh, &mut ours);
    assert!(counts.is_ok());
    assert_eq!(check::check::<A>(mesh, &mut theirs), counts);
    assert_eq!(theirs, ours);
    let (mut our_twins, mut their_twins) = (twins(mesh), twins(mesh));
    let (mut ours, mut theirs) = (controls(mesh), controls(mesh));
    let (mut our_marks, mut their_marks) = (marks(mesh), marks(mesh));
    assert_eq!(rusketja::patches(mesh, &mut our_twins, &mut ours, &mut our_marks), counts);
    assert_eq!(patch::patches::<A>(mesh, &mut their_twins, &mut theirs, &mut their_marks), counts);
    assert_eq!(their_twins, our_twins);
    assert_eq!(theirs, ours);
    assert_eq!(their_marks, our_marks);
    our_marks.fill(1);
    for n in [N, FEW] {
        assert_same_samples::<A>(&ours, &their_marks, mesh.faces, n);
        assert_same_samples::<A>(&ours, &our_marks, mesh.faces, n);
    }
}
