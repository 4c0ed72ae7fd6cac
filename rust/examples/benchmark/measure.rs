//! The least times of the library and of the two Rust forms, which take turns, phase by phase.

use crate::access::{Checked, Unchecked};
use crate::calls::{controls, library_tangents, lines, marked_samples, marks, samples, tangents, twins};
use crate::meshes::Named;
use crate::tangent::Weights;
use crate::{check, line, patch, sample, tangent, timing, N, TESSELLATE};
use rusketja::{Mesh, TANGENT_VALUES};
use std::fs::File;
use std::hint::black_box;
use std::io;
use std::path::Path;
use std::process::{Command, Stdio};
use std::time::Duration;

/// The time for the three implementations in one phase on one mesh, in one pass.
const CALL_BUDGET: Duration = Duration::from_millis(8);
const SAMPLES_BUDGET: Duration = Duration::from_millis(20);
const WHOLE_BUDGET: Duration = Duration::from_millis(50);

/// The compiler must take the result for used.
fn used<T>(result: T) {
    black_box(result);
}

/// The sums over the faces, each of which is measured by itself with its share of the time.
fn over_faces<const L: usize>(
    mesh: &Mesh,
    budget: Duration,
    measure: impl Fn(usize, Duration) -> [f64; L],
) -> [f64; L] {
    let share = budget / mesh.faces as u32;
    let mut sums = [0.0; L];
    for face in 0..mesh.faces {
        sums.iter_mut().zip(measure(face, share)).for_each(|(sum, ns)| *sum += ns);
    }
    sums
}

pub fn measure_check(mesh: &Mesh) -> [f64; 3] {
    let [mut a, mut b, mut c] = [twins(mesh), twins(mesh), twins(mesh)];
    let mut ours = || used(rusketja::check(black_box(mesh), black_box(&mut a)));
    let mut rust = || used(check::check::<Checked>(black_box(mesh), black_box(&mut b)));
    let mut unchecked = || used(check::check::<Unchecked>(black_box(mesh), black_box(&mut c)));
    timing::minima(CALL_BUDGET, [&mut ours, &mut rust, &mut unchecked])
}

pub fn measure_patches(mesh: &Mesh) -> [f64; 3] {
    let mut lists = [(); 3].map(|()| (twins(mesh), controls(mesh), marks(mesh)));
    let [(r, a, x), (s, b, y), (t, c, z)] = &mut lists;
    let mut ours = || used(rusketja::patches(black_box(mesh), black_box(r), black_box(a), black_box(x)));
    let mut rust = || used(patch::patches::<Checked>(black_box(mesh), black_box(s), black_box(b), black_box(y)));
    let mut unchecked = || used(patch::patches::<Unchecked>(black_box(mesh), black_box(t), black_box(c), black_box(z)));
    timing::minima(CALL_BUDGET, [&mut ours, &mut rust, &mut unchecked])
}

/// Of a closed mesh, every face of which has tangents.
pub fn measure_tangents(mesh: &Mesh, weights: &Weights) -> [f64; 3] {
    over_faces(mesh, SAMPLES_BUDGET, |face, budget| {
        let faces = || face..face + 1;
        let take = |list: &[i64; TANGENT_VALUES]| used(list);
        let checked = |mesh: &Mesh, face, list: &mut [i64]| tangent::tangents::<Checked>(mesh, weights, face, list);
        let unchecked = |mesh: &Mesh, face, list: &mut [i64]| tangent::tangents::<Unchecked>(mesh, weights, face, list);
        let mut ours = || tangents(mesh, faces(), library_tangents, take);
        let mut rust = || tangents(mesh, faces(), checked, take);
        let mut bare = || tangents(mesh, faces(), unchecked, take);
        timing::minima(budget, [&mut ours, &mut rust, &mut bare])
    })
}

/// By sample calls, by marked sample calls and by lines, in turns.
pub fn measure_samples(mesh: &Mesh, n: usize) -> [[f64; 3]; 3] {
    let (mut controls, mut exact) = (controls(mesh), marks(mesh));
    rusketja::patches(mesh, &mut twins(mesh), &mut controls, &mut exact).expect("an accepted mesh");
    let lists = (controls.as_slice(), exact.as_slice());
    let sums: [f64; 9] = over_faces(mesh, SAMPLES_BUDGET, |face, budget| {
        let faces = || face..face + 1;
        let take = |points: &[[i32; 3]]| used(points);
        let mut ours = || samples(&controls, faces(), n, rusketja::sample, used);
        let mut rust = || samples(&controls, faces(), n, sample::sample::<Checked>, used);
        let mut unchecked = || samples(&controls, faces(), n, sample::sample::<Unchecked>, used);
        let mut our_marked = || marked_samples(lists, faces(), n, rusketja::marked_sample, used);
        let mut rust_marked = || marked_samples(lists, faces(), n, sample::marked_sample::<Checked>, used);
        let mut unchecked_marked = || marked_samples(lists, faces(), n, sample::marked_sample::<Unchecked>, used);
        let mut our_lines = || lines(&controls, faces(), n, rusketja::sample_line, take);
        let mut rust_lines = || lines(&controls, faces(), n, line::sample_line::<Checked>, take);
        let mut unchecked_lines = || lines(&controls, faces(), n, line::sample_line::<Unchecked>, take);
        timing::minima(
            budget,
            [
                &mut ours,
                &mut rust,
                &mut unchecked,
                &mut our_marked,
                &mut rust_marked,
                &mut unchecked_marked,
                &mut our_lines,
                &mut rust_lines,
                &mut unchecked_lines,
            ],
        )
    });
    [0, 1, 2].map(|kind| [0, 1, 2].map(|form| sums[3 * kind + form]))
}

/// Runs one of the three programs on a file, to its end.
fn run(tessellate: &Path, i: usize, file: &Path, stdout: Stdio) -> io::Result<Vec<u8>> {
    let this = std::env::current_exe()?;
    let (program, argument) = if i == 0 { (tessellate, None) } else { (this.as_path(), Some(TESSELLATE[i - 1])) };
    let child = Command::new(program).args(argument).stdin(File::open(file)?).stdout(stdout).spawn()?;
    let output = child.wait_with_output()?;
    assert!(output.status.success(), "{} failed", program.display());
    Ok(output.stdout)
}

/// The three programs print the same lines, which is seen through a pipe; they are measured with their output thrown away.
pub fn measure_whole(named: &Named, tessellate: &Path) -> io::Result<[f64; 3]> {
    let file = std::env::temp_dir().join(format!("rusketja-benchmark-{}", std::process::id()));
    std::fs::write(&file, named.file(N))?;
    let ours = run(tessellate, 0, &file, Stdio::piped())?;
    for i in 1..3 {
        assert!(run(tessellate, i, &file, Stdio::piped())? == ours, "the programs print different lines");
    }
    let lines = ours.iter().filter(|&&byte| byte == b'\n').count();
    assert_eq!(lines, 1 + named.mesh().faces * (N + 1) * (N + 1));
    let run = |i| used(run(tessellate, i, &file, Stdio::null()).expect("a program that runs"));
    let ns = timing::minima(WHOLE_BUDGET, [&mut || run(0), &mut || run(1), &mut || run(2)]);
    std::fs::remove_file(&file)?;
    Ok(ns)
}
