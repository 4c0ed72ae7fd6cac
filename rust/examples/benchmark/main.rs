//! Measures the library against the same arithmetic in Rust, with bounds checks and without, in a release build for the same CPU
//! (x86-64 without extensions). `tools/benchmark` runs it.
//!
//! Every result of the two Rust forms is held to that of the library first, on every mesh. Each time is the minimum of many
//! repetitions in several passes; the three implementations take turns. Rows: `mesh,V,F,N,phase,ns`, where the phase `check` is
//! the library's and `check:rust` and `check:rust-unchecked` are the others'; N is 0 for a phase that has none. Then a table of
//! ratios and the goals.

mod access;
mod calls;
mod check;
mod limits;
mod line;
mod measure;
mod meshes;
mod patch;
mod report;
mod same;
mod sample;
mod tangent;
mod tessellate;
mod timing;

use access::{Checked, Unchecked};
use measure::{measure_check, measure_patches, measure_samples, measure_tangents, measure_whole};
use report::{Phase, Report};
use same::{assert_same, assert_same_tangents};
use std::io;
use std::path::PathBuf;
use tangent::Weights;

/// The largest N (rule S1), and a small one for samples and lines.
const N: usize = 32;
const FEW: usize = 4;

/// Everything is measured in so many passes, since other load on the machine comes and goes; the whole program, which takes
/// longest, in every third.
const PASSES: usize = 15;
const WHOLE_EVERY: usize = 3;

/// The argument that makes this program the whole program in Rust, and in Rust without bounds checks.
const TESSELLATE: [&str; 2] = ["tessellate-rust", "tessellate-rust-unchecked"];

fn load() -> String {
    let loads = std::fs::read_to_string("/proc/loadavg").unwrap_or_default();
    loads.split(' ').take(3).collect::<Vec<_>>().join(" ")
}

fn main() -> io::Result<()> {
    match std::env::args().nth(1).as_deref() {
        Some(form) if form == TESSELLATE[0] => return tessellate::run::<Checked>(),
        Some(form) if form == TESSELLATE[1] => return tessellate::run::<Unchecked>(),
        _ => {}
    }
    let tessellate = PathBuf::from(env!("CARGO_MANIFEST_DIR")).join("../crates/tessellate/out/tessellate");
    let before = load();
    let (meshes, weights) = (meshes::all(), Weights::new());
    for named in &meshes {
        assert_same::<Checked>(&named.mesh());
        assert_same::<Unchecked>(&named.mesh());
        assert_same_tangents::<Checked>(&named.mesh(), &weights);
        assert_same_tangents::<Unchecked>(&named.mesh(), &weights);
    }
    let mut report = Report::default();
    for pass in 0..PASSES {
        for named in &meshes {
            let mesh = named.mesh();
            report.add(named.name, &mesh, 0, Phase::Check, measure_check(&mesh));
            report.add(named.name, &mesh, 0, Phase::Patches, measure_patches(&mesh));
            if calls::closed(&mesh) {
                report.add(named.name, &mesh, 0, Phase::Tangents, measure_tangents(&mesh, &weights));
            }
            for n in [N, FEW] {
                let [samples, marked, lines] = measure_samples(&mesh, n);
                report.add(named.name, &mesh, n, Phase::Samples, samples);
                report.add(named.name, &mesh, n, Phase::Marked, marked);
                report.add(named.name, &mesh, n, Phase::Lines, lines);
            }
            if tessellate.is_file() && pass % WHOLE_EVERY == 0 {
                report.add(named.name, &mesh, N, Phase::Whole, measure_whole(named, &tessellate)?);
            }
        }
    }
    report.print();
    println!("load (1, 5, 15 minutes) before: {before}; after: {}", load());
    Ok(())
}
