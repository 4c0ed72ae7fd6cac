//! What is printed: a row for each measurement, a table of ratios, and the goals.

use crate::{FEW, N};
use rusketja::Mesh;

/// The implementations, as the phase column names them: the library, Rust, and Rust without bounds checks.
const IMPLEMENTATIONS: [&str; 3] = ["", ":rust", ":rust-unchecked"];

/// A mean ratio up to this is no slower: the layout of the code and other load on the machine move it by some percent.
const NO_SLOWER: f64 = 1.1;
/// The tangent call makes three small tables anew for each of its 72 numbers, as the language has no static data.
const TANGENTS_SLOWER: f64 = 1.5;
const SAMPLE_GOAL_NS: f64 = 80.0;
/// A point of a line may take so much of the time of a sample call, by N.
const POINT_GOALS: [(usize, f64); 2] = [(N, 0.4), (FEW, 0.6)];
const WHOLE_GOAL_MS: f64 = 150.0;
/// Twice the faces may take so many times as long, on average.
const DOUBLED_GOAL: f64 = 2.2;

#[derive(Clone, Copy, PartialEq, Eq)]
pub enum Phase {
    Check,
    Patches,
    Tangents,
    Samples,
    Marked,
    Lines,
    Whole,
}

/// Each phase with each N that it is measured with, 0 for a phase that has none.
const MEASURED: [(Phase, usize); 10] = [
    (Phase::Check, 0),
    (Phase::Patches, 0),
    (Phase::Tangents, 0),
    (Phase::Samples, N),
    (Phase::Samples, FEW),
    (Phase::Marked, N),
    (Phase::Marked, FEW),
    (Phase::Lines, N),
    (Phase::Lines, FEW),
    (Phase::Whole, N),
];

impl Phase {
    fn name(self) -> &'static str {
        match self {
            Phase::Check => "check",
            Phase::Patches => "patches",
            Phase::Tangents => "tangents",
            Phase::Samples => "samples",
            Phase::Marked => "marked",
            Phase::Lines => "lines",
            Phase::Whole => "whole",
        }
    }

    /// What the table divides the nanoseconds by.
    fn unit(self) -> &'static str {
        match self {
            Phase::Check | Phase::Patches => "face",
            Phase::Tangents | Phase::Samples | Phase::Marked => "call",
            Phase::Lines => "point",
            Phase::Whole => "line",
        }
    }
}

/// The least nanoseconds of the three implementations, in one phase on one mesh with one N.
struct Row {
    mesh: &'static str,
    vertices: usize,
    faces: usize,
    n: usize,
    phase: Phase,
    ns: [f64; 3],
}

impl Row {
    fn units(&self) -> usize {
        match self.phase {
            Phase::Check | Phase::Patches | Phase::Tangents => self.faces,
            Phase::Samples | Phase::Marked | Phase::Lines | Phase::Whole => self.faces * (self.n + 1) * (self.n + 1),
        }
    }

    /// The library's nanoseconds for one of the units.
    fn each(&self) -> f64 {
        self.ns[0] / self.units() as f64
    }

    /// How many times as long as Rust (1) or Rust without bounds checks (2) the library takes.
    fn ratio(&self, other: usize) -> f64 {
        self.ns[0] / self.ns[other]
    }
}

#[derive(Default)]
pub struct Report {
    rows: Vec<Row>,
}

impl Report {
    /// Adds a measurement, or betters an earlier one of this phase on this mesh with this N.
    pub fn add(&mut self, name: &'static str, mesh: &Mesh, n: usize, phase: Phase, ns: [f64; 3]) {
        match self.rows.iter_mut().find(|row| row.mesh == name && row.phase == phase && row.n == n) {
            Some(row) => row.ns = [0, 1, 2].map(|i| row.ns[i].min(ns[i])),
            None => self.rows.push(Row { mesh: name, vertices: mesh.vertices, faces: mesh.faces, n, phase, ns }),
        }
    }

    fn of(&self, phase: Phase, n: usize) -> impl Iterator<Item = &Row> {
        self.rows.iter().filter(move |row| row.phase == phase && row.n == n)
    }

    pub fn print(&self) {
        self.csv();
        println!();
        self.table();
        println!();
        self.goals();
    }

    fn csv(&self) {
        println!("mesh,V,F,N,phase,ns");
        for Row { mesh, vertices, faces, n, phase, ns } in &self.rows {
            for (implementation, ns) in IMPLEMENTATIONS.into_iter().zip(ns) {
                println!("{mesh},{vertices},{faces},{n},{}{implementation},{ns:.0}", phase.name());
            }
        }
    }

    fn table(&self) {
        println!(
            "{:<8} {:<10} {:>4} {:>3} {:>12} {:>18} {:>10} {:>15}",
            "phase", "mesh", "F", "N", "ours, us", "ours, ns each", "ours/rust", "ours/unchecked"
        );
        for row in MEASURED.into_iter().flat_map(|(phase, n)| self.of(phase, n)) {
            let each = format!("{:.1} a {}", row.each(), row.phase.unit());
            println!(
                "{:<8} {:<10} {:>4} {:>3} {:>12.2} {:>18} {:>10.2} {:>15.2}",
                row.phase.name(),
                row.mesh,
                row.faces,
                row.n,
                row.ns[0] / 1000.0,
                each,
                row.ratio(1),
                row.ratio(2)
            );
        }
    }

    fn goals(&self) {
        for (phase, n) in MEASURED {
            let ratios: Vec<f64> = self.of(phase, n).map(|row| row.ratio(2)).collect();
            if ratios.is_empty() {
                continue;
            }
            let steps = if n == 0 { String::new() } else { format!(", N = {n}") };
            let (mean, most) = mean_and_most(&ratios);
            let (words, limit) = match phase {
                Phase::Tangents => ("not much slower", TANGENTS_SLOWER),
                _ => ("no slower", NO_SLOWER),
            };
            goal(
                &format!("{}{steps}: {words} than Rust without bounds checks (mean ratio up to {limit})", phase.name()),
                mean <= limit,
                &format!("mean {mean:.2}, at most {most:.2}"),
            );
        }
        for (phase, words) in [(Phase::Samples, "a sample call"), (Phase::Marked, "a marked sample call")] {
            let calls = [N, FEW].into_iter().flat_map(|n| self.of(phase, n));
            let slowest = calls.map(Row::each).fold(0.0, f64::max);
            goal(&format!("{words} below {SAMPLE_GOAL_NS} ns"), slowest < SAMPLE_GOAL_NS, &format!("{slowest:.1} ns"));
        }
        for (n, share) in POINT_GOALS {
            let pairs = self.of(Phase::Lines, n).zip(self.of(Phase::Samples, n));
            let (mean, most) =
                mean_and_most(&pairs.map(|(line, sample)| line.each() / sample.each()).collect::<Vec<_>>());
            goal(
                &format!("a point of a line, N = {n}: at most {share} of the time of a sample call"),
                most <= share,
                &format!("mean {mean:.2}, at most {most:.2}"),
            );
        }
        match self.of(Phase::Whole, N).map(|row| row.ns[0] / 1e6).reduce(f64::max) {
            Some(ms) => goal(
                &format!("the whole program for 256 faces and N = 32 below {WHOLE_GOAL_MS} ms"),
                ms < WHOLE_GOAL_MS,
                &format!("{ms:.1} ms"),
            ),
            None => {
                println!("goal not measured: the whole program is left out, since crates/tessellate/out/tessellate is missing")
            }
        }
        for phase in [Phase::Check, Phase::Patches] {
            // The growing meshes come first, each with twice the faces of the one before.
            let rows: Vec<&Row> = self.of(phase, 0).collect();
            let doublings = rows.windows(2).take_while(|pair| pair[1].faces == 2 * pair[0].faces).count();
            let mean = (rows[doublings].ns[0] / rows[0].ns[0]).powf(1.0 / doublings as f64);
            goal(
                &format!("{}: linear in F (twice the faces, up to {DOUBLED_GOAL} times as long)", phase.name()),
                mean <= DOUBLED_GOAL,
                &format!("{mean:.2} times from F = {} to {}", rows[0].faces, rows[doublings].faces),
            );
        }
    }
}

/// The geometric mean of the ratios, and the largest.
fn mean_and_most(ratios: &[f64]) -> (f64, f64) {
    let mean = ratios.iter().product::<f64>().powf(1.0 / ratios.len() as f64);
    (mean, ratios.iter().copied().fold(0.0, f64::max))
}

fn goal(what: &str, met: bool, measured: &str) {
    println!("goal {}: {what}: {measured}", if met { "met" } else { "MISSED" });
}
