//! Measuring: several works in turn, so that other load on the machine meets all of them, and the minimum of each.

use std::time::{Duration, Instant};

/// Each work is repeated at least so often, and on until the budget is spent.
const LEAST: usize = 2;

/// A measurement lasts at least this long: short works are done several times in it.
const STRETCH: Duration = Duration::from_micros(40);

fn time(work: &mut dyn FnMut(), times: u32) -> Duration {
    let start = Instant::now();
    for _ in 0..times {
        work();
    }
    start.elapsed()
}

/// The least nanoseconds that each of the works took.
pub fn minima<const L: usize>(budget: Duration, mut works: [&mut dyn FnMut(); L]) -> [f64; L] {
    let start = Instant::now();
    let mut times = 1;
    while times < 1 << 20 && time(works[0], times) < STRETCH {
        times *= 2;
    }
    let mut least = [f64::INFINITY; L];
    let mut rounds = 0;
    while rounds < LEAST || start.elapsed() < budget {
        for (work, least) in works.iter_mut().zip(&mut least) {
            *least = least.min(time(work, times).as_nanos() as f64 / f64::from(times));
        }
        rounds += 1;
    }
    least
}
