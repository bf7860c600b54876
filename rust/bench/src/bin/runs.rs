//! Times of a step by many steps in one call, and on two tableaux that check nothing, on 64 qubits.

use bench::load::{steps, unmeasured};
use bench::operation::Operation;
use bench::runs::{cut, tableau, whole, Ran, Steps};
use bench::session::{Columns, Plain};
use std::hint::black_box;
use std::time::Instant;

const N: usize = 64;
const STEPS: usize = 4096;
const SEED: u64 = 1;
/// The number of runs of each way, in turns.
const RUNS: usize = 101;

type Way = fn(usize, &Steps) -> Ran;

fn main() {
    println!(
        "| load | steps | the run | tableau by rows | by columns | run over rows | over columns |"
    );
    println!("|---|---|---|---|---|---|---|");
    let job = steps(N as u64, STEPS, SEED);
    row(
        "the job of seed 1, cut behind each measurement",
        &job,
        false,
        cut,
    );
    row("its first 659 steps, in one call", &job[..659], true, whole);
    row("all of them, in one call", &job, true, whole);
    let gates = unmeasured(N as u64, STEPS, SEED);
    row("gates and CZ alone, in one call", &gates, false, whole);
}

fn row(name: &str, job: &[Operation], kept: bool, way: Way) {
    let steps = Steps::of(job);
    let mut times: [Vec<f64>; 3] = Default::default();
    for _ in 0..RUNS {
        times[0].push(seconds(|| way(N, black_box(&steps))));
        times[1].push(seconds(|| tableau::<Plain>(N, black_box(job), kept)));
        times[2].push(seconds(|| tableau::<Columns>(N, black_box(job), kept)));
    }
    let [run, rows, columns] = times.map(|mut times| {
        times.sort_by(f64::total_cmp);
        times[RUNS / 2] * 1e9 / job.len() as f64
    });
    println!(
        "| {name} | {} | {run:.0} | {rows:.0} | {columns:.0} | {:.2} | {:.2} |",
        job.len(),
        run / rows,
        run / columns
    );
}

/// The seconds that one run takes, from the start on.
fn seconds<T>(run: impl FnOnce() -> T) -> f64 {
    let start = Instant::now();
    black_box(run());
    start.elapsed().as_secs_f64()
}
