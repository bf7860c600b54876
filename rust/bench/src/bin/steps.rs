//! Times of a job of 4,096 steps on 64 qubits, drawn with seed 1, in three ways.

use bench::load::steps;
use bench::operation::Operation;
use bench::session::{run, Calls, Lists, Plain, Session};
use std::hint::black_box;
use std::time::Instant;

const N: usize = 64;
const STEPS: usize = 4096;
const SEED: u64 = 1;
/// The number of runs of each way, in turns.
const RUNS: usize = 51;

fn main() {
    let job = steps(N as u64, STEPS, SEED);
    let ways: [(&str, fn(&[Operation]) -> f64); 3] = [
        ("the calls", timed::<Calls>),
        ("expanding, changing, reducing", timed::<Lists>),
        ("a plain tableau", timed::<Plain>),
    ];
    let mut times: [Vec<f64>; 3] = Default::default();
    for _ in 0..RUNS {
        for ((_, way), times) in ways.iter().zip(&mut times) {
            times.push(way(&job));
        }
    }
    let medians = times.map(|mut times| {
        times.sort_by(f64::total_cmp);
        times[RUNS / 2]
    });
    println!("| {STEPS} steps on {N} qubits by | job | step | over the tableau |");
    println!("|---|---|---|---|");
    for ((name, _), time) in ways.iter().zip(medians) {
        let (job, step) = (time * 1e3, time * 1e6 / STEPS as f64);
        let ratio = time / medians[2];
        println!("| {name} | {job:.2} ms | {step:.2} µs | {ratio:.2} |");
    }
}

/// The seconds that one run takes.
fn timed<S: Session>(job: &[Operation]) -> f64 {
    let start = Instant::now();
    black_box(run::<S>(N, black_box(job)).1);
    start.elapsed().as_secs_f64()
}
