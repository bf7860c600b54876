//! Times of a step by the calls and by three simulators that check nothing, on four loads and three sizes.

use bench::load::{cluster, ghz, steps, unmeasured};
use bench::operation::Operation;
use bench::session::{run, Calls, Columns, Graph, Plain, Session};
use std::hint::black_box;
use std::time::Instant;

const SIZES: [usize; 3] = [16, 32, 64];
const STEPS: usize = 4096;
const SEED: u64 = 1;
/// The number of runs of each way, in turns.
const RUNS: usize = 101;

type Load = (&'static str, fn(u64) -> Vec<Operation>);

const LOADS: [Load; 4] = [
    ("the job of seed 1", |n| steps(n, STEPS, SEED)),
    ("gates and CZ alone", |n| unmeasured(n, STEPS, SEED)),
    ("GHZ, then X measured", |n| ghz(n, SEED)),
    ("cluster, then X, Y measured", |n| cluster(n, SEED)),
];

type Way = fn(usize, &[Operation]) -> f64;

const WAYS: [Way; 4] = [
    timed::<Calls>,
    timed::<Plain>,
    timed::<Columns>,
    timed::<Graph>,
];

fn main() {
    println!("| load | qubits | the calls | tableau by rows | by columns | graph | calls over rows | over columns |");
    println!("|---|---|---|---|---|---|---|---|");
    for (name, load) in LOADS {
        for n in SIZES {
            let job = load(n as u64);
            let [calls, rows, columns, graph] = medians(n, &job);
            println!(
                "| {name} | {n} | {calls:.0} | {rows:.0} | {columns:.0} | {graph:.0} | {:.2} | {:.2} |",
                calls / rows,
                calls / columns
            );
        }
    }
}

/// The median nanoseconds of a step in each way.
fn medians(n: usize, job: &[Operation]) -> [f64; 4] {
    let mut times: [Vec<f64>; 4] = Default::default();
    for _ in 0..RUNS {
        for (way, times) in WAYS.iter().zip(&mut times) {
            times.push(way(n, job));
        }
    }
    times.map(|mut times| {
        times.sort_by(f64::total_cmp);
        times[RUNS / 2] * 1e9 / job.len() as f64
    })
}

/// The seconds that one run takes, from the start on.
fn timed<S: Session>(n: usize, job: &[Operation]) -> f64 {
    let start = Instant::now();
    black_box(run::<S>(n, black_box(job)).1);
    start.elapsed().as_secs_f64()
}
