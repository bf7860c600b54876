//! Median times.

use std::hint::black_box;
use std::time::Instant;

/// The number of timed samples. They are short, so that few of them are interrupted.
const SAMPLES: usize = 2000;

/// A sample that is ready to run. Its answer depends on all that it does, so that nothing is left
/// out.
pub type Ready<'a> = Box<dyn FnMut() -> u64 + 'a>;

/// Makes a sample of some cases ready.
pub type Work<C> = for<'a> fn(&'a [C]) -> Ready<'a>;

/// The median time of one case of each work, in nanoseconds. The works take turns on samples of so
/// many cases, and each goes through all cases again and again, but no two are at one sample at a time:
/// what one has just read, or the branches that it has just taken, would help the next. What a work
/// does to make a sample ready is not timed.
pub fn medians<C, const N: usize>(cases: &[C], at_once: usize, works: [Work<C>; N]) -> [f64; N] {
    let samples: Vec<&[C]> = cases.chunks_exact(at_once).collect();
    let mut times: [Vec<u128>; N] = std::array::from_fn(|_| Vec::new());
    for turn in 0..SAMPLES {
        for (k, (work, times)) in works.iter().zip(&mut times).enumerate() {
            let mut ready = work(samples[(turn + k * samples.len() / N) % samples.len()]);
            let start = Instant::now();
            black_box(ready());
            times.push(start.elapsed().as_nanos());
        }
    }
    times.map(|mut times| {
        times.sort();
        times[times.len() / 2] as f64 / at_once as f64
    })
}
