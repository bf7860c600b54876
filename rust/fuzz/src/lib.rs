//! Any bytes as arguments of the engine's public calls: valid arguments, damaged ones, and noise.
//!
//! After every call the guards around each buffer and all read-only buffers are as before, after a
//! refusal every buffer is, the number is one that the header publishes for the call, and an
//! accepted answer is consistent with other calls.

mod arguments;
mod calls;
#[path = "../../sukhlent/tests/common/mod.rs"]
mod common;
mod counts;
mod header;

pub use calls::{Call, CALLS};
pub use counts::Counts;

use common::Random;
use std::panic::catch_unwind;
use std::time::{Duration, Instant};

/// Runs cases for so long, from the given case on; `progress` hears of it every second. Ends early
/// with the number of a case that fails, whose panic has said why.
pub fn run(time: Duration, first: u64, progress: impl Fn(&Counts)) -> Result<Counts, u64> {
    let mut counts = Counts::default();
    let start = Instant::now();
    let mut told = start;
    for case in first.. {
        if start.elapsed() >= time {
            break;
        }
        if told.elapsed() >= Duration::from_secs(1) {
            told = Instant::now();
            progress(&counts);
        }
        let k = (case % CALLS.len() as u64) as usize;
        let number = catch_unwind(|| published_answer(&CALLS[k], case)).map_err(|_| case)?;
        counts.add(k, number);
    }
    Ok(counts)
}

/// The number that a call answers in a case. Panics where the header does not publish it for the
/// call.
fn published_answer(call: &Call, case: u64) -> u8 {
    let number = (call.once)(&mut Random::new(case));
    let refusals = header::refusals_of(call.name);
    assert!(
        number == 0 || refusals.contains(&number),
        "{} answers {number}, which is not among {refusals:?}",
        call.name
    );
    number
}
