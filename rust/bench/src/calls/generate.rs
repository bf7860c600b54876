//! `generate`: texts of jobs.

use super::Line;
use crate::drawn;
use crate::timing::Ready;
use sukhlent::raw;

/// The signature that both generators have.
pub type Generate = fn(u64, u64, u64, &mut [u8], &mut u64) -> u8;

/// The steps of a job.
const STEPS: u64 = 4096;
/// The number of seeds.
const SEEDS: u64 = 64;

/// The line of jobs on n qubits.
pub fn line(n: usize) -> Line {
    let cases: Vec<(u64, u64)> = (1..=SEEDS).map(|seed| (n as u64, seed)).collect();
    cases.iter().for_each(assert_same_answers);
    let names = ("generate", n, "jobs of 4,096 steps");
    Line::measured(names, &cases, 1, [engine, in_plain_rust])
}

fn engine(cases: &[(u64, u64)]) -> Ready<'_> {
    ready(raw::generate, cases)
}

fn in_plain_rust(cases: &[(u64, u64)]) -> Ready<'_> {
    ready(drawn::generate, cases)
}

fn ready(call: Generate, cases: &[(u64, u64)]) -> Ready<'_> {
    let mut text = vec![0; raw::JOB_PLACES];
    Box::new(move || {
        cases.iter().fold(0, |sum, &(n, seed)| {
            let mut length = 0;
            let number = call(n, STEPS, seed, &mut text, &mut length);
            sum ^ length ^ u64::from(number ^ text[length as usize - 2])
        })
    })
}

/// Panics unless both write one text.
fn assert_same_answers(&(n, seed): &(u64, u64)) {
    let [engine, plain] = [raw::generate as Generate, drawn::generate].map(|call| {
        let (mut text, mut length) = (vec![0; raw::JOB_PLACES], 0);
        (call(n, STEPS, seed, &mut text, &mut length), text, length)
    });
    assert_eq!(engine.0, 0);
    assert!(engine == plain, "seed {seed} on {n}");
}
