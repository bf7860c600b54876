//! `amplitude` on random records, at words whose amplitude is not 0.

use super::Line;
use crate::plain;
use crate::seeded::{random_record, Random};
use crate::timing::Ready;
use sukhlent::{raw, Record};

/// The signature that both calls have.
pub type Amplitude = fn(u64, &[u64], &[u8], u64, u64, &mut f64, &mut f64, &mut f64) -> u8;

/// The number of records.
const RECORDS: usize = 512;
/// The number of records in a timed sample.
const AT_ONCE: usize = 8;

/// A record and a word.
type Case = (Record, u64);

/// The line of n qubits.
pub fn line(n: usize) -> Line {
    let cases = cases(n);
    cases.iter().for_each(assert_same_answers);
    let names = ("amplitude", n, "random records, words that are not nothing");
    Line::measured(names, &cases, AT_ONCE, [engine, in_plain_rust])
}

/// Seeded records with any codes, each with a word.
fn cases(n: usize) -> Vec<Case> {
    let mut random = Random::new(n as u64);
    let one = |_| {
        let record = random_record(&mut random, n);
        let chosen = random.word() >> (64 - n);
        let y = plain::supported_word(&record.neighbours, &record.codes, chosen);
        (record, y)
    };
    (0..RECORDS).map(one).collect()
}

fn engine(cases: &[Case]) -> Ready<'_> {
    Box::new(|| run(raw::amplitude, cases))
}

fn in_plain_rust(cases: &[Case]) -> Ready<'_> {
    Box::new(|| run(plain::amplitude, cases))
}

/// Finds every amplitude.
fn run(call: Amplitude, cases: &[Case]) -> u64 {
    cases.iter().fold(0, |sum, case| {
        let (refusal, bits) = written(call, case);
        sum ^ bits[0] ^ bits[1].rotate_left(1) ^ bits[2] ^ u64::from(refusal)
    })
}

/// The number that a call answers, and the bits of what it writes.
fn written(call: Amplitude, (record, y): &Case) -> (u8, [u64; 3]) {
    let (mut re, mut im, mut p) = (0.0, 0.0, 0.0);
    let refusal = call(
        record.n() as u64,
        &record.neighbours,
        &record.codes,
        record.used,
        *y,
        &mut re,
        &mut im,
        &mut p,
    );
    (refusal, [re, im, p].map(f64::to_bits))
}

/// Panics unless both calls accept and write the same, which is not nothing.
fn assert_same_answers(case: &Case) {
    let engine = written(raw::amplitude, case);
    assert_eq!(engine.0, 0);
    assert_ne!(engine.1[2], 0, "nothing");
    assert_eq!(engine, written(plain::amplitude, case));
}
