//! `expand`, and `expectation` on rows of which every second one is an element of the group.

use super::Line;
use crate::plain;
use crate::seeded::{random_record, Random};
use crate::timing::Ready;
use sukhlent::{expand, product, raw, Record};

/// The signature that both calls on a row have.
pub type Expectation = fn(u64, &[u64], &[u8], u64, u64, u64, &mut u8) -> u8;
/// The signature that both expansions have.
pub type Expand = fn(u64, &[u64], &[u8], u64, &mut [u8], &mut [u64], &mut [u64]) -> u8;

/// The number of records.
const RECORDS: usize = 512;
/// The number of records in a timed sample.
const AT_ONCE: usize = 8;

/// A record and the words of a row.
type Case = (Record, u64, u64);

/// The line of expansions of n vertices.
pub fn expanding(n: usize) -> Line {
    let cases = cases(n);
    let works = [expanded_by_engine, expanded_in_plain_rust];
    Line::measured(("expand", n, "random records"), &cases, AT_ONCE, works)
}

/// The line of values on n vertices.
pub fn expectation(n: usize) -> Line {
    let cases = cases(n);
    let names = (
        "expectation",
        n,
        "random records, every second row in the group",
    );
    Line::measured(names, &cases, AT_ONCE, [engine, in_plain_rust])
}

/// Seeded records, each with a row: any letters, or an element of its group up to the sign.
fn cases(n: usize) -> Vec<Case> {
    let mut random = Random::new(n as u64);
    let one = |k: usize| {
        let record = random_record(&mut random, n);
        let words = [0, 1].map(|_| random.word() >> (64 - n));
        let list = expand(&record).expect("a simple graph");
        let element = product(&list, words[0]).expect("rows of the list");
        match k % 2 {
            0 => (record, words[0], words[1]),
            _ => (record, element.z, element.x),
        }
    };
    let cases: Vec<Case> = (0..RECORDS).map(one).collect();
    cases.iter().for_each(assert_same_answers);
    cases
}

fn engine(cases: &[Case]) -> Ready<'_> {
    Box::new(|| run(raw::expectation, cases))
}

fn in_plain_rust(cases: &[Case]) -> Ready<'_> {
    Box::new(|| run(plain::expectation, cases))
}

/// Asks for every value.
fn run(call: Expectation, cases: &[Case]) -> u64 {
    cases.iter().fold(0, |sum, case| {
        let (number, value) = valued(call, case);
        sum << 2 ^ u64::from(number ^ value)
    })
}

fn valued(call: Expectation, (record, z, x): &Case) -> (u8, u8) {
    let mut value = 0;
    let n = record.n() as u64;
    let number = call(n, &record.neighbours, &record.codes, 0, *z, *x, &mut value);
    (number, value)
}

fn expanded_by_engine(cases: &[Case]) -> Ready<'_> {
    Box::new(|| run_expand(raw::expand, cases))
}

fn expanded_in_plain_rust(cases: &[Case]) -> Ready<'_> {
    Box::new(|| run_expand(plain::expand, cases))
}

/// Expands every record.
fn run_expand(call: Expand, cases: &[Case]) -> u64 {
    cases.iter().fold(0, |sum, (record, _, _)| {
        let (number, signs, z, x) = expanded(call, record);
        let last = record.n() - 1;
        sum ^ z[last] ^ x[last] ^ u64::from(signs[last] ^ number)
    })
}

fn expanded(call: Expand, record: &Record) -> (u8, [u8; 64], [u64; 64], [u64; 64]) {
    let (mut signs, mut z, mut x) = ([0; 64], [0; 64], [0; 64]);
    let n = record.n();
    let (words, bytes) = (&record.neighbours, &record.codes);
    let list = (&mut signs[..n], &mut z[..n], &mut x[..n]);
    let number = call(n as u64, words, bytes, 0, list.0, list.1, list.2);
    (number, signs, z, x)
}

/// Panics unless both calls of each kind accept a case and write the same.
fn assert_same_answers(case: &Case) {
    let values =
        [raw::expectation as Expectation, plain::expectation].map(|call| valued(call, case));
    assert_eq!(values[0], values[1], "{case:?}");
    let [engine, plain] =
        [raw::expand as Expand, plain::expand].map(|call| expanded(call, &case.0));
    assert_eq!(engine, plain, "{case:?}");
    assert_eq!((values[0].0, engine.0), (0, 0));
}
