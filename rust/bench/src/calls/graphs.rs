//! `complement` and `cut` on records.

use super::Line;
use crate::plain;
use crate::seeded::{random_record, Random};
use crate::timing::Ready;
use sukhlent::{raw, Record};

/// The signature that both complementations have.
pub type Complement = fn(u64, &mut [u64], &mut [u8], u64, u64) -> u8;
/// The signature that both cuts have.
pub type Cut = fn(u64, &[u64], &[u8], u64, u64, &mut u64) -> u8;

/// The number of records.
const RECORDS: usize = 512;
/// The number of records in a timed sample.
const AT_ONCE: usize = 8;

/// A record, a vertex and a side.
type Case = (Record, u64, u64);

/// The line of complementations on n vertices.
pub fn complementing(n: usize) -> Line {
    let works = [complemented_by_engine, complemented_in_plain_rust];
    Line::measured(
        ("complement", n, "random records"),
        &cases(n),
        AT_ONCE,
        works,
    )
}

/// The line of cuts of n vertices.
pub fn cutting(n: usize) -> Line {
    let names = ("cut", n, "random records, any side");
    Line::measured(
        names,
        &cases(n),
        AT_ONCE,
        [cut_by_engine, cut_in_plain_rust],
    )
}

fn cases(n: usize) -> Vec<Case> {
    let mut random = Random::new(n as u64);
    let one = |_| {
        let record = random_record(&mut random, n);
        (record, random.below(n) as u64, random.word() >> (64 - n))
    };
    let cases: Vec<Case> = (0..RECORDS).map(one).collect();
    cases.iter().for_each(assert_same_answers);
    cases
}

fn complemented_by_engine(cases: &[Case]) -> Ready<'_> {
    ready_to_complement(raw::complement, cases)
}

fn complemented_in_plain_rust(cases: &[Case]) -> Ready<'_> {
    ready_to_complement(plain::complement, cases)
}

/// Complements copies of the records.
fn ready_to_complement(call: Complement, cases: &[Case]) -> Ready<'_> {
    let mut copies: Vec<Case> = cases.to_vec();
    Box::new(move || {
        copies.iter_mut().fold(0, |sum, (record, a, _)| {
            let number = complemented(call, record, *a);
            sum ^ u64::from(number) ^ record.neighbours[record.n() - 1]
        })
    })
}

fn complemented(call: Complement, record: &mut Record, a: u64) -> u8 {
    let n = record.n() as u64;
    call(n, &mut record.neighbours, &mut record.codes, 0, a)
}

fn cut_by_engine(cases: &[Case]) -> Ready<'_> {
    Box::new(|| cut_all(raw::cut, cases))
}

fn cut_in_plain_rust(cases: &[Case]) -> Ready<'_> {
    Box::new(|| cut_all(plain::cut, cases))
}

fn cut_all(call: Cut, cases: &[Case]) -> u64 {
    cases.iter().fold(0, |sum, (record, _, side)| {
        let (number, rank) = ranked(call, record, *side);
        sum + rank + u64::from(number)
    })
}

fn ranked(call: Cut, record: &Record, side: u64) -> (u8, u64) {
    let mut rank = 0;
    let n = record.n() as u64;
    let number = call(n, &record.neighbours, &record.codes, 0, side, &mut rank);
    (number, rank)
}

/// Panics unless both calls of each kind accept a case and write the same.
fn assert_same_answers((record, a, side): &Case) {
    let [engine, plain] = [raw::complement as Complement, plain::complement].map(|call| {
        let mut copy = record.clone();
        (complemented(call, &mut copy, *a), copy)
    });
    assert_eq!(engine, plain, "{record:?}, {a}");
    let ranks = [raw::cut as Cut, plain::cut].map(|call| ranked(call, record, *side));
    assert_eq!(ranks[0], ranks[1], "{record:?}, {side:x}");
    assert_eq!((engine.0, ranks[0].0), (0, 0));
}
