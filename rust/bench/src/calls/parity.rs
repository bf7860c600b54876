//! `measure_row` on random records and rows: none is determined.

use super::Line;
use crate::plain;
use crate::seeded::{random_record, Random};
use crate::timing::Ready;
use sukhlent::{raw, Record};

/// The signature that both calls have.
pub type MeasureRow = fn(u64, &mut [u64], &mut [u8], u64, u64, u64, u8, &mut u8, &mut u8) -> u8;

/// The number of records.
const RECORDS: usize = 512;
/// The number of records in a timed sample.
const AT_ONCE: usize = 8;

/// A record, and the words of a row.
type Case = (Record, u64, u64);

/// The line of measurements on n vertices.
pub fn measure_row(n: usize) -> Line {
    let cases = cases(n);
    let names = ("measure_row", n, "random records and rows");
    Line::measured(names, &cases, AT_ONCE, [engine, in_plain_rust])
}

/// Seeded records with a row each; both answers are the same.
fn cases(n: usize) -> Vec<Case> {
    let mut random = Random::new(n as u64);
    let one = |_| {
        let record = random_record(&mut random, n);
        let [z, x] = [0, 1].map(|_| random.word() >> (64 - n));
        (record, z, x)
    };
    let cases: Vec<Case> = (0..RECORDS).map(one).collect();
    for case in &cases {
        assert_eq!(
            measured(raw::measure_row, case),
            measured(plain::measure_row, case),
            "{case:?}"
        );
    }
    cases
}

fn engine(cases: &[Case]) -> Ready<'_> {
    Box::new(|| run(raw::measure_row, cases))
}

fn in_plain_rust(cases: &[Case]) -> Ready<'_> {
    Box::new(|| run(plain::measure_row, cases))
}

/// Measures every row.
fn run(call: MeasureRow, cases: &[Case]) -> u64 {
    cases.iter().fold(0, |sum, case| {
        let (number, answer, _, record) = measured(call, case);
        sum << 2 ^ u64::from(number ^ answer) ^ record.neighbours[0]
    })
}

/// What a call answers and leaves, on a copy.
fn measured(call: MeasureRow, (record, z, x): &Case) -> (u8, u8, u8, Record) {
    let (mut record, mut answer, mut determined) = (record.clone(), 9, 9);
    let told = (&mut answer, &mut determined);
    let n = record.n() as u64;
    let Record {
        neighbours,
        codes,
        used,
    } = &mut record;
    let number = call(n, neighbours, codes, *used, *z, *x, 1, told.0, told.1);
    (number, answer, determined, record)
}
