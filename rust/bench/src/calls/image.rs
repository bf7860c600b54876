//! `image` on records whose image is a graph.

use super::Line;
use crate::local::complemented_record;
use crate::plain;
use crate::seeded::{random_record, Random};
use crate::timing::Ready;
use sukhlent::{raw, Record};

/// The signature that both image calls have.
pub type Image = fn(u64, &[u64], &[u8], &mut [u64], &mut [u8], &mut [u8], &mut u64) -> u8;

/// The number of records.
const RECORDS: usize = 512;
/// The number of records in a timed sample.
const AT_ONCE: usize = 8;

/// What a call writes.
#[derive(Debug, PartialEq)]
struct Answer {
    neighbours: [u64; 64],
    signs: [u8; 64],
    list: [u8; 96],
    count: u64,
}

/// The line of n vertices.
pub fn line(n: usize) -> Line {
    let records = records(n);
    records.iter().for_each(assert_same_answers);
    let names = ("image", n, "random graphs, 2n complementations away");
    Line::measured(names, &records, AT_ONCE, [engine, in_plain_rust])
}

/// Seeded records of random graphs with random signs, complemented at 2n random vertices.
fn records(n: usize) -> Vec<Record> {
    let mut random = Random::new(n as u64);
    let one = |_| {
        let mut record = random_record(&mut random, n);
        record.codes.iter_mut().for_each(|code| *code %= 4);
        (0..2 * n).fold(record, |record, _| {
            complemented_record(&record, random.below(n))
        })
    };
    (0..RECORDS).map(one).collect()
}

fn engine(records: &[Record]) -> Ready<'_> {
    Box::new(|| run(raw::image, records))
}

fn in_plain_rust(records: &[Record]) -> Ready<'_> {
    Box::new(|| run(plain::image, records))
}

/// Finds every image. The answer buffers are used again and again, and not cleared between.
fn run(call: Image, records: &[Record]) -> u64 {
    let mut answer = Answer::empty();
    records.iter().fold(0, |sum, record| {
        let refusal = answer.write(call, record);
        let last = record.n() - 1;
        let signs = answer.signs[last] ^ answer.list[0] ^ refusal;
        sum ^ answer.neighbours[last] ^ answer.count ^ u64::from(signs)
    })
}

impl Answer {
    fn empty() -> Answer {
        Answer {
            neighbours: [0; 64],
            signs: [0; 64],
            list: [0; 96],
            count: 0,
        }
    }

    /// Writes the answer of a call on a record, and gives its number.
    fn write(&mut self, call: Image, record: &Record) -> u8 {
        let n = record.n();
        call(
            n as u64,
            &record.neighbours,
            &record.codes,
            &mut self.neighbours[..n],
            &mut self.signs[..n],
            &mut self.list,
            &mut self.count,
        )
    }
}

/// Panics unless both calls accept a record and write the same.
fn assert_same_answers(record: &Record) {
    let [engine, plain] = [raw::image as Image, plain::image].map(|call| {
        let mut answer = Answer::empty();
        (answer.write(call, record), answer)
    });
    assert_eq!(engine.0, 0);
    assert_eq!(engine, plain);
}
