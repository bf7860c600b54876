//! A group's gate, CZ, measurement and complementation on a record that two groups share, beside the
//! call of that name on the whole record.

use super::Line;
use crate::operation::Operation;
use crate::seeded::{random_record, Random};
use crate::timing::Ready;
use sukhlent::{expand, raw, reduce, Record};

/// The groups are the lower and the upper half, and the upper one calls.
pub(super) const WHOSE: raw::Whose = (!0 << HALF, 1);
const HALF: usize = 32;
const N: usize = 2 * HALF;

/// The number of records.
const RECORDS: usize = 512;
/// The number of records in a timed sample, with one call on each.
const AT_ONCE: usize = 8;

/// A record, and the upper group's call on it.
type Case = (Record, Operation);

/// What a call leaves: its number, what a measurement answers, and the record.
type Left = (u8, u8, u8, Record);

/// A call, what it is made on and beside what, and how the call is drawn.
pub type Kind = (
    &'static str,
    &'static str,
    fn(&mut Random, &Record) -> Operation,
);

/// The timed calls.
pub const KINDS: [Kind; 4] = [
    ("group_gate", "two random halves; gate", gate),
    ("group_cz", "two random halves; cz", cz),
    (
        "group_measure",
        "two random halves, outcome chosen; measure",
        chosen,
    ),
    (
        "group_complement",
        "two random halves; complement",
        complement,
    ),
];

/// The line of a kind of calls.
pub fn line((call, name, draw): Kind) -> Line {
    let mut random = Random::new(N as u64);
    let one = |_| {
        let record = halves(&mut random);
        let operation = draw(&mut random, &record);
        (record, operation)
    };
    let cases: Vec<Case> = (0..RECORDS).map(one).collect();
    cases.iter().for_each(assert_same_answers);
    Line::measured((call, N, name), &cases, AT_ONCE, [by_group, by_whole])
}

/// A reduced record of two random halves, without an edge between them.
pub(super) fn halves(random: &mut Random) -> Record {
    let [mut lower, upper] = [0, 1].map(|_| random_record(random, HALF));
    let moved = upper.neighbours.iter().map(|word| word << HALF);
    lower.neighbours.extend(moved);
    lower.codes.extend(upper.codes);
    let list = expand(&lower).expect("a simple graph");
    reduce(&list).expect("generators of a state")
}

fn upper(random: &mut Random) -> u64 {
    (HALF + random.below(HALF)) as u64
}

fn gate(random: &mut Random, _: &Record) -> Operation {
    Operation::Gate(upper(random), random.below(24) as u8)
}

fn cz(random: &mut Random, _: &Record) -> Operation {
    let (a, b) = random.pair_below(HALF);
    Operation::Cz((HALF + a) as u64, (HALF + b) as u64)
}

fn complement(random: &mut Random, _: &Record) -> Operation {
    Operation::Complement(upper(random))
}

/// A measurement whose outcome is not determined.
fn chosen(random: &mut Random, record: &Record) -> Operation {
    loop {
        let (pauli, bit) = (1 + random.below(3) as u8, random.below(2) as u8);
        let operation = Operation::Measure(pauli, upper(random), bit);
        let (number, _, determined, _) = left(on_the_whole, record, operation);
        if (number, determined) == (0, 0) {
            return operation;
        }
    }
}

/// A call on a record: its number, and what a measurement answers.
type Call = fn(&mut Record, Operation) -> (u8, u8, u8);

fn on_the_whole(record: &mut Record, operation: Operation) -> (u8, u8, u8) {
    let (mut answer, mut determined) = (0, 0);
    let (words, codes, used) = parts(record);
    let number = operation.call(N as u64, words, codes, used, &mut answer, &mut determined);
    (number, answer, determined)
}

fn of_the_group(record: &mut Record, operation: Operation) -> (u8, u8, u8) {
    let (mut answer, mut determined) = (0, 0);
    let (words, codes, used) = parts(record);
    let n = N as u64;
    let number = match operation {
        Operation::Gate(q, code) => raw::group_gate(n, WHOSE, words, codes, *used, q, code),
        Operation::Cz(a, b) => raw::group_cz(n, WHOSE, words, codes, *used, a, b),
        Operation::Measure(pauli, q, bit) => {
            let (said, free) = (&mut answer, &mut determined);
            raw::group_measure(n, WHOSE, words, codes, used, pauli, q, bit, said, free)
        }
        Operation::Complement(a) => raw::group_complement(n, WHOSE, words, codes, *used, a),
    };
    (number, answer, determined)
}

fn parts(record: &mut Record) -> (&mut [u64], &mut [u8], &mut u64) {
    let Record {
        neighbours,
        codes,
        used,
    } = record;
    (neighbours, codes, used)
}

fn left(call: Call, record: &Record, operation: Operation) -> Left {
    let mut record = record.clone();
    let (number, answer, determined) = call(&mut record, operation);
    (number, answer, determined, record)
}

fn by_group(cases: &[Case]) -> Ready<'_> {
    ready(of_the_group, cases)
}

fn by_whole(cases: &[Case]) -> Ready<'_> {
    ready(on_the_whole, cases)
}

/// The calls of a sample on copies of the records.
fn ready(call: Call, cases: &[Case]) -> Ready<'_> {
    let mut copies: Vec<Case> = cases.to_vec();
    Box::new(move || {
        copies.iter_mut().fold(0, |sum, (record, operation)| {
            let (number, answer, _) = call(record, *operation);
            sum ^ u64::from(number ^ answer) ^ record.neighbours[N - 1]
        })
    })
}

/// Panics unless both calls accept, answer the same and leave the same record: the other half is
/// reduced before, so that the whole-record call leaves it as it is.
fn assert_same_answers((record, operation): &Case) {
    let [group, whole] =
        [of_the_group as Call, on_the_whole].map(|call| left(call, record, *operation));
    assert_eq!(group, whole, "{operation:?}");
    assert_eq!(group.0, 0);
}
