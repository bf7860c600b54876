//! The next call of a session.

use crate::common::{Operation, Random};
use sukhlent::Record;

/// The weights of gates, CZ, measurements and complements, each for so many calls a qubit from the
/// start on: calls that entangle, all kinds with few measurements, and calls that measure until
/// every qubit is used.
const WEIGHTS: [(usize, [usize; 4]); 3] = [
    (2, [44, 44, 2, 10]),
    (4, [28, 28, 4, 40]),
    (usize::MAX, [15, 15, 50, 20]),
];

/// A random call on a record, so many calls after the start. One of 10 names a qubit that is out of
/// range, one of 20 may have other arguments so, and one of 10 may name used qubits; the others name
/// qubits that are left.
pub fn next(random: &mut Random, record: &Record, number: usize) -> Operation {
    let kind = weighted(random, weights(number / record.n()));
    match random.below(20) {
        0 | 1 => beyond(random, kind, record.n()),
        2 => Operation::loose(random, kind, record.n()),
        3 | 4 => fitting(random, kind, &qubits(record, u64::MAX)),
        _ => fitting(random, kind, &qubits(record, !record.used)),
    }
}

/// The qubits of a record that a word marks.
fn qubits(record: &Record, word: u64) -> Vec<usize> {
    (0..record.n()).filter(|q| word >> q & 1 == 1).collect()
}

/// The weights after so many calls a qubit.
fn weights(mut calls: usize) -> [usize; 4] {
    let now = WEIGHTS.iter().find(|(length, _)| {
        let here = calls < *length;
        calls = calls.saturating_sub(*length);
        here
    });
    now.expect("the last has no end").1
}

/// A place, by its share of the weights, which have the sum 100.
fn weighted(random: &mut Random, weights: [usize; 4]) -> usize {
    let mut left = random.below(100);
    let fits = |&weight: &usize| {
        let here = left < weight;
        left = left.saturating_sub(weight);
        here
    };
    weights.iter().position(fits).expect("the sum is 100")
}

/// A call of one kind on some of the qubits, with arguments in range. Where there are no two qubits,
/// CZ is one to refuse.
fn fitting(random: &mut Random, kind: usize, among: &[usize]) -> Operation {
    let (n, k) = (among.len(), random.below(among.len()));
    let other = among[(k + 1 + random.below((n - 1).max(1))) % n];
    on(random, kind, among[k] as u64, other as u64)
}

/// A call of one kind that names a qubit at or above n: just above, or far; of a CZ either.
fn beyond(random: &mut Random, kind: usize, n: usize) -> Operation {
    let far = [0, 1, 64, 1 << 8, 1 << 32, u64::MAX - 64];
    let a = n as u64 + far[random.below(far.len())];
    let b = random.below(n) as u64;
    match random.below(2) {
        1 if kind == 1 => Operation::Cz(b, a),
        _ => on(random, kind, a, b),
    }
}

/// A call of one kind at a qubit, and a CZ with another; other arguments are in range.
fn on(random: &mut Random, kind: usize, a: u64, b: u64) -> Operation {
    match kind {
        0 => Operation::Gate(a, random.below(24) as u8),
        1 => Operation::Cz(a, b),
        2 => Operation::Measure(1 + random.below(3) as u8, a, random.below(2) as u8),
        _ => Operation::Complement(a),
    }
}
