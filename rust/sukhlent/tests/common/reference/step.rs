//! What an accepted call in place leaves, by the generators of its record.

use super::{expanded, is_element, reduced};
use crate::common::local::{complemented_record, sent};
use crate::common::operation::Operation;
use crate::common::seeded::pauli::{X, Y, Z};
use crate::common::seeded::{list, rows, Pauli};
use sukhlent::{Measured, Record};

/// The record that an accepted call leaves, and what a measurement answers.
pub fn after(record: &Record, operation: Operation) -> (Record, Option<Measured>) {
    let kept = |left: Record| {
        let used = record.used;
        (Record { used, ..left }, None)
    };
    match operation {
        Operation::Gate(q, code) => {
            let mut choice = vec![0; record.n()];
            choice[q as usize] = code;
            kept(reduced(&sent(&expanded(record), &choice)))
        }
        Operation::Cz(a, b) => {
            let joined = rows(&expanded(record));
            let joined = joined.iter().map(|row| cz(row, a as usize, b as usize));
            kept(reduced(&list(&joined.collect::<Vec<_>>())))
        }
        Operation::Measure(pauli, q, bit) => {
            let (left, determined) = measured(record, pauli, q as usize, bit);
            let used = record.used | 1 << q;
            let outcome = bit;
            let answer = Measured {
                outcome,
                determined,
            };
            (Record { used, ..left }, Some(answer))
        }
        Operation::Complement(a) => kept(complemented_record(record, a as usize)),
    }
}

/// A row under CZ: X or Y at one qubit brings Z at the other.
fn cz(row: &Pauli, a: usize, b: usize) -> Pauli {
    let n = row.letters.len();
    let mut image = Pauli::identity(n);
    image.phase = row.phase;
    for (q, &letter) in row.letters.iter().enumerate() {
        image = image.times(&Pauli::single(n, q, letter));
        let turns = letter == X || letter == Y;
        for (from, to) in [(a, b), (b, a)] {
            if q == from && turns {
                image = image.times(&Pauli::single(n, to, Z));
            }
        }
    }
    image
}

/// The reduced record after an outcome that the state allows, and whether the state determines it.
/// Where it does not, the Pauli takes the place of the first row that does not commute with it, and
/// this row goes into the others that do not.
fn measured(record: &Record, pauli: u8, q: usize, bit: u8) -> (Record, bool) {
    let given = expanded(record);
    let mut rows = rows(&given);
    let mut asked = Pauli::single(record.n(), q, [X, Y, Z][usize::from(pauli) - 1]);
    asked.phase = 2 * bit;
    if is_element(&rows, &asked) {
        return (reduced(&given), true);
    }
    let clashing = rows.iter().position(|row| !row.commutes(&asked));
    let first = clashing.expect("the state allows the outcome");
    let by = rows[first].clone();
    for row in rows.iter_mut().filter(|row| !row.commutes(&asked)) {
        *row = row.times(&by);
    }
    rows[first] = asked;
    (reduced(&list(&rows)), false)
}
