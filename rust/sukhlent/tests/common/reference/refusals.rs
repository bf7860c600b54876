//! The refusals of lists and records, line by line.

use crate::common::complementations::LIST_PLACES;
use crate::common::operation::Operation;
use crate::common::reference::{expanded, is_element};
use crate::common::seeded::pauli::{X, Y, Z};
use crate::common::seeded::{rows, Pauli};
use sukhlent::{GeneratorList, Record};

/// The first line that is true of a generator list and of further buffers of n places.
pub fn list_refusal(n: u64, signs: &[u8], z: &[u64], x: &[u64], others: &[usize]) -> u8 {
    let lengths = [&[signs.len(), z.len(), x.len()], others].concat();
    if n == 0 || n > 64 {
        return 2;
    }
    if lengths.iter().any(|&length| length as u64 != n) {
        return 4;
    }
    if z.iter().chain(x).any(|&word| stray(word, n)) {
        return 5;
    }
    if signs.iter().any(|&sign| sign > 1) {
        return 6;
    }
    let rows = rows(&GeneratorList {
        signs: signs.to_vec(),
        z: z.to_vec(),
        x: x.to_vec(),
    });
    if rows.iter().any(|a| rows.iter().any(|b| !a.commutes(b))) {
        return 9;
    }
    if dependent(&rows) {
        return 10;
    }
    0
}

/// The first line that is true of a record and of further buffers of n places.
pub fn record_refusal(n: u64, record: &Record, others: &[usize]) -> u8 {
    let (neighbours, codes) = (&record.neighbours, &record.codes);
    let lengths = [&[neighbours.len(), codes.len()], others].concat();
    if n == 0 || n > 64 {
        return 2;
    }
    if lengths.iter().any(|&length| length as u64 != n) {
        return 4;
    }
    if neighbours.iter().any(|&word| stray(word, n)) || stray(record.used, n) {
        return 5;
    }
    if codes.iter().any(|&code| code > 23) {
        return 6;
    }
    let n = n as usize;
    let edge = |a: usize, b: usize| neighbours[a] >> b & 1 == 1;
    if (0..n).any(|a| edge(a, a) || (0..n).any(|b| edge(a, b) != edge(b, a))) {
        return 7;
    }
    let measured = |q: usize| neighbours[q] == 0 && [0, 2, 4, 6, 8, 10].contains(&codes[q]);
    if used_qubits(record).any(|q| !measured(q)) {
        return 7;
    }
    0
}

/// The used qubits of a record, rising.
fn used_qubits(record: &Record) -> impl Iterator<Item = usize> + '_ {
    (0..record.n()).filter(|q| record.used >> q & 1 == 1)
}

/// The first line that is true of a call on a record in place.
pub fn in_place_refusal(n: u64, record: &Record, operation: Operation) -> u8 {
    match (argument_refusal(n, record, operation), operation) {
        (0, Operation::Measure(pauli, q, bit)) => {
            14 * u8::from(contradicted(record, pauli, q as usize, bit))
        }
        (number, _) => number,
    }
}

/// Whether the Pauli with the sign that the bit does not have is in a record's group.
fn contradicted(record: &Record, pauli: u8, q: usize, bit: u8) -> bool {
    let letter = [X, Y, Z][usize::from(pauli) - 1];
    let mut other = Pauli::single(record.n(), q, letter);
    other.phase = 2 * (1 - bit);
    is_element(&rows(&expanded(record)), &other)
}

/// The first line before 14 that is true of a call on a record in place.
pub fn argument_refusal(n: u64, record: &Record, operation: Operation) -> u8 {
    let of_record = record_refusal(n, record, &[]);
    let six = match operation {
        Operation::Gate(_, code) => code > 23,
        Operation::Measure(pauli, _, outcome) => !(1..=3).contains(&pauli) || outcome > 1,
        _ => false,
    };
    if six && ![2, 4, 5].contains(&of_record) {
        return 6;
    }
    if of_record != 0 {
        return of_record;
    }
    let eight = match operation {
        Operation::Gate(q, _) | Operation::Measure(_, q, _) | Operation::Complement(q) => q >= n,
        Operation::Cz(a, b) => a >= n || b >= n || a == b,
    };
    if eight {
        return 8;
    }
    if used_qubits(record).any(|q| operation.names(q)) {
        return 16;
    }
    0
}

/// The first of lines 2 to 7 that is true of an image: of a record without its used word, of further
/// buffers of n places and of the list's places. None where the image rule decides.
pub fn image_refusal(n: u64, record: &Record, others: &[usize], list: usize) -> Option<u8> {
    let unused = Record {
        used: 0,
        ..record.clone()
    };
    let of_record = record_refusal(n, &unused, others);
    first_of(&[(of_record != 0, of_record), (list != LIST_PLACES, 4)])
}

/// The first line that is true of a cut, or of an amplitude: of a record and of the side, or the word.
pub fn cut_refusal(n: u64, record: &Record, side: u64) -> u8 {
    match record_refusal(n, record, &[]) {
        number @ (2 | 4) => number,
        _ if stray(side, n) => 5,
        number => number,
    }
}

/// The first line that is true of the value of a row: of a record and of the two words.
pub fn expectation_refusal(n: u64, record: &Record, z: u64, x: u64) -> u8 {
    match record_refusal(n, record, &[]) {
        number @ (2 | 4) => number,
        _ if stray(z, n) || stray(x, n) => 5,
        number => number,
    }
}

/// The first line that is true of a product: of a list, its lines 9 and 10 apart, and of the word.
pub fn product_refusal(n: u64, signs: &[u8], z: &[u64], x: &[u64], chosen: u64) -> u8 {
    match list_refusal(n, signs, z, x, &[]) {
        number @ (2 | 4) => number,
        _ if stray(chosen, n) => 5,
        number @ (5 | 6) => number,
        _ => 0,
    }
}

/// The first of lines 2 to 10 that is true of a comparison: of two lists with their n and the
/// first line that is true of each, or 0, of the choice's places and of the list's. None where line
/// 3 or the search decides.
pub fn pair_refusal(n: [u64; 2], of_lists: [u8; 2], choice: usize, list: usize) -> Option<u8> {
    first_of(&[
        (n[0] != n[1], 2),
        (choice as u64 != n[0] || list != LIST_PLACES, 4),
        (of_lists[0] != 0, of_lists[0]),
        (of_lists[1] != 0, of_lists[1]),
    ])
}

/// The first number in checking order of the lines that are true.
fn first_of(lines: &[(bool, u8)]) -> Option<u8> {
    let held = lines.iter().filter(|(holds, _)| *holds);
    held.map(|&(_, number)| number).min()
}

/// Whether a word has a bit at or above n.
fn stray(word: u64, n: u64) -> bool {
    (n..64).any(|q| word >> q & 1 == 1)
}

/// Whether some product of generators is the identity, signs dropped.
fn dependent(rows: &[Pauli]) -> bool {
    let mut left: Vec<Vec<u8>> = rows.iter().map(|row| row.letters.clone()).collect();
    while let Some(row) = left.pop() {
        // A place and a bit of it that this row has: clear them from all the others.
        let Some(q) = row.iter().position(|&letter| letter != 0) else {
            return true;
        };
        let bit = row[q] & row[q].wrapping_neg();
        for other in left.iter_mut().filter(|other| other[q] & bit != 0) {
            other.iter_mut().zip(&row).for_each(|(a, b)| *a ^= b);
        }
    }
    false
}
