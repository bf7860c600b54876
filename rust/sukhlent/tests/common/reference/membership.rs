//! Elements of a group.

use crate::common::reference::expanded;
use crate::common::seeded::{rows, Pauli};
use sukhlent::Record;

/// Whether an operator, with its sign, is a product of commuting generators.
///
/// Each generator in turn clears one of its bits from the others and from the operator, which is
/// an element exactly if nothing is left of it.
pub fn is_element(generators: &[Pauli], asked: &Pauli) -> bool {
    if generators.iter().any(|row| !row.commutes(asked)) {
        return false;
    }
    let mut left = generators.to_vec();
    let mut rest = asked.clone();
    while let Some(row) = left.pop() {
        let Some(q) = row.letters.iter().position(|&letter| letter != 0) else {
            continue;
        };
        let bit = row.letters[q] & row.letters[q].wrapping_neg();
        let all = left.iter_mut().chain([&mut rest]);
        for other in all.filter(|other| other.letters[q] & bit != 0) {
            *other = other.times(&row);
        }
    }
    rest == Pauli::identity(asked.letters.len())
}

/// The value of a row with these words: 0 where it is an element of the record's group, 1 where its
/// negative is, 2 where neither is.
pub fn row_value(record: &Record, z: u64, x: u64) -> u8 {
    let generators = rows(&expanded(record));
    let signed = |phase: u8| {
        let letter = |q: usize| 2 * (z >> q & 1) as u8 + (x >> q & 1) as u8;
        let letters = (0..record.n()).map(letter).collect();
        is_element(&generators, &Pauli { phase, letters })
    };
    match (signed(0), signed(2)) {
        (true, false) => 0,
        (false, true) => 1,
        (false, false) => 2,
        (true, true) => panic!("both signs are in the group of {record:?}"),
    }
}
