//! The generators of a record.

use crate::common::codes::image;
use crate::common::seeded::list;
use crate::common::seeded::pauli::{Pauli, I, X, Z};
use sukhlent::{GeneratorList, Record};

/// Generator j: X at j and Z at the neighbours of j, each place then sent through its code.
pub fn expanded(record: &Record) -> GeneratorList {
    let generator = |j: usize| {
        let mut row = Pauli::identity(record.n());
        for q in 0..record.n() {
            let letter = match record.neighbours[j] >> q & 1 {
                _ if q == j => X,
                1 => Z,
                _ => I,
            };
            let (phase, sent) = image(record.codes[q], letter);
            row.phase = (row.phase + phase) % 4;
            row.letters[q] = sent;
        }
        row
    };
    let rows: Vec<Pauli> = (0..record.n()).map(generator).collect();
    list(&rows)
}
