//! Generator lists of random states.

use super::circuit::{stabilizers, Circuit};
use super::pauli::Pauli;
use random::Random;
use sukhlent::GeneratorList;

/// The list of the given generators.
pub fn list(rows: &[Pauli]) -> GeneratorList {
    let word = |row: &Pauli, bit: u8| {
        let places = row.letters.iter().enumerate();
        places.fold(0, |w, (q, l)| w | u64::from(l & bit != 0) << q)
    };
    assert!(rows.iter().all(|row| row.phase % 2 == 0), "no signs");
    GeneratorList {
        signs: rows.iter().map(|row| row.phase / 2).collect(),
        z: rows.iter().map(|row| word(row, 2)).collect(),
        x: rows.iter().map(|row| word(row, 1)).collect(),
    }
}

/// The list of generators written as an optional sign and a letter per qubit, qubit 0 first.
pub fn parsed(texts: &[&str]) -> GeneratorList {
    let rows: Vec<Pauli> = texts.iter().map(|text| Pauli::parse(text)).collect();
    list(&rows)
}

/// The generators of a list.
pub fn rows(list: &GeneratorList) -> Vec<Pauli> {
    let row = |j: usize| Pauli {
        phase: 2 * list.signs[j],
        letters: (0..list.n())
            .map(|q| 2 * (list.z[j] >> q & 1) as u8 + (list.x[j] >> q & 1) as u8)
            .collect(),
    };
    (0..list.n()).map(row).collect()
}

/// Other generators of the same group: random products and exchanges.
pub fn mixed(random: &mut Random, rows: &[Pauli]) -> Vec<Pauli> {
    let mut rows = rows.to_vec();
    if rows.len() > 1 {
        for _ in 0..8 * rows.len() {
            let (a, b) = random.pair_below(rows.len());
            rows[a] = rows[a].times(&rows[b]);
            let (a, b) = random.pair_below(rows.len());
            rows.swap(a, b);
        }
    }
    rows
}

/// Mixed generators of a random state, by a circuit of up to 6n gates.
pub fn random_rows(random: &mut Random, n: usize) -> Vec<Pauli> {
    let length = random.below(6 * n + 1);
    let rows = stabilizers(&Circuit::random(random, n, length));
    mixed(random, &rows)
}
