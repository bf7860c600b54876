//! The reduced record of a list's group (001, Theorem 1).

use crate::common::seeded::pauli::{Pauli, I, X, Y, Z};
use crate::common::seeded::rows;
use sukhlent::{GeneratorList, Record};

/// The reduced record of commuting, independent generators; no qubit is used.
pub fn reduced(list: &GeneratorList) -> Record {
    let mut rows = rows(list);
    let kept = kept_qubits(&rows);
    rows.iter_mut().for_each(|row| hadamards(row, &kept));
    let generators = combinations(&rows);
    let vertices = generators.iter().enumerate();
    Record {
        neighbours: vertices.clone().map(|(j, g)| neighbours(g, j)).collect(),
        codes: vertices.map(|(j, g)| code(g, j, kept[j])).collect(),
        used: 0,
    }
}

/// For each qubit, whether its x bits over the list are independent of those of earlier qubits.
fn kept_qubits(rows: &[Pauli]) -> Vec<bool> {
    let mut basis: Vec<Vec<bool>> = Vec::new();
    let mut kept = Vec::new();
    for q in 0..rows.len() {
        let mut column: Vec<bool> = rows.iter().map(|row| has_x(row.letters[q])).collect();
        for other in &basis {
            let lead = other.iter().position(|&bit| bit).unwrap();
            if column[lead] {
                column.iter_mut().zip(other).for_each(|(a, b)| *a ^= b);
            }
        }
        kept.push(column.contains(&true));
        if kept[q] {
            basis.push(column);
        }
    }
    kept
}

/// A Hadamard at each qubit that is not kept.
fn hadamards(row: &mut Pauli, kept: &[bool]) {
    for (letter, _) in row.letters.iter_mut().zip(kept).filter(|(_, &kept)| !kept) {
        match *letter {
            X => *letter = Z,
            Z => *letter = X,
            Y => row.phase = (row.phase + 2) % 4,
            _ => (),
        }
    }
}

/// The group's generators with X or Y at their own qubit and only I or Z elsewhere.
///
/// Finds which rows to multiply by inverting the matrix of x bits, then multiplies them.
fn combinations(rows: &[Pauli]) -> Vec<Pauli> {
    let n = rows.len();
    let mut bits: Vec<Vec<bool>> = (rows.iter().enumerate())
        .map(|(k, row)| {
            let own = (0..n).map(|m| m == k);
            row.letters.iter().map(|&l| has_x(l)).chain(own).collect()
        })
        .collect();
    for q in 0..n {
        let pivot = (q..n).find(|&k| bits[k][q]).expect("full rank");
        bits.swap(q, pivot);
        let row = bits[q].clone();
        for other in (0..n).filter(|&k| k != q) {
            if bits[other][q] {
                bits[other].iter_mut().zip(&row).for_each(|(a, b)| *a ^= b);
            }
        }
    }
    (0..n)
        .map(|j| {
            let chosen = (0..n).filter(|k| bits[j][n + k]);
            chosen.fold(Pauli::identity(n), |product, k| product.times(&rows[k]))
        })
        .collect()
}

/// The Z places of generator j, its own qubit apart.
fn neighbours(generator: &Pauli, j: usize) -> u64 {
    let mut word = 0;
    for (q, &letter) in generator
        .letters
        .iter()
        .enumerate()
        .filter(|(q, _)| *q != j)
    {
        assert!(letter == I || letter == Z, "{generator:?} at {q}");
        word |= u64::from(letter == Z) << q;
    }
    word
}

/// The code: 0 for +X, 2 for -X, 4 for +Y, 6 for -Y, followed by 8 where the Hadamard was used.
fn code(generator: &Pauli, j: usize, kept: bool) -> u8 {
    match (generator.letters[j], generator.phase, kept) {
        (X, 0, true) => 0,
        (X, 2, true) => 2,
        (Y, 0, true) => 4,
        (Y, 2, true) => 6,
        // First X to -X, then the Hadamard: X goes to -Z and Z to X.
        (X, 0, false) => 8,
        (X, 2, false) => 10,
        _ => panic!("no reduced generator: {generator:?}"),
    }
}

fn has_x(letter: u8) -> bool {
    letter == X || letter == Y
}
