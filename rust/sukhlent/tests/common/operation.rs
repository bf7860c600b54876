//! The calls that rewrite a record in place, with their further arguments.

use super::seeded::Random;
use sukhlent::raw;

/// A call on a record in place.
#[derive(Clone, Copy, Debug, PartialEq, Eq)]
pub enum Operation {
    /// A qubit, and the code applied there.
    Gate(u64, u8),
    /// The two qubits of a CZ.
    Cz(u64, u64),
    /// A Pauli (1 X, 2 Y, 3 Z), a qubit and an outcome bit.
    Measure(u8, u64, u8),
    /// The vertex of a complementation.
    Complement(u64),
}

impl Operation {
    /// One of each call, on the first qubits.
    pub const EACH: [Operation; 4] = [
        Operation::Gate(0, 8),
        Operation::Cz(0, 1),
        Operation::Measure(3, 0, 1),
        Operation::Complement(0),
    ];

    /// A random call of one kind, 0 to 3, on n qubits; each argument may be one too large.
    pub fn loose(random: &mut Random, kind: usize, n: usize) -> Operation {
        let [a, b] = [0, 1].map(|_| random.below(n + 1) as u64);
        match kind {
            0 => Operation::Gate(a, random.below(25) as u8),
            1 => Operation::Cz(a, b),
            2 => Operation::Measure(random.below(5) as u8, a, random.below(3) as u8),
            _ => Operation::Complement(a),
        }
    }

    /// Whether the call names a qubit.
    pub fn names(self, q: usize) -> bool {
        let q = q as u64;
        match self {
            Operation::Gate(a, _) | Operation::Measure(_, a, _) | Operation::Complement(a) => {
                a == q
            }
            Operation::Cz(a, b) => a == q || b == q,
        }
    }

    /// The number that the call answers on a lent record. A measurement writes to the last three.
    pub fn call(
        self,
        n: u64,
        neighbours: &mut [u64],
        codes: &mut [u8],
        used: &mut u64,
        answer: &mut u8,
        determined: &mut u8,
    ) -> u8 {
        match self {
            Operation::Gate(qubit, code) => raw::gate(n, neighbours, codes, *used, qubit, code),
            Operation::Cz(a, b) => raw::cz(n, neighbours, codes, *used, a, b),
            Operation::Measure(pauli, qubit, outcome) => raw::measure(
                n, neighbours, codes, used, pauli, qubit, outcome, answer, determined,
            ),
            Operation::Complement(a) => raw::complement(n, neighbours, codes, *used, a),
        }
    }
}
