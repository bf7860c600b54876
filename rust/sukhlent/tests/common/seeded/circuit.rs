//! Clifford circuits, and what they make of basis states.

use super::pauli::{letter_product, Pauli, X, Y, Z};
use random::Random;

/// A gate of a Clifford circuit.
#[derive(Clone, Copy, Debug)]
pub enum Gate {
    /// The Hadamard.
    H(usize),
    /// The phase gate.
    S(usize),
    /// The controlled Z.
    Cz(usize, usize),
}

/// Gates on a basis state of n qubits.
#[derive(Clone, Debug)]
pub struct Circuit {
    /// The number of qubits.
    pub n: usize,
    /// The basis state: bit q is the value of qubit q.
    pub start: u64,
    /// The gates, in time order.
    pub gates: Vec<Gate>,
}

impl Circuit {
    /// A random circuit of so many gates.
    pub fn random(random: &mut Random, n: usize, length: usize) -> Circuit {
        let start = random.word() >> (64 - n);
        let gates = (0..length).map(|_| match random.below(4) {
            0 => Gate::H(random.below(n)),
            1 => Gate::S(random.below(n)),
            _ if n == 1 => Gate::H(0),
            _ => {
                let (a, b) = random.pair_below(n);
                Gate::Cz(a, b)
            }
        });
        let gates = gates.collect();
        Circuit { n, start, gates }
    }
}

/// The generators of the state that a circuit makes: the images of Z or -Z at each qubit.
pub fn stabilizers(circuit: &Circuit) -> Vec<Pauli> {
    let image = |q| {
        let mut row = Pauli::single(circuit.n, q, Z);
        row.phase = 2 * (circuit.start >> q & 1) as u8;
        circuit.gates.iter().for_each(|&g| conjugate(&mut row, g));
        row
    };
    (0..circuit.n).map(image).collect()
}

/// Sends an operator P to U P U† for a gate U.
fn conjugate(row: &mut Pauli, gate: Gate) {
    let letters = &mut row.letters;
    match gate {
        Gate::H(q) => match letters[q] {
            X => letters[q] = Z,
            Z => letters[q] = X,
            Y => row.phase = (row.phase + 2) % 4,
            _ => (),
        },
        Gate::S(q) => match letters[q] {
            X => letters[q] = Y,
            Y => {
                letters[q] = X;
                row.phase = (row.phase + 2) % 4;
            }
            _ => (),
        },
        Gate::Cz(a, b) => {
            // X and Y at a gain a Z at b, and the other way round.
            let (at_a, at_b) = (letters[a], letters[b]);
            let z_where = |letter| if letter == X || letter == Y { Z } else { 0 };
            let (turn_a, new_a) = letter_product(at_a, z_where(at_b));
            let (turn_b, new_b) = letter_product(z_where(at_a), at_b);
            (letters[a], letters[b]) = (new_a, new_b);
            row.phase = (row.phase + turn_a + turn_b) % 4;
        }
    }
}
