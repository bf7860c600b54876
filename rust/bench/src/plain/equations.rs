//! Linear equations modulo 2, four unknowns for each of up to 20 qubits.
//!
//! An equation is a word: bit 0 is the sum, bit 4q + l + 1 the coefficient of unknown l at qubit q.
//! An assignment has bit 0 set and the values in the same places, so that it solves the equation
//! exactly if both have an even number of ones in common.

use super::places;

/// An equation or an assignment.
pub type Word = u128;

/// The place of unknown 0 at a qubit.
fn place(q: usize) -> usize {
    4 * q + 1
}

/// The word whose unknowns at qubit q are the four bits given.
pub fn unknowns(q: usize, bits: u8) -> Word {
    Word::from(bits) << place(q)
}

/// The word whose unknowns at each qubit of a set are the four bits given.
pub fn spread(qubits: u64, bits: u8) -> Word {
    places(qubits).fold(0, |word, q| word | unknowns(q, bits))
}

/// Equations, each at the place of its last unknown; 0 where there is none.
pub struct Table([Word; 81]);

impl Table {
    /// The table without equations.
    pub fn new() -> Table {
        Table([0; 81])
    }

    /// Adds an equation, unless its left side is a sum of those in the table.
    pub fn insert(&mut self, mut equation: Word) {
        while equation > 1 {
            let held = &mut self.0[equation.ilog2() as usize];
            if *held == 0 {
                *held = equation;
                return;
            }
            equation ^= *held;
        }
    }

    /// Whether an equation whose last unknown is at qubit q fails.
    pub fn broken(&self, q: usize, assignment: Word) -> bool {
        let held = &self.0[place(q)..place(q + 1)];
        held.iter().any(|equation| fails(*equation, assignment))
    }

    /// Whether an equation on qubit q alone fails.
    pub fn broken_alone(&self, q: usize, assignment: Word) -> bool {
        let alone = 1 | unknowns(q, 0b1111);
        let held = &self.0[place(q)..place(q + 1)];
        let mut alone = held.iter().filter(|&equation| equation & !alone == 0);
        alone.any(|equation| fails(*equation, assignment))
    }

    /// The least solution: an unknown is 1 only where the equation that ends with it asks for it.
    pub fn least(&self) -> Word {
        let ends = self.0.iter().enumerate().skip(1);
        ends.fold(1, |word, (place, equation)| {
            word | Word::from(fails(*equation, word)) << place
        })
    }
}

/// Whether an assignment does not solve an equation.
fn fails(equation: Word, assignment: Word) -> bool {
    (equation & assignment).count_ones() % 2 == 1
}
