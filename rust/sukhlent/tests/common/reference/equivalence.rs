//! The least choice of local Cliffords between two states, by listing every solution.
//!
//! A choice sends the letter with bits (z, x) at a qubit to (a z + b x, c z + d x). It carries the
//! first group onto the second up to signs exactly if each image commutes with each generator of the
//! second: linear equations over 4n unknowns. All their solutions are listed, those that are
//! invertible at every qubit are kept, and of these the least is taken. Then the least signs.

use crate::common::codes::{image, images};
use crate::common::seeded::Pauli;

/// A set of bits, up to 257 of them.
type Bits = [u64; 5];

fn bit(bits: &Bits, i: usize) -> bool {
    bits[i / 64] >> (i % 64) & 1 == 1
}

fn flip(bits: &mut Bits, i: usize) {
    bits[i / 64] ^= 1 << (i % 64);
}

fn add(bits: &mut Bits, other: &Bits) {
    bits.iter_mut().zip(other).for_each(|(a, b)| *a ^= b);
}

/// Equations modulo 2 in echelon form: no other has the first unknown of one.
#[derive(Default)]
struct Echelon(Vec<(usize, Bits)>);

impl Echelon {
    /// What the equations leave of one.
    fn left(&self, mut row: Bits) -> Bits {
        for (pivot, held) in &self.0 {
            if bit(&row, *pivot) {
                add(&mut row, held);
            }
        }
        row
    }

    /// Adds an equation on the first `unknowns` bits; false where it says that 0 is 1.
    fn take(&mut self, row: Bits, unknowns: usize) -> bool {
        let row = self.left(row);
        let Some(pivot) = (0..unknowns).find(|&i| bit(&row, i)) else {
            return row == Bits::default();
        };
        for (_, held) in &mut self.0 {
            if bit(held, pivot) {
                add(held, &row);
            }
        }
        self.0.push((pivot, row));
        true
    }

    /// A basis of the solutions, all sums being 0.
    fn solutions(&self, unknowns: usize) -> Vec<Bits> {
        let free = (0..unknowns).filter(|&i| self.0.iter().all(|(pivot, _)| *pivot != i));
        free.map(|i| {
            let mut solution = Bits::default();
            flip(&mut solution, i);
            let with = self.0.iter().filter(|(_, row)| bit(row, i));
            with.for_each(|(pivot, _)| flip(&mut solution, *pivot));
            solution
        })
        .collect()
    }
}

/// The generators of a group in echelon form, to find elements by their letters.
pub struct Group(Vec<(usize, u8, Pauli)>);

impl Group {
    /// The group of independent generators that commute.
    pub fn new(generators: &[Pauli]) -> Group {
        let mut group = Group(Vec::new());
        for row in generators {
            let row = group.left(row);
            let q = row.letters.iter().position(|&letter| letter != 0);
            let q = q.expect("independent generators");
            let bit = row.letters[q] & row.letters[q].wrapping_neg();
            group.0.push((q, bit, row));
        }
        group
    }

    /// A row times the elements that clear its letters: the identity, with a sign, where the row or
    /// its negative is an element.
    pub fn left(&self, row: &Pauli) -> Pauli {
        let mut left = row.clone();
        for (q, bit, held) in &self.0 {
            if left.letters[*q] & bit != 0 {
                left = left.times(held);
            }
        }
        left
    }

    /// Whether a row, with its sign, is an element.
    pub fn has(&self, row: &Pauli) -> bool {
        self.left(row) == Pauli::identity(row.letters.len())
    }
}

/// The image of a row under a choice.
pub fn image_of(row: &Pauli, choice: &[u8]) -> Pauli {
    let mut sent = row.clone();
    for (letter, &code) in sent.letters.iter_mut().zip(choice) {
        let (phase, to) = image(code, *letter);
        sent.phase = (sent.phase + phase) % 4;
        *letter = to;
    }
    sent
}

/// The class whose matrix at a qubit is that of a solution.
fn class_at(solution: &Bits, q: usize) -> Option<u8> {
    (0..6).find(|&class| {
        let ((_, x), (_, z)) = images(4 * class);
        let matrix = [z >> 1, x >> 1, z & 1, x & 1];
        (0..4).all(|l| bit(solution, 4 * q + l) == (matrix[l] == 1))
    })
}

/// The classes of every choice that carries the first group onto the second up to signs; None where
/// there are more than 2^12 solutions to look through.
fn all_classes(first: &[Pauli], second: &[Pauli]) -> Option<Vec<Vec<u8>>> {
    let n = first.len();
    let mut equations = Echelon::default();
    for g in first {
        for h in second {
            let mut row = Bits::default();
            for q in 0..n {
                let [(gz, gx), (hz, hx)] =
                    [g, h].map(|p| (p.letters[q] & 2 != 0, p.letters[q] & 1 != 0));
                let four = [gz && hx, gx && hx, gz && hz, gx && hz];
                for l in (0..4).filter(|&l| four[l]) {
                    flip(&mut row, 4 * q + l);
                }
            }
            equations.take(row, 4 * n);
        }
    }
    let basis = equations.solutions(4 * n);
    if basis.len() > 12 {
        return None;
    }
    let sum = |k: usize| {
        let mut solution = Bits::default();
        let chosen = (0..basis.len()).filter(|j| k >> j & 1 == 1);
        chosen.for_each(|j| add(&mut solution, &basis[j]));
        solution
    };
    let classes = |solution: Bits| (0..n).map(|q| class_at(&solution, q)).collect();
    Some((0..1 << basis.len()).map(sum).filter_map(classes).collect())
}

/// The least choice that carries the first group onto the second: Some(None) where there is none, and
/// None where there are too many solutions to look through.
pub fn least_choice(first: &[Pauli], second: &[Pauli]) -> Option<Option<Vec<u8>>> {
    let classes = all_classes(first, second)?.into_iter().min();
    Some(classes.map(|classes| with_signs(first, second, &classes)))
}

/// The codes with these classes and the least signs.
fn with_signs(first: &[Pauli], second: &[Pauli], classes: &[u8]) -> Vec<u8> {
    let n = first.len();
    let group = Group::new(second);
    let plain: Vec<u8> = classes.iter().map(|class| 4 * class).collect();
    let mut equations = Echelon::default();
    for g in first {
        let left = group.left(&image_of(g, &plain));
        assert!(left.letters.iter().all(|&letter| letter == 0), "an element");
        let mut row = Bits::default();
        for q in 0..n {
            if g.letters[q] & 1 != 0 {
                flip(&mut row, 2 * q);
            }
            if g.letters[q] & 2 != 0 {
                flip(&mut row, 2 * q + 1);
            }
        }
        if left.phase == 2 {
            flip(&mut row, 2 * n);
        }
        assert!(equations.take(row, 2 * n), "signs that work");
    }
    // each sign in turn is 0 where the equations allow it
    let mut signs = Bits::default();
    for i in 0..2 * n {
        let mut row = Bits::default();
        flip(&mut row, i);
        if !equations.take(row, 2 * n) {
            flip(&mut signs, i);
        }
    }
    let sign = |i| u8::from(bit(&signs, i));
    let code = |q: usize| plain[q] + 2 * sign(2 * q) + sign(2 * q + 1);
    (0..n).map(code).collect()
}
