//! Matrices on one qubit.

use crate::complex::{Complex, TOLERANCE};
use std::f64::consts::FRAC_1_SQRT_2;
use std::ops::Mul;

const O: Complex = Complex::ZERO;
const ONE: Complex = Complex::ONE;
const MINUS_ONE: Complex = Complex::new(-1.0, 0.0);
const I: Complex = Complex::I;
const MINUS_I: Complex = Complex::new(0.0, -1.0);
const R: Complex = Complex::new(FRAC_1_SQRT_2, 0.0);
const MINUS_R: Complex = Complex::new(-FRAC_1_SQRT_2, 0.0);

/// A complex 2 x 2 matrix, indexed by row and then by column.
#[derive(Clone, Copy, Debug, PartialEq)]
pub struct Matrix2(pub [[Complex; 2]; 2]);

impl Matrix2 {
    /// The identity.
    pub const I: Matrix2 = Matrix2([[ONE, O], [O, ONE]]);
    /// The Pauli matrix X.
    pub const X: Matrix2 = Matrix2([[O, ONE], [ONE, O]]);
    /// The Pauli matrix Y.
    pub const Y: Matrix2 = Matrix2([[O, MINUS_I], [I, O]]);
    /// The Pauli matrix Z.
    pub const Z: Matrix2 = Matrix2([[ONE, O], [O, MINUS_ONE]]);
    /// The Hadamard matrix.
    pub const H: Matrix2 = Matrix2([[R, R], [R, MINUS_R]]);
    /// The phase matrix diag(1, i).
    pub const S: Matrix2 = Matrix2([[ONE, O], [O, I]]);

    /// The conjugate transpose.
    pub fn dagger(&self) -> Matrix2 {
        let m = &self.0;
        Matrix2([
            [m[0][0].conj(), m[1][0].conj()],
            [m[0][1].conj(), m[1][1].conj()],
        ])
    }

    /// The matrix times a complex factor.
    pub fn scale(&self, factor: Complex) -> Matrix2 {
        Matrix2(self.0.map(|row| row.map(|entry| factor * entry)))
    }

    /// Whether all entries are approximately equal.
    pub fn approx_eq(&self, other: &Matrix2) -> bool {
        self.entries()
            .zip(other.entries())
            .all(|(a, b)| a.approx_eq(b))
    }

    /// Whether the matrices are approximately equal up to a factor of absolute value 1.
    pub fn approx_eq_up_to_phase(&self, other: &Matrix2) -> bool {
        let inner = self
            .entries()
            .zip(other.entries())
            .fold(O, |sum, (a, b)| sum + a.conj() * b);
        let size = inner.norm_sqr().sqrt();
        if size < TOLERANCE {
            return self.approx_eq(other);
        }
        self.scale(inner.scale(1.0 / size)).approx_eq(other)
    }

    /// Whether the matrix times its conjugate transpose is the identity.
    pub fn is_unitary(&self) -> bool {
        (*self * self.dagger()).approx_eq(&Matrix2::I)
    }

    fn entries(&self) -> impl Iterator<Item = Complex> + '_ {
        self.0.iter().flatten().copied()
    }
}

impl Mul for Matrix2 {
    type Output = Matrix2;
    fn mul(self, other: Matrix2) -> Matrix2 {
        let (a, b) = (&self.0, &other.0);
        let entry = |r: usize, c: usize| a[r][0] * b[0][c] + a[r][1] * b[1][c];
        Matrix2([[entry(0, 0), entry(0, 1)], [entry(1, 0), entry(1, 1)]])
    }
}

/// The operator `p` conjugated by `u`: `u p u†`.
pub fn conjugate(u: &Matrix2, p: &Matrix2) -> Matrix2 {
    *u * *p * u.dagger()
}

/// The matrix of a letter: 0 I, 1 X, 2 Z, 3 Y. Panics on other codes.
pub fn letter_matrix(letter: u8) -> Matrix2 {
    match letter {
        0 => Matrix2::I,
        1 => Matrix2::X,
        2 => Matrix2::Z,
        3 => Matrix2::Y,
        _ => panic!("letter code out of range 0..4: {letter}"),
    }
}

/// The pair (phase, letter) for which `m` is `i^phase` times the letter, if there is one.
pub fn letter_of(m: &Matrix2) -> Option<(u8, u8)> {
    (0..4)
        .flat_map(|phase| (0..4).map(move |letter| (phase, letter)))
        .find(|&(phase, letter)| m.approx_eq(&letter_matrix(letter).scale(Complex::i_pow(phase))))
}

#[cfg(test)]
mod tests {
    use super::*;

    fn minus(m: Matrix2) -> Matrix2 {
        m.scale(MINUS_ONE)
    }

    #[test]
    fn hadamard_swaps_x_and_z_and_negates_y() {
        assert!(conjugate(&Matrix2::H, &Matrix2::X).approx_eq(&Matrix2::Z));
        assert!(conjugate(&Matrix2::H, &Matrix2::Z).approx_eq(&Matrix2::X));
        assert!(conjugate(&Matrix2::H, &Matrix2::Y).approx_eq(&minus(Matrix2::Y)));
    }

    #[test]
    fn phase_gate_turns_x_to_y_to_minus_x() {
        assert!(conjugate(&Matrix2::S, &Matrix2::X).approx_eq(&Matrix2::Y));
        assert!(conjugate(&Matrix2::S, &Matrix2::Y).approx_eq(&minus(Matrix2::X)));
        assert!(conjugate(&Matrix2::S, &Matrix2::Z).approx_eq(&Matrix2::Z));
        assert!((Matrix2::S * Matrix2::S).approx_eq(&Matrix2::Z));
    }

    #[test]
    fn pauli_products_are_cyclic() {
        let (x, y, z) = (Matrix2::X, Matrix2::Y, Matrix2::Z);
        for (a, b, c) in [(x, y, z), (y, z, x), (z, x, y)] {
            assert!((a * b).approx_eq(&c.scale(I)));
            assert!((b * a).approx_eq(&c.scale(MINUS_I)));
            assert!((a * a).approx_eq(&Matrix2::I));
        }
    }

    #[test]
    fn dagger_transposes_and_conjugates() {
        let m = Matrix2([[ONE, I], [R, MINUS_I]]);
        assert_eq!(m.dagger(), Matrix2([[ONE, R], [MINUS_I, I]]));
        assert!(!Matrix2::S.dagger().approx_eq(&Matrix2::S));
    }

    #[test]
    fn equality_up_to_phase_ignores_only_the_phase() {
        let turned = Matrix2::H.scale(Complex::new(0.6, -0.8));
        assert!(!turned.approx_eq(&Matrix2::H));
        assert!(turned.approx_eq_up_to_phase(&Matrix2::H));
        let longer = Matrix2::H.scale(Complex::new(2.0, 0.0));
        assert!(!longer.approx_eq_up_to_phase(&Matrix2::H));
        assert!(!Matrix2::X.approx_eq_up_to_phase(&Matrix2::Z));
        assert!(!Matrix2::S.approx_eq_up_to_phase(&Matrix2::S.dagger()));
        assert!(!Matrix2::S.approx_eq_up_to_phase(&Matrix2::I));
    }

    #[test]
    fn unitarity() {
        assert!(Matrix2::H.is_unitary());
        assert!((Matrix2::S * Matrix2::H * Matrix2::Y).is_unitary());
        assert!(!Matrix2([[ONE, ONE], [O, ONE]]).is_unitary());
        assert!(!Matrix2::X.scale(R).is_unitary());
    }

    #[test]
    fn letter_of_recognises_all_sixteen_and_nothing_else() {
        for phase in 0..4 {
            let factor = Complex::i_pow(phase);
            assert_eq!(letter_of(&Matrix2::I.scale(factor)), Some((phase, 0)));
            assert_eq!(letter_of(&Matrix2::X.scale(factor)), Some((phase, 1)));
            assert_eq!(letter_of(&Matrix2::Z.scale(factor)), Some((phase, 2)));
            assert_eq!(letter_of(&Matrix2::Y.scale(factor)), Some((phase, 3)));
        }
        assert_eq!(letter_of(&Matrix2::H), None);
        assert_eq!(letter_of(&Matrix2::S), None);
        assert_eq!(letter_of(&Matrix2::X.scale(Complex::new(0.6, 0.8))), None);
        assert_eq!(letter_of(&(Matrix2::X * Matrix2::Z)), Some((3, 3)));
    }

    #[test]
    #[should_panic(expected = "letter code out of range")]
    fn letter_matrix_refuses_other_codes() {
        letter_matrix(4);
    }
}
