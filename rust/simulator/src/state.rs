//! State vectors.

use crate::complex::Complex;
use crate::matrix::Matrix2;
use crate::row::Row;

/// The largest number of qubits of a state.
pub const MAX_QUBITS: usize = 10;

/// Outcomes less likely than this count as impossible.
pub const MIN_PROBABILITY: f64 = 1e-9;

/// A normalised pure state on `n` qubits, 1 to 10.
#[derive(Clone, Debug, PartialEq)]
pub struct State {
    n: usize,
    amplitudes: Vec<Complex>,
}

impl State {
    /// The state in which every qubit is 0. Panics unless `1 <= n <= 10`.
    pub fn zero(n: usize) -> State {
        State::basis(n, 0)
    }

    /// The basis state with index `y`. Panics unless `1 <= n <= 10` and `y < 2^n`.
    pub fn basis(n: usize, y: usize) -> State {
        assert!(
            (1..=MAX_QUBITS).contains(&n),
            "number of qubits out of range 1..={MAX_QUBITS}: {n}"
        );
        assert!(y < 1 << n, "basis state {y} out of range of {n} qubits");
        let mut amplitudes = vec![Complex::ZERO; 1 << n];
        amplitudes[y] = Complex::ONE;
        State { n, amplitudes }
    }

    /// The number of qubits.
    pub fn n(&self) -> usize {
        self.n
    }

    /// The amplitudes by basis index.
    pub fn amplitudes(&self) -> &[Complex] {
        &self.amplitudes
    }

    /// Applies `u` to qubit `q`. Panics if `q` is out of range or `u` is not unitary.
    pub fn apply(&mut self, q: usize, u: &Matrix2) {
        self.check_qubit(q);
        assert!(u.is_unitary(), "not unitary: {u:?}");
        for y in (0..self.amplitudes.len()).filter(|y| y >> q & 1 == 0) {
            let (low, high) = (self.amplitudes[y], self.amplitudes[y | 1 << q]);
            self.amplitudes[y] = u.0[0][0] * low + u.0[0][1] * high;
            self.amplitudes[y | 1 << q] = u.0[1][0] * low + u.0[1][1] * high;
        }
    }

    /// Applies CZ to two qubits. Panics if one is out of range or they are the same.
    pub fn cz(&mut self, a: usize, b: usize) {
        self.check_qubit(a);
        self.check_qubit(b);
        assert!(a != b, "CZ needs two different qubits: {a}");
        for (y, amplitude) in self.amplitudes.iter_mut().enumerate() {
            if y >> a & 1 == 1 && y >> b & 1 == 1 {
                *amplitude = -*amplitude;
            }
        }
    }

    /// Applies the operator `row`. Panics if the row does not fit or its phase is above 3.
    pub fn apply_row(&mut self, row: &Row) {
        self.amplitudes = self.times(row);
    }

    /// The value `<psi| row |psi>`. Panics if the row does not fit or its phase is above 3.
    pub fn expectation(&self, row: &Row) -> Complex {
        inner(&self.amplitudes, &self.times(row))
    }

    /// The probability of outcome 0 (value +1) or 1 (value -1) when the signed row is measured.
    ///
    /// Panics if the row is not signed or does not fit, or on another outcome.
    pub fn probability(&self, row: &Row, outcome: u8) -> f64 {
        let part = self.component(row, outcome);
        inner(&part, &part).re
    }

    /// The state after the signed row was measured with this outcome, normalised.
    ///
    /// None where the probability is below [`MIN_PROBABILITY`]. Panics if the
    /// row is not signed or does not fit, or on another outcome than 0 and 1.
    pub fn project(&self, row: &Row, outcome: u8) -> Option<State> {
        let part = self.component(row, outcome);
        let probability = inner(&part, &part).re;
        if probability < MIN_PROBABILITY {
            return None;
        }
        let factor = 1.0 / probability.sqrt();
        let amplitudes = part.into_iter().map(|a| a.scale(factor)).collect();
        Some(State {
            n: self.n,
            amplitudes,
        })
    }

    /// The squared absolute value of `<self|other>`. Panics on different numbers of qubits.
    pub fn overlap(&self, other: &State) -> f64 {
        assert_eq!(self.n, other.n, "states on different numbers of qubits");
        inner(&self.amplitudes, &other.amplitudes).norm_sqr()
    }

    /// Whether the signed row leaves the state as it is. Panics if it is not signed or does not fit.
    pub fn is_stabilized(&self, row: &Row) -> bool {
        check_signed(row);
        (self.times(row).iter())
            .zip(&self.amplitudes)
            .all(|(a, b)| a.approx_eq(*b))
    }

    /// A state on which every signed row has the value +1, or None where there is none.
    ///
    /// Panics if `n` is out of range or a row is not signed or does not fit.
    pub fn stabilized_by(n: usize, rows: &[Row]) -> Option<State> {
        let first = State::zero(n);
        rows.iter().for_each(|row| {
            check_signed(row);
            row.check(n);
        });
        // The projections of all basis states span the common +1 eigenspace of
        // commuting rows. Rows that do not commute fail the check at the end.
        std::iter::once(first)
            .chain((1..1 << n).map(|y| State::basis(n, y)))
            .filter_map(|start| {
                rows.iter()
                    .try_fold(start, |state, row| state.project(row, 0))
            })
            .find(|state| rows.iter().all(|row| state.is_stabilized(row)))
    }

    /// The vector `row |psi>`.
    fn times(&self, row: &Row) -> Vec<Complex> {
        row.check(self.n);
        // Each letter flips the bits of x; Z and Y give -1 on a bit 1, and
        // Y = i X Z gives a further factor i.
        let letters_y = (row.z & row.x).count_ones() as u8;
        let factor = Complex::i_pow(row.phase + letters_y);
        let mut result = vec![Complex::ZERO; self.amplitudes.len()];
        for (y, &amplitude) in self.amplitudes.iter().enumerate() {
            let odd = (y as u64 & row.z).count_ones() % 2 == 1;
            let image = factor * amplitude;
            result[y ^ row.x as usize] = if odd { -image } else { image };
        }
        result
    }

    /// The part of the vector in the eigenspace of `row` that belongs to `outcome`.
    fn component(&self, row: &Row, outcome: u8) -> Vec<Complex> {
        check_signed(row);
        assert!(outcome < 2, "outcome is neither 0 nor 1: {outcome}");
        let value = if outcome == 0 { 1.0 } else { -1.0 };
        (self.amplitudes.iter())
            .zip(self.times(row))
            .map(|(a, b)| (*a + b.scale(value)).scale(0.5))
            .collect()
    }

    fn check_qubit(&self, q: usize) {
        assert!(q < self.n, "qubit {q} out of range of {} qubits", self.n);
    }
}

/// The inner product `<a|b>`.
fn inner(a: &[Complex], b: &[Complex]) -> Complex {
    a.iter()
        .zip(b)
        .fold(Complex::ZERO, |sum, (a, b)| sum + a.conj() * *b)
}

/// Panics unless the row is signed.
fn check_signed(row: &Row) {
    assert!(row.is_signed(), "not a signed row: {row:?}");
}

#[cfg(test)]
mod tests {
    use super::*;
    use std::f64::consts::FRAC_1_SQRT_2;

    fn close(a: f64, b: f64) -> bool {
        (a - b).abs() < 1e-9
    }

    fn assert_amplitudes(state: &State, expected: &[(f64, f64)]) {
        assert_eq!(state.amplitudes().len(), expected.len());
        for (y, (a, &(re, im))) in state.amplitudes().iter().zip(expected).enumerate() {
            assert!(a.approx_eq(Complex::new(re, im)), "amplitude {y} is {a:?}");
        }
    }

    #[test]
    fn basis_states_have_one_amplitude() {
        assert_amplitudes(&State::zero(1), &[(1.0, 0.0), (0.0, 0.0)]);
        let state = State::basis(2, 2);
        assert_amplitudes(&state, &[(0.0, 0.0), (0.0, 0.0), (1.0, 0.0), (0.0, 0.0)]);
        assert_eq!(state.n(), 2);
    }

    #[test]
    fn apply_acts_on_its_qubit() {
        let mut state = State::zero(2);
        state.apply(1, &Matrix2::X);
        assert_eq!(state, State::basis(2, 2));
        state.apply(0, &Matrix2::H);
        let r = FRAC_1_SQRT_2;
        assert_amplitudes(&state, &[(0.0, 0.0), (0.0, 0.0), (r, 0.0), (r, 0.0)]);
        state.apply(0, &Matrix2::S);
        assert_amplitudes(&state, &[(0.0, 0.0), (0.0, 0.0), (r, 0.0), (0.0, r)]);
        state.apply(1, &Matrix2::Y);
        assert_amplitudes(&state, &[(0.0, -r), (r, 0.0), (0.0, 0.0), (0.0, 0.0)]);
    }

    #[test]
    fn cz_negates_where_both_bits_are_one() {
        let mut state = State::zero(3);
        (0..3).for_each(|q| state.apply(q, &Matrix2::H));
        state.cz(2, 0);
        let r = 8f64.sqrt().recip();
        let expected = [1.0, 1.0, 1.0, 1.0, 1.0, -1.0, 1.0, -1.0].map(|s: f64| (s * r, 0.0));
        assert_amplitudes(&state, &expected);
    }

    #[test]
    fn apply_row_keeps_the_phase() {
        let mut state = State::zero(1);
        state.apply_row(&Row::parse("Y"));
        assert_amplitudes(&state, &[(0.0, 0.0), (0.0, 1.0)]);
        state.apply_row(&Row::parse("Y"));
        assert_amplitudes(&state, &[(1.0, 0.0), (0.0, 0.0)]);
        state.apply_row(&Row::new(3, 0, 1));
        assert_amplitudes(&state, &[(0.0, 0.0), (0.0, -1.0)]);
        state.apply_row(&Row::parse("-Z"));
        assert_amplitudes(&state, &[(0.0, 0.0), (0.0, -1.0)]);
    }

    #[test]
    fn overlap_is_the_squared_inner_product() {
        let mut plus = State::zero(1);
        plus.apply(0, &Matrix2::H);
        let mut plus_i = plus.clone();
        plus_i.apply(0, &Matrix2::S);
        assert!(close(plus.overlap(&plus), 1.0));
        assert!(close(plus_i.overlap(&plus_i), 1.0));
        assert!(close(plus.overlap(&State::zero(1)), 0.5));
        assert!(close(plus.overlap(&plus_i), 0.5));
        assert!(close(State::basis(1, 0).overlap(&State::basis(1, 1)), 0.0));
        let mut turned = plus_i.clone();
        turned.apply_row(&Row::new(1, 0, 0));
        assert!(close(turned.overlap(&plus_i), 1.0));
    }

    #[test]
    fn probability_and_projection_agree() {
        // cos(a)|0> + sin(a)|1> has Z outcome 0 with probability cos(a)^2.
        let (sin, cos) = 0.3f64.sin_cos();
        let real = |re| Complex::new(re, 0.0);
        let turn = Matrix2([[real(cos), real(-sin)], [real(sin), real(cos)]]);
        let mut state = State::zero(1);
        state.apply(0, &turn);
        let z = Row::parse("Z");
        assert!(close(state.probability(&z, 0), cos * cos));
        assert!(close(state.probability(&z, 1), sin * sin));
        assert!(close(state.probability(&Row::parse("-Z"), 0), sin * sin));
        let expected = real(cos * cos - sin * sin);
        assert!(state.expectation(&z).approx_eq(expected));
        let one = state.project(&z, 1).unwrap();
        assert_amplitudes(&one, &[(0.0, 0.0), (1.0, 0.0)]);
    }

    #[test]
    fn impossible_outcomes_have_no_state() {
        let state = State::basis(2, 1);
        assert!(state.project(&Row::parse("ZI"), 0).is_none());
        assert!(state.project(&Row::parse("-ZI"), 1).is_none());
        assert_eq!(state.project(&Row::parse("ZI"), 1), Some(state.clone()));
        assert_eq!(state.project(&Row::parse("IZ"), 0), Some(state.clone()));
        assert!(state.project(&Row::parse("-II"), 0).is_none());
    }

    #[test]
    #[should_panic(expected = "number of qubits out of range")]
    fn eleven_qubits_are_too_many() {
        State::zero(11);
    }

    #[test]
    #[should_panic(expected = "number of qubits out of range")]
    fn no_qubits_are_too_few() {
        State::stabilized_by(0, &[]);
    }

    #[test]
    #[should_panic(expected = "basis state 4 out of range")]
    fn basis_index_must_fit() {
        State::basis(2, 4);
    }

    #[test]
    #[should_panic(expected = "qubit 2 out of range")]
    fn apply_refuses_a_missing_qubit() {
        State::zero(2).apply(2, &Matrix2::H);
    }

    #[test]
    #[should_panic(expected = "not unitary")]
    fn apply_refuses_other_matrices() {
        State::zero(1).apply(0, &Matrix2::H.scale(Complex::new(2.0, 0.0)));
    }

    #[test]
    #[should_panic(expected = "qubit 3 out of range")]
    fn cz_refuses_a_missing_qubit() {
        State::zero(2).cz(0, 3);
    }

    #[test]
    #[should_panic(expected = "two different qubits")]
    fn cz_refuses_one_qubit_twice() {
        State::zero(2).cz(1, 1);
    }

    #[test]
    #[should_panic(expected = "not a signed row")]
    fn only_signed_rows_are_measured() {
        State::zero(1).probability(&Row::new(1, 0, 1), 0);
    }

    #[test]
    #[should_panic(expected = "neither 0 nor 1")]
    fn outcomes_are_bits() {
        State::zero(1).probability(&Row::parse("Z"), 2);
    }

    #[test]
    #[should_panic(expected = "outside of 2 qubits")]
    fn rows_must_fit() {
        State::stabilized_by(2, &[Row::parse("IIX")]);
    }

    #[test]
    #[should_panic(expected = "different numbers of qubits")]
    fn overlap_needs_equal_sizes() {
        State::zero(1).overlap(&State::zero(2));
    }
}
