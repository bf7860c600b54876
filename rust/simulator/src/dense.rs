//! Dense matrices on a few qubits.

use crate::complex::Complex;
use crate::matrix::{letter_matrix, Matrix2};
use crate::row::Row;

/// The largest number of qubits of a dense matrix.
pub const MAX_QUBITS: usize = 4;

/// A complex `2^n x 2^n` matrix on `n` qubits, 1 to 4.
#[derive(Clone, Debug, PartialEq)]
pub struct Matrix {
    n: usize,
    entries: Vec<Complex>,
}

impl Matrix {
    /// The matrix with the given entry at every row and column. Panics unless `1 <= n <= 4`.
    pub fn from_fn(n: usize, entry: impl Fn(usize, usize) -> Complex) -> Matrix {
        assert!(
            (1..=MAX_QUBITS).contains(&n),
            "number of qubits out of range 1..={MAX_QUBITS}: {n}"
        );
        let dim = 1 << n;
        let entries = (0..dim * dim).map(|k| entry(k / dim, k % dim)).collect();
        Matrix { n, entries }
    }

    /// The identity. Panics unless `1 <= n <= 4`.
    pub fn identity(n: usize) -> Matrix {
        Matrix::tensor(&vec![Matrix2::I; n])
    }

    /// The Kronecker product in which `factors[q]` acts on qubit `q`. Panics unless there are 1 to 4.
    pub fn tensor(factors: &[Matrix2]) -> Matrix {
        Matrix::from_fn(factors.len(), |r, c| {
            factors
                .iter()
                .enumerate()
                .fold(Complex::ONE, |product, (q, factor)| {
                    product * factor.0[r >> q & 1][c >> q & 1]
                })
        })
    }

    /// The matrix `u` on qubit `q` and the identity elsewhere. Panics if `n` or `q` is out of range.
    pub fn one_qubit(n: usize, q: usize, u: &Matrix2) -> Matrix {
        assert!(q < n, "qubit {q} out of range of {n} qubits");
        let mut factors = vec![Matrix2::I; n];
        factors[q] = *u;
        Matrix::tensor(&factors)
    }

    /// The CZ matrix on two qubits. Panics if `n`, `a` or `b` is out of range or `a` is `b`.
    pub fn cz(n: usize, a: usize, b: usize) -> Matrix {
        assert!(
            a < n && b < n,
            "qubit {a} or {b} out of range of {n} qubits"
        );
        assert!(a != b, "CZ needs two different qubits: {a}");
        Matrix::from_fn(n, |r, c| match (r == c, r >> a & 1, r >> b & 1) {
            (false, _, _) => Complex::ZERO,
            (true, 1, 1) => -Complex::ONE,
            (true, _, _) => Complex::ONE,
        })
    }

    /// The number of qubits.
    pub fn n(&self) -> usize {
        self.n
    }

    /// The entry at row `r` and column `c`. Panics if one is out of range.
    pub fn get(&self, r: usize, c: usize) -> Complex {
        let dim = 1 << self.n;
        assert!(r < dim && c < dim, "entry ({r}, {c}) out of range {dim}");
        self.entries[r * dim + c]
    }

    /// The matrix product `self other`. Panics on different numbers of qubits.
    pub fn product(&self, other: &Matrix) -> Matrix {
        assert_eq!(self.n, other.n, "matrices on different numbers of qubits");
        Matrix::from_fn(self.n, |r, c| {
            (0..1 << self.n).fold(Complex::ZERO, |sum, k| {
                sum + self.get(r, k) * other.get(k, c)
            })
        })
    }

    /// The conjugate transpose.
    pub fn dagger(&self) -> Matrix {
        Matrix::from_fn(self.n, |r, c| self.get(c, r).conj())
    }

    /// The operator `p` conjugated by this matrix: `self p self†`.
    pub fn conjugate(&self, p: &Matrix) -> Matrix {
        self.product(p).product(&self.dagger())
    }

    /// The matrix times `i^k`.
    pub fn times_i_pow(&self, k: u8) -> Matrix {
        Matrix::from_fn(self.n, |r, c| Complex::i_pow(k) * self.get(r, c))
    }

    /// Whether the number of qubits is equal and all entries are approximately equal.
    pub fn approx_eq(&self, other: &Matrix) -> bool {
        self.n == other.n
            && (self.entries.iter())
                .zip(&other.entries)
                .all(|(a, b)| a.approx_eq(*b))
    }
}

/// The matrix of a row. Panics unless `1 <= n <= 4`, the phase is below 4 and the row fits.
pub fn row_matrix(n: usize, row: &Row) -> Matrix {
    row.check(n);
    let letters: Vec<Matrix2> = (0..n).map(|q| letter_matrix(row.letter(q))).collect();
    Matrix::tensor(&letters).times_i_pow(row.phase)
}

#[cfg(test)]
mod tests {
    use super::*;

    /// A matrix written out with `1`, `-`, `i`, `j` (for -i) and `.` (for 0).
    fn written(n: usize, rows: &[&str]) -> Matrix {
        assert_eq!(rows.len(), 1 << n);
        Matrix::from_fn(n, |r, c| match rows[r].as_bytes()[c] {
            b'1' => Complex::new(1.0, 0.0),
            b'-' => Complex::new(-1.0, 0.0),
            b'i' => Complex::new(0.0, 1.0),
            b'j' => Complex::new(0.0, -1.0),
            b'.' => Complex::new(0.0, 0.0),
            other => panic!("{other}"),
        })
    }

    fn of(text: &str) -> Matrix {
        let n = text.trim_start_matches(['+', '-']).len();
        row_matrix(n, &Row::parse(text))
    }

    #[test]
    fn row_matrices_on_one_qubit() {
        assert!(of("I").approx_eq(&written(1, &["1.", ".1"])));
        assert!(of("X").approx_eq(&written(1, &[".1", "1."])));
        assert!(of("Y").approx_eq(&written(1, &[".j", "i."])));
        assert!(of("Z").approx_eq(&written(1, &["1.", ".-"])));
        assert!(of("-Z").approx_eq(&written(1, &["-.", ".1"])));
        let i_times_y = row_matrix(1, &Row::new(1, 1, 1));
        assert!(i_times_y.approx_eq(&written(1, &[".1", "-."])));
        let minus_i_times_x = row_matrix(1, &Row::new(3, 0, 1));
        assert!(minus_i_times_x.approx_eq(&written(1, &[".j", "j."])));
    }

    #[test]
    fn row_matrices_on_two_qubits() {
        // Qubit 0 is the lowest bit of the index.
        let x0 = written(2, &[".1..", "1...", "...1", "..1."]);
        let x1 = written(2, &["..1.", "...1", "1...", ".1.."]);
        let z0 = written(2, &["1...", ".-..", "..1.", "...-"]);
        let z1 = written(2, &["1...", ".1..", "..-.", "...-"]);
        let y0_z1 = written(2, &[".j..", "i...", "...i", "..j."]);
        let yy = written(2, &["...-", "..1.", ".1..", "-..."]);
        assert!(of("XI").approx_eq(&x0));
        assert!(of("IX").approx_eq(&x1));
        assert!(of("ZI").approx_eq(&z0));
        assert!(of("IZ").approx_eq(&z1));
        assert!(of("YZ").approx_eq(&y0_z1));
        assert!(of("YY").approx_eq(&yy));
        assert!(!of("YZ").approx_eq(&of("ZY")));
    }

    #[test]
    fn pauli_products_on_every_qubit() {
        for q in 0..3 {
            let at = |z: u64, x: u64| row_matrix(3, &Row::new(0, z << q, x << q));
            let (x, y, z) = (at(0, 1), at(1, 1), at(1, 0));
            assert!(x.product(&y).approx_eq(&z.times_i_pow(1)), "XY = iZ");
            assert!(y.product(&z).approx_eq(&x.times_i_pow(1)), "YZ = iX");
            assert!(z.product(&x).approx_eq(&y.times_i_pow(1)), "ZX = iY");
            assert!(y.product(&x).approx_eq(&z.times_i_pow(3)), "YX = -iZ");
        }
    }

    #[test]
    fn product_keeps_the_order() {
        let a = written(1, &["1i", ".-"]);
        let b = written(1, &[".1", "j1"]);
        let ab = Matrix::from_fn(1, |r, c| {
            [
                [Complex::new(1.0, 0.0), Complex::new(1.0, 1.0)],
                [Complex::new(0.0, 1.0), Complex::new(-1.0, 0.0)],
            ][r][c]
        });
        assert!(a.product(&b).approx_eq(&ab));
        assert!(!b.product(&a).approx_eq(&ab));
        assert!(a.dagger().approx_eq(&written(1, &["1.", "j-"])));
    }

    #[test]
    fn cz_is_written_out() {
        let written_cz = written(2, &["1...", ".1..", "..1.", "...-"]);
        assert!(Matrix::cz(2, 0, 1).approx_eq(&written_cz));
        assert!(Matrix::cz(2, 1, 0).approx_eq(&written_cz));
        let on_outer = Matrix::cz(3, 0, 2);
        for y in 0..8 {
            let expected = if y == 5 || y == 7 { -1.0 } else { 1.0 };
            assert_eq!(on_outer.get(y, y), Complex::new(expected, 0.0));
        }
    }

    #[test]
    fn one_qubit_matrix_acts_on_its_qubit() {
        for q in 0..3 {
            let h = Matrix::one_qubit(3, q, &Matrix2::H);
            let x = row_matrix(3, &Row::new(0, 0, 1 << q));
            let z = row_matrix(3, &Row::new(0, 1 << q, 0));
            let other = row_matrix(3, &Row::new(0, 0, 1 << ((q + 1) % 3)));
            assert!(h.conjugate(&x).approx_eq(&z));
            assert!(h.conjugate(&other).approx_eq(&other));
            assert!(h.product(&h).approx_eq(&Matrix::identity(3)));
        }
    }

    #[test]
    #[should_panic(expected = "number of qubits out of range")]
    fn five_qubits_are_too_many() {
        row_matrix(5, &Row::new(0, 0, 0));
    }

    #[test]
    #[should_panic(expected = "outside of 1 qubits")]
    fn rows_must_fit() {
        row_matrix(1, &Row::parse("IX"));
    }
}
