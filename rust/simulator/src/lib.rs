//! A small state-vector simulator for stabilizer physics.
//!
//! Everything is computed with explicit complex vectors and matrices, so the
//! crate can serve as a reference for symbolic stabilizer calculations.
//!
//! Conventions:
//! - Qubits are numbered `0..n`. Bit `q` of a basis index `y` is the value of
//!   qubit `q`; bit 0 is the lowest.
//! - `X = [[0,1],[1,0]]`, `Y = [[0,-i],[i,0]]`, `Z = [[1,0],[0,-1]]`,
//!   `H = [[1,1],[1,-1]]/sqrt(2)`, `S = diag(1, i)`.
//! - `CZ` on `a`, `b` negates the amplitudes in which both bits are 1.
//! - A letter is coded as `2*z + x`: 0 is I, 1 is X, 2 is Z, 3 is Y.
//! - A unitary `U` takes a state `psi` to `U psi` and an operator `P` to
//!   `U P U†`.

pub mod cliffords;
pub mod complex;
pub mod dense;
pub mod matrix;
pub mod row;
pub mod state;

pub use cliffords::{find, images, one_qubit_cliffords, SignedLetter};
pub use complex::{Complex, TOLERANCE};
pub use dense::{row_matrix, Matrix};
pub use matrix::{conjugate, letter_matrix, letter_of, Matrix2};
pub use row::Row;
pub use state::State;
