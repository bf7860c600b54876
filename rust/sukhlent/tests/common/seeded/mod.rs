//! Stabilizer states by seeded random circuits, and letter-by-letter Pauli arithmetic.
#![allow(dead_code, unused_imports)]

pub mod circuit;
pub mod components;
pub mod lists;
pub mod pauli;
pub mod records;

pub use circuit::{stabilizers, Circuit, Gate};
pub use components::{random_components, random_sizes};
pub use lists::{list, mixed, parsed, random_rows, rows};
pub use pauli::Pauli;
pub use random::Random;
pub use records::{isolate, random_record, random_used_record, use_up};
