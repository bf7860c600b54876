//! `sukhlent_generate` in plain Rust: the text of a drawn job.

use crate::load::steps;
use crate::operation::Operation;

/// The places of the text.
const PLACES: usize = 61_463;

/// Writes the text of so many steps on n qubits, or answers the number of the refusal.
pub fn generate(n: u64, count: u64, seed: u64, text: &mut [u8], length: &mut u64) -> u8 {
    if count > 4096 {
        return 15;
    }
    if n == 0 || n > 64 {
        return 2;
    }
    if text.len() != PLACES {
        return 4;
    }
    if seed == 0 {
        return 6;
    }
    let mut end = 0;
    put(text, &mut end, b"qubits\n");
    put_number(text, &mut end, n);
    put(text, &mut end, b"\nop a b value\n");
    for step in steps(n, count as usize, seed) {
        put_step(text, &mut end, step);
    }
    *length = end as u64;
    0
}

/// Writes bytes at the end of a text.
fn put(text: &mut [u8], end: &mut usize, bytes: &[u8]) {
    text[*end..*end + bytes.len()].copy_from_slice(bytes);
    *end += bytes.len();
}

/// Writes a number below 100 in decimal.
fn put_number(text: &mut [u8], end: &mut usize, number: u64) {
    if number >= 10 {
        put(text, end, &[b'0' + (number / 10) as u8]);
    }
    put(text, end, &[b'0' + (number % 10) as u8]);
}

/// Writes the line of a step.
fn put_step(text: &mut [u8], end: &mut usize, step: Operation) {
    let (op, fields): (&[u8], [u64; 3]) = match step {
        Operation::Gate(a, code) => (b"gate", [a, 0, code.into()]),
        Operation::Cz(a, b) => (b"cz", [a, b, 0]),
        Operation::Measure(pauli, a, bit) => (b"measure", [a, 0, u64::from(2 * (pauli - 1) + bit)]),
        Operation::Complement(_) => panic!("no draw gives a complementation"),
    };
    put(text, end, op);
    for field in fields {
        put(text, end, b" ");
        put_number(text, end, field);
    }
    put(text, end, b"\n");
}
