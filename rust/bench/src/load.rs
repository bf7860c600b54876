//! The load of document 02: the steps of a job, drawn from a seed.

use crate::operation::Operation;
use random::Draws;

/// So many steps of a job on n qubits: gates, CZ and measurements.
pub fn steps(n: u64, count: usize, seed: u64) -> Vec<Operation> {
    Draws::new(seed).take(count).map(|d| step(n, d)).collect()
}

/// The step of a draw. CZ on one qubit twice becomes a gate with code 8.
fn step(n: u64, d: u64) -> Operation {
    let (a, b) = (d / 8 % n, d / 512 % n);
    match d % 3 {
        0 => Operation::Gate(a, (d / 32768 % 24) as u8),
        1 if a == b => Operation::Gate(a, 8),
        1 => Operation::Cz(a, b),
        _ => {
            let (pauli, outcome) = (1 + d / 32768 % 3, (d >> 40) % 2);
            Operation::Measure(pauli as u8, a, outcome as u8)
        }
    }
}

/// The first so many gates and CZ of such a job, which are not measured: the graph gets dense.
pub fn unmeasured(n: u64, count: usize, seed: u64) -> Vec<Operation> {
    let all = Draws::new(seed).map(|d| step(n, d));
    all.filter(|step| !matches!(step, Operation::Measure(..)))
        .take(count)
        .collect()
}

/// The gate H.
fn hadamard(q: u64) -> Operation {
    Operation::Gate(q, 8)
}

/// A GHZ state, made by CNOT from qubit 0 to each other (H, CZ, H), and X measured at every qubit: all
/// outcomes but the last are free, and the last is their sum.
pub fn ghz(n: u64, seed: u64) -> Vec<Operation> {
    let mut job = vec![hadamard(0)];
    job.extend((1..n).flat_map(|q| [hadamard(q), Operation::Cz(0, q), hadamard(q)]));
    let mut sum = 0;
    for (q, d) in (0..n).zip(Draws::new(seed)) {
        let bit = if q + 1 < n { (d >> 40) % 2 } else { sum };
        sum ^= bit;
        job.push(Operation::Measure(1, q, bit as u8));
    }
    job
}

/// A cluster state on rows of 8 qubits (n below 32: of 4), and X or Y measured at each.
pub fn cluster(n: u64, seed: u64) -> Vec<Operation> {
    let width = if n < 32 { 4 } else { 8 };
    let mut job: Vec<Operation> = (0..n).map(hadamard).collect();
    for q in 0..n {
        if (q + 1) % width != 0 && q + 1 < n {
            job.push(Operation::Cz(q, q + 1));
        }
        if q + width < n {
            job.push(Operation::Cz(q, q + width));
        }
    }
    let measured = (0..n).zip(Draws::new(seed));
    job.extend(
        measured.map(|(q, d)| Operation::Measure(1 + (d % 2) as u8, q, (d >> 40) as u8 % 2)),
    );
    job
}
