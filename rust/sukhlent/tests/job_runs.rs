//! Jobs run by the program against state vectors, step by step, on up to 8 qubits.
use crate::common::process::{run_job as run, Step};
use crate::common::reference::expanded;
use crate::common::vectors::{assert_stabilized, matrix};
use crate::common::Random;
use simulator::{Matrix2, Row, State};
use std::collections::HashMap;
use sukhlent::Record;

/// Refusal, outcome and determined.
type Answer = (u32, u8, u8);

/// A random step on n qubits. Each number may be too large, and an unused field not 0.
fn step(random: &mut Random, n: usize) -> Step {
    let [a, b] = [0, 1].map(|_| {
        let bound = n + usize::from(random.below(8) == 0);
        random.below(bound)
    });
    let stray = |random: &mut Random| usize::from(random.below(12) == 0);
    match random.below(13) {
        0 => ("complement", a, stray(random), stray(random)),
        1..=3 => ("pivot", a, b, stray(random)),
        4 | 5 => ("gate", a, stray(random), random.below(26)),
        6 | 7 => ("measure", a, stray(random), random.below(7)),
        _ => ("cz", a, b, stray(random)),
    }
}

/// A Hadamard on each of n qubits, so that a CZ leaves an edge, and then random steps.
fn steps(random: &mut Random, n: usize) -> Vec<Step> {
    let hadamards = (0..n).map(|q| ("gate", q, 0, 8));
    hadamards.chain((0..40).map(|_| step(random, n))).collect()
}

/// The refusals 6, 8 and 16 of a step on a record.
fn due(record: &Record, (op, a, b, value): Step) -> u32 {
    let n = record.n();
    let (unused, known) = match op {
        "gate" => (b, value < 24),
        "measure" => (b, value < 6),
        "complement" => (b + value, true),
        _ => (value, true),
    };
    let edge = || record.neighbours[a] >> b & 1 == 1;
    let used = |q: usize| record.used >> q & 1 == 1;
    match op {
        _ if unused != 0 || !known => 6,
        _ if a >= n => 8,
        "cz" if b >= n || a == b => 8,
        "pivot" if b >= n || a == b || !edge() => 8,
        _ if used(a) => 16,
        "cz" if used(b) => 16,
        _ => 0,
    }
}

/// A Pauli at a qubit.
fn row(pauli: usize, q: usize) -> Row {
    match pauli {
        1 => Row::new(0, 0, 1 << q),
        2 => Row::new(0, 1 << q, 1 << q),
        _ => Row::new(0, 1 << q, 0),
    }
}

/// Does a step to the state vector. What the program is to answer, the record being as given.
fn follow(matrices: &[Matrix2], state: &mut State, record: &Record, step: Step) -> Answer {
    let number = due(record, step);
    if number != 0 {
        return (number, 0, 0);
    }
    let (op, a, b, value) = step;
    match op {
        "gate" => state.apply(a, &matrices[value]),
        "cz" => state.cz(a, b),
        "measure" => {
            let (measured, bit) = (row(value / 2 + 1, a), (value % 2) as u8);
            let probability = state.probability(&measured, bit);
            let Some(after) = state.project(&measured, bit) else {
                return (14, 0, 0);
            };
            *state = after;
            assert!((probability * 2.0 - 1.0).abs() < 1e-9 || probability > 1.0 - 1e-9);
            return (0, bit, u8::from(probability > 0.75));
        }
        _ => (),
    }
    (0, 0, 0)
}

/// The used word that a step leaves.
fn used_after(record: &Record, refusal: u32, (op, a, ..): Step) -> u64 {
    match (refusal, op) {
        (0, "measure") => record.used | 1 << a,
        _ => record.used,
    }
}

// For each k the program runs the first k steps: the record stands for the state after them, the lines are those of the
// whole job, and exactly the measured qubits are used. Jobs are short, since a qubit that is used stays so.
#[test]
fn seeded_jobs_against_state_vectors() {
    let matrices: Vec<Matrix2> = (0..24).map(matrix).collect();
    let mut counts = HashMap::<String, usize>::new();
    for (n, job) in (1..=8).flat_map(|n| (0..12).map(move |job| (n, job))) {
        let steps = steps(&mut Random::new(50_000 + 12 * n as u64 + job), n);
        let (whole, last) = run(n, &steps);
        let mut state = State::zero(n);
        let (_, mut record) = run(n, &[]);
        assert_stabilized(&state, &expanded(&record));
        for (k, &step) in steps.iter().enumerate() {
            let (refusal, outcome, determined) = follow(&matrices, &mut state, &record, step);
            let line = format!("{k} {refusal} {outcome} {determined}");
            assert_eq!(whole[k], line, "{step:?} on {record:?}");
            let (lines, after) = run(n, &steps[..=k]);
            assert_eq!(lines, whole[..=k], "{n} qubits");
            if refusal != 0 {
                assert_eq!(after, record, "{step:?}");
            }
            assert_eq!(after.used, used_after(&record, refusal, step), "{step:?}");
            assert_stabilized(&state, &expanded(&after));
            record = after;
            let what = match (refusal, step.0) {
                (0, "measure") => format!("measured, determined {determined}"),
                (0, op) => op.to_string(),
                (16, op) => format!("{op} on a used qubit"),
                _ => format!("refused {refusal}"),
            };
            *counts.entry(what).or_default() += 1;
        }
        assert_eq!(record, last);
    }
    for what in [
        "gate",
        "cz",
        "complement",
        "pivot",
        "measured, determined 0",
        "measured, determined 1",
        "refused 6",
        "refused 8",
        "refused 14",
        "gate on a used qubit",
        "cz on a used qubit",
        "measure on a used qubit",
        "complement on a used qubit",
    ] {
        let times = counts.get(what).copied().unwrap_or(0);
        assert!(times >= 20, "{what}: {times} times of {counts:?}");
    }
}
