//! Every record on up to two qubits with every used word, and every call on it, against a plain model.

use crate::common::reference::{after, cut_rank, expanded, row_value};
use crate::common::small::every_record;
use crate::common::{Operation, RecordCall};
use std::collections::BTreeMap;

/// Every call in place on n qubits, with one argument too many of each kind.
fn operations(n: u64) -> Vec<Operation> {
    let qubits = || 0..=n;
    let pairs = || qubits().flat_map(move |a| qubits().map(move |b| (a, b)));
    let gates = qubits().flat_map(|q| (0..25).map(move |code| Operation::Gate(q, code)));
    let paulis = (0..5).flat_map(|pauli| (0..3).map(move |bit| (pauli, bit)));
    let measurements =
        paulis.flat_map(|(pauli, bit)| qubits().map(move |q| Operation::Measure(pauli, q, bit)));
    gates
        .chain(pairs().map(|(a, b)| Operation::Cz(a, b)))
        .chain(measurements)
        .chain(qubits().map(Operation::Complement))
        .collect()
}

/// The name of a call.
fn name(operation: Operation) -> &'static str {
    match operation {
        Operation::Gate(..) => "gate",
        Operation::Cz(..) => "cz",
        Operation::Measure(..) => "measure",
        Operation::Complement(_) => "complement",
    }
}

#[test]
fn every_call_on_every_record_with_every_used_word() {
    let mut counts: BTreeMap<(&str, u8), usize> = BTreeMap::new();
    for n in 1..=2 {
        let operations = operations(n as u64);
        for record in every_record(n) {
            for &operation in &operations {
                let call = RecordCall::with(&record, operation);
                let due = match call.due() {
                    0 => Ok(after(&record, operation)),
                    number => Err(number),
                };
                assert_eq!(call.apply(), due, "{call:?}");
                let number = due.err().unwrap_or(0);
                *counts.entry((name(operation), number)).or_default() += 1;
            }
        }
    }
    let seen: Vec<(&str, u8)> = counts.keys().copied().collect();
    let published = [
        ("complement", &[0, 5, 6, 7, 8, 16][..]),
        ("cz", &[0, 5, 6, 7, 8, 16]),
        ("gate", &[0, 5, 6, 7, 8, 16]),
        ("measure", &[0, 5, 6, 7, 8, 14, 16]),
    ];
    let due = published.iter();
    let due = due.flat_map(|(name, numbers)| numbers.iter().map(move |&k| (*name, k)));
    assert_eq!(seen, due.collect::<Vec<_>>(), "{counts:?}");
}

#[test]
fn everything_read_off_every_record_with_every_used_word() {
    let mut counts = [0; 8];
    for n in 1..=2 {
        for record in every_record(n) {
            let call = RecordCall::on(&record);
            let due = match call.due() {
                0 => Ok(expanded(&record)),
                number => Err(number),
            };
            assert_eq!(call.expand(), due, "{call:?}");
            counts[usize::from(due.err().unwrap_or(0))] += 1;
            for side in 0..2 << n {
                let call = RecordCall::cut_of(&record, side);
                let due = match call.due() {
                    0 => Ok(cut_rank(&record.neighbours, side)),
                    number => Err(number),
                };
                assert_eq!(call.cut(), due, "{call:?}");
            }
            for row in 0..4 << (2 * n) {
                let call = RecordCall::row_of(&record, row >> (n + 1), row & ((2 << n) - 1));
                let due = match call.due() {
                    0 => Ok(row_value(&record, call.with.z, call.with.x)),
                    number => Err(number),
                };
                assert_eq!(call.expectation(), due, "{call:?}");
            }
        }
    }
    let all = [0, 5, 6, 7];
    assert!(all.iter().all(|&k| counts[k] > 100), "{counts:?}");
}

/// The numbers of the words without their model: how many of the accepted records have each used word.
#[test]
fn the_accepted_records_of_two_vertices_by_their_used_words() {
    let mut accepted = [0; 8];
    for record in every_record(2) {
        let number = RecordCall::on(&record).expand().err().unwrap_or(0);
        accepted[record.used as usize] += usize::from(number == 0);
    }
    // Every record; those without an edge and with one of six codes at one vertex, or at both; none with a stray bit.
    assert_eq!(accepted, [2 * 24 * 24, 6 * 24, 24 * 6, 6 * 6, 0, 0, 0, 0]);
}
