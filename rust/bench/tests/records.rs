//! Gates, CZ and measurements on records, reduced or not, answer as expanding, changing the list and
//! reducing.

use bench::operation::Operation;
use bench::seeded::{random_record, Random};
use bench::session::{Answer, Calls, Lists, Session};
use sukhlent::Record;

/// Does a step in both ways; its answer.
fn step(record: &Record, operation: Operation) -> Answer {
    let (mut calls, mut lists) = (Calls::on(record.clone()), Lists::on(record.clone()));
    let answer = calls.step(operation);
    assert_eq!(answer, lists.step(operation), "{operation:?} on {record:?}");
    assert_eq!(
        calls.record(),
        lists.record(),
        "{operation:?} on {record:?}"
    );
    answer
}

/// Every record on n vertices.
fn records(n: usize) -> impl Iterator<Item = Record> {
    let pairs: Vec<(usize, usize)> = (0..n).flat_map(|a| (0..a).map(move |b| (a, b))).collect();
    let graphs = (0..1 << pairs.len()).map(move |k: usize| {
        let mut neighbours = vec![0; n];
        for (e, &(a, b)) in pairs.iter().enumerate() {
            neighbours[a] |= (k as u64 >> e & 1) << b;
            neighbours[b] |= (k as u64 >> e & 1) << a;
        }
        neighbours
    });
    graphs.flat_map(move |neighbours| {
        (0..24usize.pow(n as u32)).map(move |m| Record {
            neighbours: neighbours.clone(),
            codes: (0..n as u32)
                .map(|j| (m / 24usize.pow(j) % 24) as u8)
                .collect(),
            used: 0,
        })
    })
}

/// Every CZ and every measurement on n qubits.
fn joins_and_measurements(n: u64) -> Vec<Operation> {
    let pairs = (0..n).flat_map(|a| (0..n).map(move |b| (a, b)));
    let joins = pairs
        .filter(|(a, b)| a != b)
        .map(|(a, b)| Operation::Cz(a, b));
    let paulis = (1..=3).flat_map(|pauli| [0, 1].map(|bit| (pauli, bit)));
    let measured =
        paulis.flat_map(|(pauli, bit)| (0..n).map(move |q| Operation::Measure(pauli, q, bit)));
    joins.chain(measured).collect()
}

#[test]
fn every_call_on_every_record_on_one_and_two_qubits() {
    for n in 1..=2 {
        let gates = (0..n as u64).flat_map(|q| (0..24).map(move |code| Operation::Gate(q, code)));
        let all: Vec<Operation> = gates.chain(joins_and_measurements(n as u64)).collect();
        for record in records(n) {
            all.iter().for_each(|&operation| {
                step(&record, operation);
            });
        }
    }
}

/// A gate changes a code, and so leads from one record to another: on three qubits one gate is tried
/// on each record.
#[test]
fn joins_and_measurements_on_every_record_on_three_qubits() {
    let all = joins_and_measurements(3);
    let mut counts = [0; 4];
    for (k, record) in records(3).enumerate() {
        let gate = Operation::Gate(k as u64 % 3, (k / 3 % 24) as u8);
        for &operation in all.iter().chain([&gate]) {
            counts[match step(&record, operation) {
                Answer::Done => 0,
                Answer::Measured(measured) if measured.determined => 1,
                Answer::Measured(_) => 2,
                Answer::Refused => 3,
            }] += 1;
        }
    }
    assert!(counts.iter().all(|&count| count > 10_000), "{counts:?}");
}

#[test]
fn random_records_on_every_number_of_qubits() {
    for n in 1..=64 {
        let mut random = Random::new(n as u64);
        for _ in 0..60 {
            let record = random_record(&mut random, n);
            let q = random.below(n) as u64;
            let (pauli, bit) = (1 + random.below(3) as u8, random.below(2) as u8);
            step(&record, Operation::Gate(q, random.below(24) as u8));
            step(&record, Operation::Measure(pauli, q, bit));
            if n > 1 {
                let (a, b) = random.pair_below(n);
                step(&record, Operation::Cz(a as u64, b as u64));
            }
        }
    }
}
