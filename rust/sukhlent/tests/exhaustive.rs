//! Every list and every record on few qubits.

use crate::common::reference::{expanded, list_refusal, reduced};
use crate::common::{ListCall, RecordCall};
use std::collections::HashMap;
use sukhlent::{raw, GeneratorList, Record};

/// The list whose generators are the digits of k, each a sign and two words of n bits.
fn numbered(n: usize, k: u64) -> GeneratorList {
    let digit = |j: usize| k >> (j * (2 * n + 1));
    let low = (1 << n) - 1;
    GeneratorList {
        signs: (0..n).map(|j| (digit(j) & 1) as u8).collect(),
        z: (0..n).map(|j| digit(j) >> 1 & low).collect(),
        x: (0..n).map(|j| digit(j) >> (1 + n) & low).collect(),
    }
}

/// Every list of n generators on n qubits.
pub fn lists(n: usize) -> impl Iterator<Item = GeneratorList> {
    (0..1 << (n * (2 * n + 1))).map(move |k| numbered(n, k))
}

/// The record with the edges that k numbers and the codes that are the digits of m.
pub fn record(n: usize, k: usize, m: usize) -> Record {
    let mut neighbours = vec![0; n];
    let pairs = (0..n).flat_map(|a| (a + 1..n).map(move |b| (a, b)));
    for (a, b) in pairs
        .enumerate()
        .filter(|(e, _)| k >> e & 1 == 1)
        .map(|p| p.1)
    {
        neighbours[a] |= 1 << b;
        neighbours[b] |= 1 << a;
    }
    let codes = (0..n).map(|j| (m / 24usize.pow(j as u32) % 24) as u8);
    Record {
        neighbours,
        codes: codes.collect(),
        used: 0,
    }
}

#[test]
fn every_list_on_one_and_two_qubits() {
    for n in 1..=2 {
        for list in lists(n) {
            let call = ListCall::on(&list);
            let due = list_refusal(n as u64, &list.signs, &list.z, &list.x, &[]);
            assert_eq!(call.check(), due, "{list:?}");
            let answer = if due == 0 {
                Ok(reduced(&list))
            } else {
                Err(due)
            };
            assert_eq!(call.reduce(), answer, "{list:?}");
        }
    }
}

/// The number of stabilizer states is 2^n times the product of 2^k + 1 for k from 1 to n, and each
/// has (2^n - 1)(2^n - 2)(2^n - 4).. ordered lists of generators.
#[test]
fn one_record_per_stabilizer_state() {
    for (n, states, bases) in [(1, 6, 1), (2, 60, 6), (3, 1080, 168)] {
        let mut seen: HashMap<Record, usize> = HashMap::new();
        for list in lists(n) {
            let mut record = Record {
                neighbours: vec![0; n],
                codes: vec![0; n],
                used: 1,
            };
            let (signs, z, x) = (&list.signs, &list.z, &list.x);
            let (words, bytes) = (&mut record.neighbours, &mut record.codes);
            if raw::reduce(n as u64, signs, z, x, words, bytes, &mut record.used) == 0 {
                *seen.entry(record).or_default() += 1;
            }
        }
        assert_eq!(seen.len(), states);
        assert!(seen.values().all(|&count| count == bases), "{n} qubits");
        assert!(seen.keys().all(|record| record.used == 0), "{n} qubits");
    }
}

#[test]
fn every_record_on_up_to_three_qubits() {
    for n in 1..=3usize {
        for k in 0..1 << (n * (n - 1) / 2) {
            for m in 0..24usize.pow(n as u32) {
                let record = record(n, k, m);
                let answer = RecordCall::on(&record).expand();
                assert_eq!(answer, Ok(expanded(&record)), "{record:?}");
            }
        }
    }
}
