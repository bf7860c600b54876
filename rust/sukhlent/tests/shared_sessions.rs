//! Sessions of two groups against state vectors and against whole-record calls: eight qubits of the
//! sixty-four, four of each group, are also kept as a state vector and as a record of their own.

use crate::common::reference::taken;
use crate::common::vectors::{assert_stabilized, matrix};
use crate::common::{Operation, Random, RecordCall};
use simulator::{Matrix2, Row, State};
use std::collections::HashMap;
use sukhlent::{expand, reduce, Measured, Pauli, Record, Refusal, Shared};

/// The qubits that are kept, four of group 0 and then four of group 1.
const KEPT: [usize; 8] = [0, 2, 31, 62, 1, 30, 33, 63];

/// The groups of `KEPT`; of the others as it falls.
fn word(random: &mut Random) -> u64 {
    let set = |qubits: &[usize]| qubits.iter().fold(0u64, |word, q| word | 1 << q);
    random.word() & !set(&KEPT[..4]) | set(&KEPT[4..])
}

/// A call of a group by its handle, on the qubits that are kept.
fn by_handle(shared: &Shared, group: u8, call: Operation) -> Result<Option<Measured>, Refusal> {
    let handle = shared.group(group)?;
    let at = |q: u64| KEPT[q as usize];
    match call {
        Operation::Gate(q, code) => handle.gate(at(q), code).map(|()| None),
        Operation::Cz(a, b) => handle.cz(at(a), at(b)).map(|()| None),
        Operation::Measure(pauli, q, bit) => {
            let pauli = [Pauli::X, Pauli::Y, Pauli::Z][usize::from(pauli) - 1];
            handle.measure(pauli, at(q), bit).map(Some)
        }
        Operation::Complement(a) => handle.complement(at(a)).map(|()| None),
    }
}

/// A random call on the four kept qubits of a group, numbered among the eight.
fn random_call(random: &mut Random, group: u8) -> Operation {
    let first = 4 * u64::from(group);
    let (a, b) = random.pair_below(4);
    let (a, b) = (first + a as u64, first + b as u64);
    match random.below(9) {
        0..=2 => Operation::Gate(a, random.below(24) as u8),
        3..=5 => Operation::Cz(a, b),
        6 => Operation::Measure(1 + random.below(3) as u8, a, random.below(2) as u8),
        _ => Operation::Complement(a),
    }
}

/// Does to the state vector what an accepted call did.
fn follow(state: &mut State, matrices: &[Matrix2], call: Operation) {
    match call {
        Operation::Gate(q, code) => state.apply(q as usize, &matrices[usize::from(code)]),
        Operation::Cz(a, b) => state.cz(a as usize, b as usize),
        Operation::Measure(pauli, q, bit) => {
            let (z, x) = [(0, 1), (1, 1), (1, 0)][usize::from(pauli) - 1];
            let row = Row::new(0, z << q, x << q);
            *state = state.project(&row, bit).expect("a possible outcome");
        }
        Operation::Complement(_) => (),
    }
}

#[test]
fn seeded_sessions_of_two_groups_against_state_vectors_and_whole_record_calls() {
    let matrices: Vec<Matrix2> = (0..24).map(matrix).collect();
    let mut counts = HashMap::<&str, usize>::new();
    for seed in 0..300 {
        let mut random = Random::new(13_000 + seed);
        let shared = Shared::new(word(&mut random));
        let (mut whole, mut state) = (Record::zeros(8), State::zero(8));
        for _ in 0..60 {
            let group = random.below(2) as u8;
            let call = random_call(&mut random, group);
            let answer = by_handle(&shared, group, call);
            let due = RecordCall::with(&whole, call).apply();
            match (&answer, &due) {
                (Err(refusal), Err(number)) => {
                    assert_eq!(refusal.number(), *number, "{call:?}");
                    *counts.entry("refused").or_default() += 1;
                    continue;
                }
                (Ok(answer), Ok((left, measured))) => {
                    assert_eq!(answer, measured, "{call:?}");
                    whole = left.clone();
                }
                _ => panic!("{answer:?} and {due:?} for {call:?}"),
            }
            follow(&mut state, &matrices, call);
            let own = taken(&shared.record(), &KEPT);
            assert_eq!(own.used, whole.used);
            let list = expand(&own).unwrap();
            assert_stabilized(&state, &list);
            assert_eq!(reduce(&list), reduce(&expand(&whole).unwrap()), "{call:?}");
            let unreduced = Record { used: 0, ..own } != reduce(&list).unwrap();
            *counts.entry("accepted").or_default() += 1;
            *counts.entry("left unreduced").or_default() += usize::from(unreduced);
        }
        let others = (0..64).filter(|q| !KEPT.contains(q));
        let record = shared.record();
        assert!(others
            .into_iter()
            .all(|q| record.codes[q] == 8 && record.neighbours[q] == 0));
    }
    for what in ["accepted", "refused", "left unreduced"] {
        assert!(counts[what] > 1000, "{counts:?}");
    }
}
