//! Calls of two groups on one record, by document 02's text: the group's qubits are taken out and
//! numbered anew, the call is made on them alone, and they are put back.

use super::{after, in_place_refusal, record_refusal};
use crate::common::operation::Operation;
use crate::common::shared::{masked, own, GroupCall, Lent};
use crate::common::source::Source;
use crate::common::RecordCall;
use sukhlent::{Measured, Record};

/// The first line, of 2, 4, 6, 7, 19, 8, 16, 20, 17, 18 and 14, that is true of a group's call.
pub fn group_refusal(lent: &Lent, group: u8, call: GroupCall) -> u8 {
    let of_record = record_refusal(lent.n, &lent.record, &[]);
    let of_store = match call {
        GroupCall::On(_) | GroupCall::Of(_) => 0,
        _ => own_places_refusal(lent, group),
    };
    let either = |number: u8| of_record == number || of_store == number;
    let six = match call {
        GroupCall::On(Operation::Gate(_, code)) => code > 23,
        GroupCall::On(Operation::Measure(pauli, _, bit))
        | GroupCall::Of(Source::Observe(pauli, _, bit)) => !(1..=3).contains(&pauli) || bit > 1,
        GroupCall::Of(Source::Renew(_, code)) => ![0, 2, 4, 6, 8, 10].contains(&code),
        _ => false,
    };
    let lines = [
        (lent.n != 64 || either(2), 2),
        (either(4), 4),
        (either(5), 5),
        (group > 1 || six || either(6), 6),
        (either(7), 7),
    ];
    if let Some((_, number)) = lines.into_iter().find(|(holds, _)| *holds) {
        return number;
    }
    if has_crossing_edge(lent) || names_other(lent, group, call) {
        return 19;
    }
    let held = |name| lent.place(group, name).is_some();
    let first = 4 * usize::from(group);
    let full = (first..first + 4).all(|i| lent.heads[3 * i] != 0);
    match call {
        GroupCall::On(operation) => in_place_refusal(64, &lent.record, operation),
        GroupCall::Of(source) => RecordCall::with(&lent.record, source).due_number(),
        GroupCall::Save(name) => 18 * u8::from(full && !held(name)),
        GroupCall::Return(name) | GroupCall::Forget(name) => 17 * u8::from(!held(name)),
    }
}

/// The first line, of 2, 4, 5, 6 and 7, that is true of a group's four places of the store.
fn own_places_refusal(lent: &Lent, group: u8) -> u8 {
    let word = |at: usize| lent.heads.get(at).copied().unwrap_or(0);
    let first = 4 * usize::from(group);
    let places = (first..first + 4).filter(|i| *i < 8);
    let held: Vec<usize> = places.filter(|i| word(3 * i) != 0).collect();
    if held.iter().any(|i| word(3 * i) != 64) {
        return 2;
    }
    if (lent.heads.len(), lent.neighbours.len(), lent.codes.len()) != (24, 512, 512) {
        return 4;
    }
    let record = |i: usize| Record {
        neighbours: lent.neighbours[64 * i..64 * i + 64].to_vec(),
        codes: lent.codes[64 * i..64 * i + 64].to_vec(),
        used: word(3 * i + 2),
    };
    let numbers = held.iter().map(|&i| record_refusal(64, &record(i), &[]));
    let least = numbers.filter(|&number| number != 0).min();
    let outside = !own(lent.word, group);
    let reaches = |&i: &usize| record(i).neighbours.iter().any(|word| word & outside != 0);
    let name = |&i: &usize| word(3 * i + 1);
    let twice = held
        .iter()
        .any(|i| held.iter().any(|j| i < j && name(i) == name(j)));
    match least {
        Some(number) => number,
        None if twice || held.iter().any(reaches) => 7,
        None => 0,
    }
}

/// Whether the record has an edge between the groups.
fn has_crossing_edge(lent: &Lent) -> bool {
    let group = |q: usize| lent.word >> q & 1;
    let edge = |a: usize, b: usize| lent.record.neighbours[a] >> b & 1 == 1;
    (0..64).any(|a| (0..64).any(|b| edge(a, b) && group(a) != group(b)))
}

/// Whether a call names a qubit below 64 that is not the group's.
fn names_other(lent: &Lent, group: u8, call: GroupCall) -> bool {
    let names = |q: usize| match call {
        GroupCall::On(operation) => operation.names(q),
        GroupCall::Of(Source::Observe(_, a, _) | Source::Renew(a, _)) => a == q as u64,
        _ => false,
    };
    (0..64).any(|q| names(q) && own(lent.word, group) >> q & 1 == 0)
}

/// What an accepted call leaves, and what it measures.
pub fn group_after(lent: &Lent, group: u8, call: GroupCall) -> (Lent, Option<Measured>) {
    let mut left = lent.clone();
    let own = own(lent.word, group);
    let first = 4 * usize::from(group);
    match call {
        GroupCall::On(operation) => {
            let qubits: Vec<usize> = (0..64).filter(|q| own >> q & 1 == 1).collect();
            let (small, measured) = after(&taken(&lent.record, &qubits), moved(operation, &qubits));
            put_back(&mut left.record, &qubits, &small);
            return (left, measured);
        }
        GroupCall::Of(source) => {
            let qubits: Vec<usize> = (0..64).filter(|q| own >> q & 1 == 1).collect();
            let small = taken(&lent.record, &qubits);
            let (small, measured) =
                RecordCall::with(&small, renumbered(source, &qubits)).due_after();
            put_back(&mut left.record, &qubits, &small);
            return (left, measured);
        }
        GroupCall::Save(name) => {
            let free = || (first..first + 4).find(|i| lent.heads[3 * i] == 0).unwrap();
            let place = lent.place(group, name).unwrap_or_else(free);
            left.hold(place, name, &masked(&lent.record, own));
        }
        GroupCall::Return(name) => {
            let i = lent.place(group, name).unwrap();
            for q in (0..64).filter(|q| own >> q & 1 == 1) {
                left.record.neighbours[q] = lent.neighbours[64 * i + q];
                left.record.codes[q] = lent.codes[64 * i + q];
            }
            left.record.used = lent.record.used & !own | lent.heads[3 * i + 2] & own;
        }
        GroupCall::Forget(name) => left.heads[3 * lent.place(group, name).unwrap()] = 0,
    }
    (left, None)
}

/// The record of some vertices alone, numbered anew.
pub fn taken(record: &Record, qubits: &[usize]) -> Record {
    let gathered = |word: u64| {
        let bits = qubits.iter().enumerate();
        bits.fold(0, |small, (k, q)| small | (word >> q & 1) << k)
    };
    Record {
        neighbours: qubits
            .iter()
            .map(|&q| gathered(record.neighbours[q]))
            .collect(),
        codes: qubits.iter().map(|&q| record.codes[q]).collect(),
        used: gathered(record.used),
    }
}

/// Puts vertices that were taken out back to their places.
fn put_back(record: &mut Record, qubits: &[usize], small: &Record) {
    let spread = |word: u64| {
        let bits = qubits.iter().enumerate();
        bits.fold(0, |large, (k, q)| large | (word >> k & 1) << q)
    };
    for (k, &q) in qubits.iter().enumerate() {
        record.neighbours[q] = spread(small.neighbours[k]);
        record.codes[q] = small.codes[k];
    }
    let own = spread(!0);
    record.used = record.used & !own | spread(small.used);
}

/// The new number of a qubit.
fn new_number(q: u64, qubits: &[usize]) -> u64 {
    qubits.iter().position(|&own| own as u64 == q).unwrap() as u64
}

/// A call of a source with the new number of its qubit.
fn renumbered(source: Source, qubits: &[usize]) -> Source {
    match source {
        Source::Observe(pauli, q, bit) => Source::Observe(pauli, new_number(q, qubits), bit),
        Source::Renew(q, code) => Source::Renew(new_number(q, qubits), code),
    }
}

/// A call with the new numbers of its qubits.
fn moved(operation: Operation, qubits: &[usize]) -> Operation {
    let new = |q: u64| new_number(q, qubits);
    match operation {
        Operation::Gate(q, code) => Operation::Gate(new(q), code),
        Operation::Cz(a, b) => Operation::Cz(new(a), new(b)),
        Operation::Measure(pauli, q, bit) => Operation::Measure(pauli, new(q), bit),
        Operation::Complement(a) => Operation::Complement(new(a)),
    }
}
