//! Damaged calls on a record in place: every number, pairs of faults, and every wrong argument.

use crate::common::damage::{damage_record, each_fault, each_pair};
use crate::common::damage::{record_faults, used_faults, Fault};
use crate::common::reference::expanded;
use crate::common::seeded::pauli::{X, Y, Z};
use crate::common::{images, isolate, random_record, random_used_record, rows};
use crate::common::{Operation, Pauli, Random, RecordCall};
use sukhlent::Record;
use Operation::{Complement, Cz, Gate, Measure};

type Call = RecordCall<Operation>;

/// The faults of a call's own arguments on 8 vertices; the last ones have two.
fn own_faults(operation: Operation) -> Vec<Fault<Call>> {
    match operation {
        Gate(..) => vec![
            (6, |call| call.with = Gate(0, 24)),
            (6, |call| call.with = Gate(7, 255)),
            (8, |call| call.with = Gate(8, 0)),
            (8, |call| call.with = Gate(u64::MAX, 23)),
            (6, |call| call.with = Gate(8, 24)),
            (16, use_named),
        ],
        Cz(..) => vec![
            (8, |call| call.with = Cz(8, 0)),
            (8, |call| call.with = Cz(0, 8)),
            (8, |call| call.with = Cz(u64::MAX, 1 << 32)),
            (8, |call| call.with = Cz(3, 3)),
            (8, |call| call.with = Cz(8, 8)),
            (8, |call| call.with = Cz(0, 0)),
            (16, use_named),
            (16, |call| use_qubit(call, 0)),
            (16, |call| use_qubit(call, 1)),
        ],
        Measure(..) => vec![
            (6, |call| call.with = Measure(0, 0, 0)),
            (6, |call| call.with = Measure(4, 7, 1)),
            (6, |call| call.with = Measure(3, 0, 2)),
            (8, |call| call.with = Measure(1, 8, 0)),
            (8, |call| call.with = Measure(2, u64::MAX, 1)),
            (6, |call| call.with = Measure(0, 8, 0)),
            (6, |call| call.with = Measure(2, 8, 255)),
            (14, |call| contradict(call, 1, 2, 0)),
            (14, |call| contradict(call, 2, 6, 0)),
            (14, |call| contradict(call, 3, 8, 1)),
            (16, use_named),
        ],
        Complement(..) => vec![
            (8, |call| call.with = Complement(8)),
            (8, |call| call.with = Complement(1 << 32)),
            (8, |call| call.with = Complement(u64::MAX)),
            (16, use_named),
        ],
    }
}

/// Leaves vertex 5 alone with a code, and measures a Pauli there.
fn contradict(call: &mut Call, pauli: u8, code: u8, bit: u8) {
    isolate(&mut call.neighbours, 5);
    call.codes[5] = code;
    call.with = Measure(pauli, 5, bit);
}

/// Marks a qubit as used: its vertex is alone and keeps a code that a used one may have.
fn use_qubit(call: &mut Call, q: usize) {
    isolate(&mut call.neighbours, q);
    if ![0, 2, 4, 6, 8, 10].contains(&call.codes[q]) {
        call.codes[q] = 6;
    }
    call.used |= 1 << q;
}

/// Marks the qubits that the call names as used.
fn use_named(call: &mut Call) {
    let named = call.with;
    (0..8)
        .filter(|&q| named.names(q))
        .for_each(|q| use_qubit(call, q));
}

/// A call on a random record of n vertices, of which the first two have an edge.
fn base(seed: u64, n: usize, operation: Operation) -> Call {
    let mut record = random_record(&mut Random::new(seed), n);
    if n > 1 {
        record.neighbours[0] |= 2;
        record.neighbours[1] |= 1;
    }
    RecordCall::with(&record, operation)
}

fn assert_refused(call: &Call, number: u8, what: &str) {
    assert_eq!(call.due(), number, "the fault itself: {what}");
    assert_eq!(call.apply(), Err(number), "{what}: {call:?}");
}

fn assert_judged(call: &Call, number: u8) {
    assert_eq!(call.due(), number, "{call:?}");
    assert_eq!(call.apply().err().unwrap_or(0), number, "{call:?}");
}

/// Numbers of qubits that are n or more.
fn beyond(n: u64) -> impl Iterator<Item = u64> {
    let far = [64, 65, 128, 256, 1 << 32, 1 << 63, u64::MAX].into_iter();
    let low_bits = [1 << 8, 1 << 16, 1 << 32, 1 << 63].map(|high| high + n - 1);
    (n..n + 70)
        .chain(far.filter(move |&q| q >= n))
        .chain(low_bits)
}

#[test]
fn every_fault_gives_its_number() {
    for (seed, operation) in (0..20).flat_map(|s| Operation::EACH.map(|o| (s, o))) {
        let base = || base(seed, 8, operation);
        assert_judged(&base(), 0);
        each_fault(&record_faults(), base, assert_refused);
        each_fault(&used_faults(), base, assert_refused);
        each_fault(&own_faults(operation), base, assert_refused);
    }
}

#[test]
fn of_two_faults_the_earlier_number_is_given() {
    for (seed, operation) in (0..20).flat_map(|s| Operation::EACH.map(|o| (s, o))) {
        let faults = [record_faults(), used_faults(), own_faults(operation)].concat();
        each_pair(&faults, || base(seed, 8, operation), assert_refused);
    }
}

#[test]
fn every_code_and_every_qubit_of_a_gate() {
    for n in [1, 2, 63, 64] {
        let call = |q, code| base(q ^ u64::from(code), n as usize, Gate(q, code));
        for (q, code) in (0..n).flat_map(|q| (0..=255).map(move |code| (q, code))) {
            assert_judged(&call(q, code), if code < 24 { 0 } else { 6 });
        }
        for q in beyond(n) {
            assert_judged(&call(q, 0), 8);
            assert_judged(&call(q, 23), 8);
            assert_judged(&call(q, 24), 6);
        }
    }
}

#[test]
fn every_pauli_every_outcome_and_every_qubit_of_a_measurement() {
    for n in [1, 2, 63, 64] {
        let call = |pauli, q, bit| base(n, n as usize, Measure(pauli, q, bit));
        let assert_due = |pauli, q, bit| {
            let call = call(pauli, q, bit);
            let six = !(1..=3).contains(&pauli) || bit > 1;
            assert_judged(
                &call,
                if six {
                    6
                } else {
                    click_due(&call, pauli, q, bit)
                },
            );
        };
        for value in 0..=255 {
            for (bit, pauli) in [(0, 1), (1, 2), (0, 3)] {
                assert_due(value, n - 1, bit);
                assert_due(pauli, n - 1, value);
            }
        }
        for q in 0..n {
            assert_due(1 + (q % 3) as u8, q, (q % 2) as u8);
        }
        for q in beyond(n) {
            assert_judged(&call(3, q, 1), 8);
            assert_judged(&call(4, q, 1), 6);
            assert_judged(&call(3, q, 2), 6);
        }
    }
}

/// 14 where the qubit is alone and its code sends X to the Pauli with the other sign, else 0.
fn click_due(call: &Call, pauli: u8, q: u64, bit: u8) -> u8 {
    let q = q as usize;
    let other = (2 * (1 - bit), [X, Y, Z][usize::from(pauli) - 1]);
    let forbidden = call.neighbours[q] == 0 && images(call.codes[q]).0 == other;
    14 * u8::from(forbidden)
}

/// The record of two vertices with an edge or none, by its codes.
fn two_vertices(edge: bool, codes: [u8; 2]) -> Record {
    let neighbours = if edge { [2, 1] } else { [0, 0] };
    Record {
        neighbours: neighbours.to_vec(),
        codes: codes.to_vec(),
        used: 0,
    }
}

#[test]
fn a_bit_is_refused_exactly_where_the_group_has_the_other_sign() {
    let codes = || (0..24).flat_map(|a| (0..24).map(move |b| [a, b]));
    let records = [false, true].into_iter();
    let records = records.flat_map(|edge| codes().map(move |codes| two_vertices(edge, codes)));
    let mut counts = [0; 2];
    for record in records {
        let [first, second]: [Pauli; 2] = rows(&expanded(&record)).try_into().unwrap();
        let group = [Pauli::identity(2), first.times(&second), first, second];
        for (pauli, letter) in [(1, X), (2, Y), (3, Z)] {
            for (q, bit) in [(0, 0), (0, 1), (1, 0), (1, 1)] {
                let mut other = Pauli::single(2, q, letter);
                other.phase = 2 * (1 - bit);
                let forbidden = group.contains(&other);
                let call = RecordCall::with(&record, Measure(pauli, q as u64, bit));
                assert_judged(&call, if forbidden { 14 } else { 0 });
                counts[usize::from(forbidden)] += 1;
            }
        }
    }
    // Without an edge one Pauli of three is determined, and one of two bits forbidden.
    assert_eq!(counts, [2 * 576 * 12 - 576 * 2, 576 * 2]);
}

#[test]
fn every_vertex_of_a_complementation() {
    for n in 1..=64 {
        let call = |a| base(a, n as usize, Complement(a));
        (0..n).for_each(|a| assert_judged(&call(a), 0));
        beyond(n).for_each(|a| assert_judged(&call(a), 8));
    }
}

#[test]
fn every_pair_of_a_cz() {
    for n in [1, 2, 8, 63, 64] {
        let right = base(n, n as usize, Cz(0, 0));
        let call = |with| Call {
            with,
            ..right.clone()
        };
        for (a, b) in (0..n).flat_map(|a| (0..n).map(move |b| (a, b))) {
            assert_judged(&call(Cz(a, b)), if a == b { 8 } else { 0 });
        }
        for (a, b) in (0..n).flat_map(|a| beyond(n).map(move |b| (a, b))) {
            for operation in [Cz(a, b), Cz(b, a), Cz(b, b)] {
                assert_judged(&call(operation), 8);
            }
        }
    }
}

#[test]
fn seeded_damage_against_the_reference() {
    let mut counts = [[0; 17]; 4];
    for seed in 0..20_000 {
        let mut random = Random::new(20_000 + seed);
        let n = 2 + random.below(9);
        let kind = random.below(4);
        let operation = Operation::loose(&mut random, kind, n);
        let mut call = match random.below(2) {
            0 => base(seed, n, operation),
            _ => RecordCall::with(&random_used_record(&mut random, n), operation),
        };
        if let Measure(_, q @ 2.., _) = operation {
            isolate(&mut call.neighbours, (q as usize).min(n - 1));
        }
        for _ in 0..random.below(3) {
            damage_record(&mut random, &mut call);
        }
        let due = call.due();
        assert_judged(&call, due);
        counts[kind][usize::from(due)] += 1;
    }
    for (kind, counts) in counts.iter().enumerate() {
        let all = [0, 2, 4, 5, 6, 7, 8];
        assert!(all.iter().all(|&k| counts[k] > 20), "{counts:?}");
        assert_eq!(counts[14] > 20, kind == 2, "{counts:?}");
        assert!(counts[16] > 20, "{counts:?}");
    }
}
