//! Used qubits: the worked examples, what a measurement leaves, and what every later call does about it.

use crate::common::damage::flip;
use crate::common::reference::{after, expanded, reduced};
use crate::common::{isolate, random_used_record, use_up};
use crate::common::{ListCall, Operation, Random, RecordCall};
use sukhlent::{complement, cut, cz, expand, gate, measure, reduce};
use sukhlent::{Measured, Pauli, Record, Refusal};
use Operation::{Complement, Cz, Gate, Measure};

fn record(neighbours: &[u64], codes: &[u8], used: u64) -> Record {
    Record {
        neighbours: neighbours.to_vec(),
        codes: codes.to_vec(),
        used,
    }
}

/// The record that a call leaves and what it measures, or its number. On a refusal nothing changes, which the guarded
/// call asserts.
fn call(record: &Record, operation: Operation) -> Result<(Record, Option<Measured>), u8> {
    RecordCall::with(record, operation).apply()
}

fn number(record: &Record, operation: Operation) -> u8 {
    call(record, operation).err().unwrap_or(0)
}

/// The answer of an accepted measurement.
fn answer(outcome: u8, determined: bool) -> Option<Measured> {
    Some(Measured {
        outcome,
        determined,
    })
}

// ---- the worked examples
// The edge 0 - 1 with codes 0 and 8 is the Bell state XX, ZZ.
#[test]
fn z_measured_at_both_ends_of_the_edge() {
    let edge = record(&[2, 1], &[0, 8], 0);
    let first = record(&[0, 0], &[10, 10], 1);
    let both = record(&[0, 0], &[10, 10], 3);
    let z_0 = call(&edge, Measure(3, 0, 1));
    assert_eq!(z_0, Ok((first.clone(), answer(1, false))));
    // "Z on qubit 1 with bit 1 still runs, since only qubit 0 is used"
    let z_1 = call(&first, Measure(3, 1, 1));
    assert_eq!(z_1, Ok((both, answer(1, true))));
    for (operation, due) in [
        (Measure(3, 1, 0), 14),
        (Measure(3, 0, 1), 16),
        (Gate(0, 24), 6),
        (Gate(0, 8), 16),
        (Cz(0, 1), 16),
    ] {
        assert_eq!(call(&first, operation), Err(due), "{operation:?}");
    }
}

#[test]
fn records_that_are_refused_for_their_used_word() {
    for (record, due) in [
        (record(&[0, 0], &[0, 0], 4), 5),
        (record(&[2, 1], &[0, 0], 1), 7),
        (record(&[0, 0], &[1, 0], 1), 7),
        (record(&[0, 0], &[24, 0], 1), 6),
    ] {
        assert_eq!(call(&record, Gate(1, 0)), Err(due), "{record:?}");
        assert_eq!(call(&record, Cz(0, 1)), Err(due), "{record:?}");
        assert_eq!(call(&record, Measure(1, 1, 0)), Err(due), "{record:?}");
        assert_eq!(call(&record, Complement(1)), Err(due), "{record:?}");
        assert_eq!(RecordCall::on(&record).expand(), Err(due), "{record:?}");
        let cut = RecordCall::cut_of(&record, 1).cut();
        assert_eq!(cut, Err(due), "{record:?}");
        let value = RecordCall::row_of(&record, 1, 1).expectation();
        assert_eq!(value, Err(due), "{record:?}");
    }
}

#[test]
fn cz_gives_8_before_16() {
    let two = record(&[0, 0, 0], &[8, 8, 8], 1);
    for (operation, due) in [
        (Cz(0, 0), 8),
        (Cz(0, 3), 8),
        (Cz(3, 0), 8),
        (Cz(0, 1), 16),
        (Cz(1, 0), 16),
        (Cz(1, 2), 0),
    ] {
        assert_eq!(number(&two, operation), due, "{operation:?}");
    }
}

#[test]
fn the_safe_calls_say_the_same() {
    let mut state = reduce(&expanded(&record(&[2, 1], &[0, 8], 0))).unwrap();
    assert_eq!(state.used, 0);
    assert!(measure(&mut state, Pauli::Z, 0, 1).is_ok());
    let left = state.clone();
    assert_eq!(left.used, 1);
    assert_eq!(gate(&mut state, 0, 8), Err(Refusal::Used));
    assert_eq!(gate(&mut state, 0, 24), Err(Refusal::Value));
    assert_eq!(cz(&mut state, 0, 1), Err(Refusal::Used));
    assert_eq!(cz(&mut state, 0, 0), Err(Refusal::Qubit));
    assert_eq!(complement(&mut state, 0), Err(Refusal::Used));
    let forbidden = measure(&mut state, Pauli::Z, 0, 0);
    assert_eq!(forbidden, Err(Refusal::Used), "16 before 14");
    assert_eq!(state, left);
    assert_eq!(cut(&state, 0b01), Ok(0));
    assert_eq!(state.expectation(0b11, 0), Ok(1));
    assert_eq!(expand(&state), Ok(expanded(&left)));
    assert_eq!(gate(&mut state, 1, 8), Ok(()));
    assert_eq!(state.used, 1);
}

// "a record made from a list has the word 0", whatever the place held before
#[test]
fn a_record_made_from_a_list_has_no_used_qubit() {
    for seed in 0..200 {
        let mut random = Random::new(85_000 + seed);
        let n = 1 + random.below(64);
        let given = random_used_record(&mut random, n);
        let left = ListCall::on(&expanded(&given)).reduce().unwrap();
        assert_eq!(left, reduced(&expanded(&given)), "seed {seed}");
        assert_eq!(left.used, 0, "seed {seed}");
    }
}

// ---- what a measurement leaves
// "A used vertex has no neighbour, and its code is 0, 2, 4, 6, 8 or 10": 4 times the Pauli less 1, plus 2 times the bit.
#[test]
fn every_measured_vertex_stands_alone_with_the_code_of_its_outcome() {
    let mut seen = [[0; 2]; 2];
    for seed in 0..300 {
        let mut random = Random::new(80_000 + seed);
        let n = 1 + random.below(64);
        let mut given = random_used_record(&mut random, n);
        // Some vertices are alone, so that some outcomes are determined.
        (0..n / 2).for_each(|_| isolate(&mut given.neighbours, random.below(n)));
        for (pauli, bit) in (1..=3).flat_map(|pauli| [(pauli, 0), (pauli, 1)]) {
            let q = random.below(n);
            let operation = Measure(pauli, q as u64, bit);
            let Ok((left, measured)) = call(&given, operation) else {
                continue;
            };
            assert_eq!((left.clone(), measured), after(&given, operation));
            assert_eq!(left.used, given.used | 1 << q, "seed {seed}");
            assert_eq!(left.neighbours[q], 0, "seed {seed}");
            assert_eq!(left.codes[q], 4 * (pauli - 1) + 2 * bit, "seed {seed}");
            assert_eq!(call(&left, operation), Err(16), "seed {seed}");
            assert_eq!(number(&left, Measure(pauli, q as u64, 1 - bit)), 16);
            assert!(expand(&left).is_ok(), "seed {seed}");
            let determined = measured.expect("a measurement").determined;
            seen[usize::from(determined)][usize::from(bit)] += 1;
        }
    }
    assert!(seen.as_flattened().iter().all(|&k| k > 20), "{seen:?}");
}

// ---- calls on the others
#[test]
fn accepted_calls_keep_every_used_vertex_and_copy_the_word() {
    let mut counts = [0; 4];
    for seed in 0..1200 {
        let mut random = Random::new(81_000 + seed);
        let n = 2 + random.below(63);
        let given = random_used_record(&mut random, n);
        let kind = seed as usize % 4;
        let operation = Operation::loose(&mut random, kind, n);
        let Ok((left, measured)) = call(&given, operation) else {
            continue;
        };
        counts[kind] += 1;
        assert_eq!((left.clone(), measured), after(&given, operation));
        let mark = match operation {
            Measure(_, q, _) => 1 << q,
            _ => 0,
        };
        assert_eq!(left.used, given.used | mark, "seed {seed}");
        for q in (0..n).filter(|q| given.used >> q & 1 == 1) {
            assert_eq!(left.neighbours[q], 0, "seed {seed}");
            assert_eq!(left.codes[q], given.codes[q], "seed {seed}");
        }
    }
    assert!(counts.iter().all(|&count| count > 80), "{counts:?}");
}

// The word is the caller's: graph and codes after an accepted call are those without it.
#[test]
fn the_word_does_not_change_what_an_accepted_call_leaves() {
    let mut accepted = 0;
    for seed in 0..2000 {
        let mut random = Random::new(82_000 + seed);
        let n = 1 + random.below(64);
        let given = random_used_record(&mut random, n);
        let kind = random.below(4);
        let operation = Operation::loose(&mut random, kind, n);
        let forgotten = Record {
            used: 0,
            ..given.clone()
        };
        if let Ok((left, measured)) = call(&given, operation) {
            let (other, same) = call(&forgotten, operation).unwrap();
            assert_eq!(
                (&left.neighbours, &left.codes),
                (&other.neighbours, &other.codes)
            );
            assert_eq!(measured, same);
            accepted += 1;
        }
    }
    assert!(accepted > 500, "{accepted}");
}

// ---- which calls are refused
#[test]
fn every_qubit_of_64_is_refused_exactly_where_it_is_used() {
    for seed in 0..3 {
        let mut random = Random::new(83_000 + seed);
        let given = random_used_record(&mut random, 64);
        let used = |q: u64| given.used >> q & 1 == 1;
        let due = |named: bool| if named { 16 } else { 0 };
        for q in 0..64 {
            let code = random.below(24) as u8;
            assert_eq!(number(&given, Gate(q, code)), due(used(q)), "{q}");
            assert_eq!(number(&given, Complement(q)), due(used(q)), "{q}");
            for b in (0..64).filter(|&b| b != q) {
                assert_eq!(number(&given, Cz(q, b)), due(used(q) || used(b)), "{q} {b}");
            }
            for (pauli, bit) in [(1, 0), (2, 1), (3, 0)] {
                let operation = Measure(pauli, q, bit);
                let call = RecordCall::with(&given, operation);
                assert_eq!(number(&given, operation), call.due(), "{q}");
                assert_eq!(number(&given, operation) == 16, used(q), "{q}");
            }
        }
    }
}

#[test]
fn where_all_64_qubits_are_used_nothing_but_reading_is_left() {
    let codes: Vec<u8> = (0..64).map(|q| 2 * (q % 6)).collect();
    let all = record(&[0; 64], &codes, u64::MAX);
    for q in 0..64 {
        let next = (q + 1) % 64;
        for operation in [Gate(q, 0), Complement(q), Cz(q, next), Measure(3, q, 1)] {
            assert_eq!(number(&all, operation), 16, "{operation:?}");
        }
        assert_eq!(number(&all, Cz(q, q)), 8);
        assert_eq!(number(&all, Gate(q, 24)), 6);
    }
    assert_eq!(expand(&all), Ok(expanded(&all)));
    assert_eq!(cut(&all, 0x5555_5555_5555_5555), Ok(0));
    assert_eq!(all.expectation(0, 1), Ok(1));
    assert_eq!(all.expectation(0, 1 << 1), Ok(-1));
    let back = Record { used: 0, ..all };
    assert_eq!(reduced(&expanded(&back)), back);
}

// A session that measures one qubit after the other: each of them stays used.
#[test]
fn measured_one_after_the_other() {
    for n in [1, 2, 3, 8, 63, 64] {
        let mut random = Random::new(84_000 + n as u64);
        let mut state = random_used_record(&mut random, n);
        state.used = 0;
        let mut order: Vec<usize> = (0..n).collect();
        (1..n).for_each(|k| order.swap(k, random.below(k + 1)));
        let mut used = 0;
        for q in order {
            let pauli = [Pauli::X, Pauli::Y, Pauli::Z][random.below(3)];
            let answers = [0, 1].map(|bit| measure(&mut state.clone(), pauli, q, bit));
            let bit = answers.iter().position(|answer| answer.is_ok()).unwrap();
            measure(&mut state, pauli, q, bit as u8).unwrap();
            used |= 1 << q;
            assert_eq!(state.used, used);
            assert_eq!(gate(&mut state, q, 0), Err(Refusal::Used));
        }
        assert_eq!(state.used, u64::MAX >> (64 - n));
        assert_eq!(state.neighbours, vec![0; n]);
    }
}

// ---- of two faults the earlier number
// The same record with one fault after the other taken away: 5, 6, 7, 8, 16, 14.
#[test]
fn the_order_of_the_refusals_of_a_measurement() {
    let mut call = RecordCall::with(&record(&[0; 3], &[10, 0, 0], 0b001), Measure(3, 0, 0));
    let judged = |call: &RecordCall<Operation>, due: u8| {
        assert_eq!((call.due(), call.apply()), (due, Err(due)), "{call:?}");
    };
    // A stray used bit, a code that is none, a loop at a used vertex, a wrong Pauli and no such qubit.
    call.used |= 1 << 3;
    call.codes[1] = 24;
    flip(&mut call.neighbours, 2, 2);
    call.with = Measure(4, 3, 0);
    judged(&call, 5);
    call.used ^= 1 << 3;
    judged(&call, 6);
    call.codes[1] = 0;
    judged(&call, 6);
    call.with = Measure(3, 3, 0);
    judged(&call, 7);
    flip(&mut call.neighbours, 2, 2);
    call.codes[0] = 11;
    judged(&call, 7);
    call.codes[0] = 10;
    judged(&call, 8);
    call.with = Measure(3, 0, 0);
    judged(&call, 16);
    call.used = 0;
    judged(&call, 14);
    call.with = Measure(3, 0, 1);
    assert_eq!((call.due(), call.apply().is_ok()), (0, true));
}

// A used vertex with a wrong code beside a code above 23 elsewhere: 6 is judged over all vertices before 7.
#[test]
fn lines_are_judged_over_all_vertices() {
    let mut given = record(&[0; 64], &[0; 64], 0);
    use_up(&mut given, 0, 1);
    given.codes[63] = 24;
    assert_eq!(number(&given, Gate(5, 0)), 6);
    given.codes[63] = 0;
    assert_eq!(number(&given, Gate(5, 0)), 7);
    given.codes[0] = 10;
    use_up(&mut given, 63, 10);
    assert_eq!(number(&given, Gate(5, 0)), 0);
    given.codes[63] = 9;
    assert_eq!(number(&given, Gate(5, 0)), 7);
    // a loop at the last vertex, which is used: the graph is not simple
    given.codes[63] = 8;
    flip(&mut given.neighbours, 63, 63);
    assert_eq!(number(&given, Gate(5, 0)), 7);
}
