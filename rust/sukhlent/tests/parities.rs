//! Measurements of Pauli rows: every row on every small record against state vectors, seeded ones on
//! up to eight qubits, single letters beside observations, and the refusals.

use crate::common::parity::Joint;
use crate::common::source::Source;
use crate::common::vectors::state_of;
use crate::common::{random_record, random_used_record, Random, RecordCall};
use simulator::{Row, State};
use std::collections::BTreeMap;
use sukhlent::{cut, cz, expand, gate, reduce, Measured, Record};

/// The vector of a record is that of the state before, projected onto the outcome of the row.
fn assert_projected(before: &State, call: &RecordCall<Joint>) -> bool {
    let Joint { z, x, bit } = call.with;
    let (record, found) = call
        .measure_row()
        .unwrap_or_else(|number| panic!("{number}: {call:?}"));
    let row = Row::new(0, z, x);
    let due = before
        .project(&row, found.outcome)
        .expect("an outcome that can be");
    let after = state_of(&record);
    assert!(
        (after.overlap(&due) - 1.0).abs() < 1e-9,
        "{call:?}: {found:?}"
    );
    let chance = before.probability(&row, found.outcome);
    let certain = if found.determined { 1.0 } else { 0.5 };
    assert!((chance - certain).abs() < 1e-9, "{call:?}: {found:?}");
    assert!(
        found.determined || found.outcome == bit,
        "{call:?}: {found:?}"
    );
    assert_eq!(record.used, call.used);
    assert_eq!(
        reduce(&expand(&record).unwrap()).unwrap().codes,
        record.codes
    );
    found.determined
}

#[test]
fn every_row_on_every_record_of_two_qubits() {
    let (mut determined, mut chosen) = (0, 0);
    for (graph, codes) in [[0, 0], [2, 1]]
        .iter()
        .flat_map(|g| (0..24 * 24).map(move |c| (g, c)))
    {
        let record = Record {
            neighbours: graph.to_vec(),
            codes: vec![(codes % 24) as u8, (codes / 24) as u8],
            used: 0,
        };
        let before = state_of(&record);
        for (row, bit) in (0..16).flat_map(|row| [(row, 0), (row, 1)]) {
            let with = Joint {
                z: row >> 2,
                x: row & 3,
                bit,
            };
            match assert_projected(&before, &RecordCall::with(&record, with)) {
                true => determined += 1,
                false => chosen += 1,
            }
        }
    }
    // Of the 16 rows of two qubits a state determines four.
    assert_eq!((determined, chosen), (1152 * 4 * 2, 1152 * 12 * 2));
}

#[test]
fn seeded_rows_on_up_to_eight_qubits() {
    let mut random = Random::new(1973);
    let mut determined = 0;
    for k in 0..4_000 {
        let n = 1 + k % 8;
        let record = random_record(&mut random, n);
        let list = expand(&record).unwrap();
        let [mut z, mut x] = [0, 1].map(|_| random.word() >> (64 - n));
        if random.below(3) == 0 {
            let j = random.below(n);
            (z, x) = (list.z[j], list.x[j]);
        }
        let with = Joint {
            z,
            x,
            bit: random.below(2) as u8,
        };
        determined += usize::from(assert_projected(
            &state_of(&record),
            &RecordCall::with(&record, with),
        ));
    }
    assert!((1_000..3_000).contains(&determined), "{determined}");
}

#[test]
fn a_single_letter_is_observed() {
    let mut random = Random::new(58);
    for _ in 0..20_000 {
        let n = 1 + random.below(12);
        let record = random_used_record(&mut random, n);
        let (pauli, q, bit) = (
            1 + random.below(3) as u8,
            random.below(n),
            random.below(2) as u8,
        );
        let letter = |at: [u8; 2]| u64::from(at.contains(&pauli)) << q;
        let with = Joint {
            z: letter([2, 3]),
            x: letter([1, 2]),
            bit,
        };
        let row = RecordCall::with(&record, with).measure_row();
        let observed =
            RecordCall::with(&record, Source::Observe(pauli, q as u64, bit)).apply_source();
        match (row, observed) {
            (Ok((left, found)), Ok((due, answer))) => {
                assert_eq!(
                    (&left.neighbours, &left.codes),
                    (&due.neighbours, &due.codes)
                );
                assert_eq!((Some(found), left.used), (answer, record.used));
            }
            (row, observed) => assert_eq!(row.err(), observed.err()),
        }
    }
}

#[test]
fn every_number_and_no_other() {
    let mut random = Random::new(16);
    let mut seen = BTreeMap::new();
    for _ in 0..60_000 {
        let n = 1 + random.below(5);
        let mut call = RecordCall::with(
            &random_used_record(&mut random, n),
            Joint {
                z: random.word() & random.word() & 31,
                x: random.word() & random.word() & 31,
                bit: random.below(3) as u8,
            },
        );
        match random.below(12) {
            0 => call.n = [0, 65, 1 << 40][random.below(3)],
            1 => call.n = 1 + (call.n + random.below(6) as u64) % 6,
            2 => call.codes[0] = 24 + random.below(200) as u8,
            3 => call.neighbours[0] |= 1,
            4 => call.used |= 1 << random.below(n + 1),
            5 => call.neighbours[0] |= 1 << random.below(64),
            _ => (),
        }
        let due = call.due_row();
        assert_eq!(call.measure_row().err().unwrap_or(0), due, "{call:?}");
        *seen.entry(due).or_insert(0) += 1;
    }
    let numbers: Vec<u8> = seen.keys().copied().collect();
    assert_eq!(numbers, [0, 2, 4, 5, 6, 7, 16], "{seen:?}");
}

#[test]
fn the_identity_row_is_determined() {
    let mut random = Random::new(4);
    for n in 1..=64 {
        let record = random_record(&mut random, n);
        for bit in 0..2 {
            let call = RecordCall::with(&record, Joint { z: 0, x: 0, bit });
            let due = Measured {
                outcome: 0,
                determined: true,
            };
            let (left, found) = call.measure_row().unwrap();
            assert_eq!(found, due);
            assert_eq!(left, reduce(&expand(&record).unwrap()).unwrap());
        }
    }
}

/// The row with letters of a text.
fn row(text: &str) -> (u64, u64) {
    let row = Row::parse(&format!("+{text}"));
    (row.z, row.x)
}

/// The generators of a code of n qubits, and its record: each measured on +Z with the outcome 0.
fn encoded(rows: &[&str]) -> Record {
    let mut record = Record::zeros(rows[0].len());
    for (z, x) in rows.iter().map(|text| row(text)) {
        record.measure_row(z, x, 0).unwrap();
    }
    record
}

/// The outcomes of the rows, each of which is determined.
fn syndrome(record: &mut Record, rows: &[&str]) -> Vec<u8> {
    let found = rows.iter().map(|text| {
        let (z, x) = row(text);
        record.measure_row(z, x, 1).unwrap()
    });
    found
        .inspect(|m| assert!(m.determined))
        .map(|m| m.outcome)
        .collect()
}

/// Every error of one letter has a syndrome of its own, and it is that of commutation.
fn assert_corrects(rows: &[&str]) -> BTreeMap<Vec<u8>, (usize, u8)> {
    let clean = encoded(rows);
    let n = clean.n();
    let mut table = BTreeMap::new();
    for (q, error) in (0..n).flat_map(|q| [(q, 1), (q, 2), (q, 3)]) {
        let mut record = clean.clone();
        gate(&mut record, q, error_code(error)).unwrap();
        let clashes = |text: &&str| {
            let letter = b"IXYZ"
                .iter()
                .position(|l| *l == text.as_bytes()[q])
                .unwrap() as u8;
            u8::from(letter != 0 && letter != error)
        };
        let due: Vec<u8> = rows.iter().map(clashes).collect();
        assert_eq!(syndrome(&mut record, rows), due, "{error} at {q}");
        table.insert(due, (q, error));
    }
    table
}

/// The code of a Pauli gate: 1 X, 2 Y, 3 Z.
fn error_code(pauli: u8) -> u8 {
    [sukhlent::codes::X, sukhlent::codes::Y, sukhlent::codes::Z][usize::from(pauli) - 1]
}

#[test]
fn the_five_qubit_code_tells_fifteen_errors_apart() {
    let table = assert_corrects(&["XZZXI", "IXZZX", "XIXZZ", "ZXIXZ"]);
    assert_eq!(table.len(), 15);
    assert!(!table.contains_key(&vec![0; 4]));
}

#[test]
fn steanes_code_tells_x_and_z_errors_apart() {
    let rows = [
        "IIIZZZZ", "IZZIIZZ", "ZIZIZIZ", "IIIXXXX", "IXXIIXX", "XIXIXIX",
    ];
    let table = assert_corrects(&rows);
    assert_eq!(table.len(), 21);
}

#[test]
fn a_fusion_of_two_linear_clusters() {
    // Two clusters of three photons, 0-1-2 and 3-4-5: photons 2 and 3 meet. Success measures XZ and ZX
    // and joins the clusters by an edge 1-4; failure measures Z of each, and they stay apart.
    let both = |fail: bool| {
        let mut record = Record {
            neighbours: vec![2, 5, 2, 16, 40, 16],
            codes: vec![0; 6],
            used: 0,
        };
        let rows = if fail {
            ["IIZIII", "IIIZII"]
        } else {
            ["IIXZII", "IIZXII"]
        };
        for (z, x) in rows.map(row) {
            assert!(!record.measure_row(z, x, 0).unwrap().determined);
        }
        record
    };
    let side = 0b000011 | 0b000100;
    assert_eq!(cut(&both(false), side).unwrap(), 2);
    assert_eq!(cut(&both(true), side).unwrap(), 0);
    // The photons that are left: 0-1-4-5, a linear cluster again.
    for text in ["XZIIII", "ZXIIZI", "IZIIXZ", "IIIIZX"] {
        let (z, x) = row(text);
        assert_eq!(both(false).expectation(z, x).unwrap(), 1, "{text}");
    }
}

#[test]
fn a_parity_check_repeated_and_by_a_helper() {
    let mut random = Random::new(7);
    for _ in 0..200 {
        let n = 2 + random.below(6);
        let mut record = random_record(&mut random, n + 1);
        record
            .neighbours
            .iter_mut()
            .for_each(|word| *word &= !(1 << n));
        (record.neighbours[n], record.codes[n]) = (0, 8);
        let mask = random.word() >> (64 - n);
        let bit = random.below(2) as u8;
        let mut joint = record.clone();
        let first = joint.measure_row(mask, 0, bit).unwrap();
        let again = joint.measure_row(mask, 0, 1 - first.outcome).unwrap();
        assert_eq!(
            again,
            Measured {
                outcome: first.outcome,
                determined: true
            }
        );
        // A helper in +X, a CZ to each qubit of the parity, and X of the helper.
        gate(&mut record, n, sukhlent::codes::H).unwrap();
        (0..n)
            .filter(|q| mask >> q & 1 == 1)
            .for_each(|q| cz(&mut record, n, q).unwrap());
        let helper = sukhlent::observe(&mut record, sukhlent::Pauli::X, n, bit).unwrap();
        assert_eq!(helper, first);
        for _ in 0..20 {
            let [z, x] = [0, 1].map(|_| random.word() >> (64 - n));
            assert_eq!(
                record.expectation(z, x).unwrap(),
                joint.expectation(z, x).unwrap()
            );
        }
    }
}
