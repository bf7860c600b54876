//! A source that goes on: observations and renewals on every small record, their groups, and the worked examples.

use crate::common::reference::expanded;
use crate::common::seeded::pauli::{X, Y, Z};
use crate::common::small::every_record;
use crate::common::source::Source;
use crate::common::{random_used_record, rows, Pauli, Random, RecordCall};
use std::collections::{BTreeMap, BTreeSet};
use sukhlent::{cz, expand, gate, measure, observe, reduce};
use sukhlent::{Measured, Photon, Record, Refusal};

/// Every call on n qubits, with one argument too many of each kind.
fn calls(n: u64) -> Vec<Source> {
    let qubits = || 0..=n;
    let paulis = (0..5).flat_map(|pauli| (0..3).map(move |bit| (pauli, bit)));
    let observations =
        paulis.flat_map(|(pauli, bit)| qubits().map(move |q| Source::Observe(pauli, q, bit)));
    let renewals = qubits().flat_map(|q| (0..25).map(move |code| Source::Renew(q, code)));
    observations.chain(renewals).collect()
}

/// A row as a key: its letters and its phase.
fn key(row: &Pauli) -> (Vec<u8>, u8) {
    (row.letters.clone(), row.phase % 4)
}

/// The elements of a record's group: all products of its generators.
fn elements(record: &Record) -> Vec<Pauli> {
    let rows = rows(&expanded(record));
    let chosen = |word: usize| {
        let named = (0..rows.len()).filter(move |j| word >> j & 1 == 1);
        named.fold(Pauli::identity(record.n()), |product, j| {
            product.times(&rows[j])
        })
    };
    (0..1 << rows.len()).map(chosen).collect()
}

/// The letter and the sign of a photon's code.
fn photon(n: usize, q: usize, code: u8) -> Pauli {
    let mut row = Pauli::single(n, q, [X, Y, Z][usize::from(code / 4)]);
    row.phase = code % 4;
    row
}

/// "the elements with I at the qubit, joined by that Pauli with its sign"
fn assert_joined(before: &Record, q: usize, code: u8, after: &Record) {
    let new = photon(before.n(), q, code);
    let kept = elements(before);
    let kept = kept.iter().filter(|row| row.letters[q] == 0);
    let due: BTreeSet<_> = kept
        .flat_map(|row| [key(row), key(&row.times(&new))])
        .collect();
    let given: BTreeSet<_> = elements(after).iter().map(key).collect();
    assert_eq!(given, due, "{before:?}, qubit {q}, code {code}");
}

#[test]
fn every_call_on_every_record_with_every_used_word() {
    let mut counts: BTreeMap<(&str, u8), usize> = BTreeMap::new();
    for n in 1..=2 {
        let calls = calls(n as u64);
        for record in every_record(n) {
            for &with in &calls {
                let call = RecordCall::with(&record, with);
                let due = match call.due_number() {
                    0 => Ok(call.due_after()),
                    number => Err(number),
                };
                let given = call.apply_source();
                assert_eq!(given, due, "{call:?}");
                let name = match with {
                    Source::Observe(..) => "observe",
                    Source::Renew(..) => "renew",
                };
                if let (Source::Renew(q, code), Ok((after, _))) = (with, given) {
                    assert_joined(&record, q as usize, code, &after);
                }
                *counts.entry((name, due.err().unwrap_or(0))).or_default() += 1;
            }
        }
    }
    let seen: Vec<(&str, u8)> = counts.keys().copied().collect();
    let published = [
        ("observe", &[0, 5, 6, 7, 8, 16][..]),
        ("renew", &[0, 5, 6, 7, 8, 20]),
    ];
    let due = published.iter();
    let due = due.flat_map(|(name, numbers)| numbers.iter().map(move |&k| (*name, k)));
    assert_eq!(seen, due.collect::<Vec<_>>(), "{counts:?}");
}

#[test]
fn what_measure_accepts_observe_answers_and_leaves_the_same() {
    let mut random = Random::new(40);
    let (mut accepted, mut forbidden) = (0, 0);
    for _ in 0..20_000 {
        let n = 1 + random.below(12);
        let record = random_used_record(&mut random, n);
        let (pauli, q) = (random.below(4) as u8, random.below(n + 1) as u64);
        let bit = random.below(2) as u8;
        let observed = RecordCall::with(&record, Source::Observe(pauli, q, bit)).apply_source();
        let with = crate::common::Operation::Measure(pauli, q, bit);
        match RecordCall::with(&record, with).apply() {
            Err(14) => {
                let (_, answer) = observed.expect("no outcome is refused");
                let due = Measured {
                    outcome: 1 - bit,
                    determined: true,
                };
                assert_eq!(answer, Some(due));
                forbidden += 1;
            }
            measured => {
                accepted += usize::from(measured.is_ok());
                assert_eq!(observed, measured);
            }
        }
    }
    assert!(
        accepted > 5000 && forbidden > 100,
        "{accepted}, {forbidden}"
    );
}

#[test]
fn a_renewal_at_64_qubits_and_the_numbers_beyond() {
    let mut random = Random::new(41);
    for n in [1, 2, 63, 64] {
        for _ in 0..200 {
            let record = random_used_record(&mut random, n);
            let q = random.below(n) as u64;
            for (qubit, code) in [(q, 2 * random.below(6) as u8), (q, random.word() as u8)]
                .into_iter()
                .chain([
                    (n as u64, 0),
                    (64, 8),
                    (1 << 32, 2),
                    (u64::MAX, 10),
                    (u64::MAX, 12),
                ])
            {
                let call = RecordCall::with(&record, Source::Renew(qubit, code));
                let due = match call.due_number() {
                    0 => Ok(call.due_after()),
                    number => Err(number),
                };
                assert_eq!(call.apply_source(), due, "{call:?}");
            }
        }
    }
}

#[test]
fn a_reduced_record_stays_reduced() {
    let mut random = Random::new(42);
    let mut renewed = 0;
    for _ in 0..2000 {
        let n = 1 + random.below(64);
        let used = random_used_record(&mut random, n);
        let mut record = reduce(&expand(&used).unwrap()).unwrap();
        record.used = used.used;
        for q in (0..n).filter(|q| used.used >> q & 1 == 1) {
            record.renew(q, Photon::ALL[random.below(6)]).unwrap();
            renewed += 1;
        }
        assert_eq!(record.used, 0);
        assert_eq!(reduce(&expand(&record).unwrap()), Ok(record));
    }
    assert!(renewed > 2000, "{renewed}");
}

#[test]
fn a_place_measured_renewed_and_measured_again() {
    let mut record = Record::zeros(2);
    for (photon, pauli, sign) in [
        (Photon::PlusX, sukhlent::Pauli::X, 0),
        (Photon::MinusX, sukhlent::Pauli::X, 1),
        (Photon::PlusY, sukhlent::Pauli::Y, 0),
        (Photon::MinusY, sukhlent::Pauli::Y, 1),
        (Photon::PlusZ, sukhlent::Pauli::Z, 0),
        (Photon::MinusZ, sukhlent::Pauli::Z, 1),
    ] {
        assert_eq!(record.renew(0, photon), Err(Refusal::NotUsed));
        gate(&mut record, 0, 8).unwrap();
        cz(&mut record, 0, 1).unwrap();
        observe(&mut record, sukhlent::Pauli::Z, 0, 1).unwrap();
        assert_eq!(record.renew(1, photon), Err(Refusal::NotUsed));
        assert_eq!(record.renew(2, photon), Err(Refusal::Qubit));
        record.renew(0, photon).unwrap();
        let due = Measured {
            outcome: sign,
            determined: true,
        };
        assert_eq!(measure(&mut record.clone(), pauli, 0, sign), Ok(due));
        let forbidden = measure(&mut record.clone(), pauli, 0, 1 - sign);
        assert_eq!(forbidden, Err(Refusal::Contradicted));
        assert_eq!(observe(&mut record.clone(), pauli, 0, 1 - sign), Ok(due));
    }
}
