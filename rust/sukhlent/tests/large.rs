//! Lists and records on up to 64 qubits against the reference.

use crate::common::reference::{expanded, reduced};
use crate::common::{list, random_record, random_rows, ListCall, Random, RecordCall};
use std::collections::HashSet;

fn assert_as_reference(seed: u64, n: usize, codes_seen: &mut HashSet<u8>) {
    let list = list(&random_rows(&mut Random::new(seed), n));
    let call = ListCall::on(&list);
    assert_eq!(call.check(), 0, "seed {seed}");
    let record = call.reduce().unwrap();
    assert_eq!(record, reduced(&list), "seed {seed}");
    codes_seen.extend(&record.codes);
    let answer = RecordCall::on(&record).expand();
    assert_eq!(answer, Ok(expanded(&record)), "seed {seed}");
}

#[test]
fn lists_on_64_qubits() {
    let mut codes = HashSet::new();
    (7000..7100).for_each(|seed| assert_as_reference(seed, 64, &mut codes));
    assert_eq!(codes, [0, 2, 4, 6, 8, 10].into());
}

#[test]
fn lists_on_every_number_of_qubits() {
    let mut codes = HashSet::new();
    for n in 1..=64 {
        (0..4).for_each(|k| assert_as_reference(8000 + 64 * k + n as u64, n, &mut codes));
    }
    assert_eq!(codes, [0, 2, 4, 6, 8, 10].into());
}

#[test]
fn records_with_any_codes_on_64_qubits() {
    for seed in 0..100 {
        let record = random_record(&mut Random::new(9000 + seed), 64);
        let list = RecordCall::on(&record).expand().unwrap();
        assert_eq!(list, expanded(&record), "seed {seed}");
        assert_eq!(
            ListCall::on(&list).reduce(),
            Ok(reduced(&list)),
            "seed {seed}"
        );
    }
}
