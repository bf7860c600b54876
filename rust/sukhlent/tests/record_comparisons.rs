//! Comparisons of two records: the answers of `compare` on their expansions, every refusal, faults
//! in one record and in both, and what an accepted one leaves alone.

use crate::common::damage::{each_fault, each_pair, record_faults};
use crate::common::local::sent;
use crate::common::reference::expanded;
use crate::common::{
    random_components, random_record, random_sizes, Random, RecordCall, RecordPairCall,
};
use sukhlent::{compare, compare_records, equivalent_records, expand, reduce};
use sukhlent::{Comparison, Record, Refusal};

/// A record with the group of the first under random codes, reduced or with its codes as they come.
fn image(random: &mut Random, record: &Record) -> Record {
    let codes: Vec<u8> = record
        .codes
        .iter()
        .map(|_| random.below(24) as u8)
        .collect();
    reduce(&sent(&expanded(record), &codes)).expect("a list of a state")
}

/// A comparison of two records on n qubits that has an answer; neither need be reduced.
fn base(seed: u64, n: usize) -> RecordPairCall {
    let mut random = Random::new(seed);
    let first = random_record(&mut random, n);
    let mut second = first.clone();
    second
        .codes
        .iter_mut()
        .for_each(|code| *code = random.below(24) as u8);
    RecordPairCall::on(&first, &second)
}

fn assert_refused(call: &RecordPairCall, number: u8, what: &str) {
    assert_eq!(call.due(), Some(number), "the fault itself: {what}");
    assert_eq!(call.compare(), Err(number), "{what}: {call:?}");
    assert_eq!(call.equivalent(), Err(number), "{what}: {call:?}");
}

/// A damaged record with a right one, in either order, gives the record's number, or 2 where their
/// n differ.
fn assert_refused_beside(right: &RecordPairCall, damaged: &RecordCall<()>, number: u8, what: &str) {
    let number = match damaged.n == right.first.n {
        true => number,
        false => 2,
    };
    let [mut first, mut second] = [right.clone(), right.clone()];
    first.first = damaged.clone();
    second.second = damaged.clone();
    for call in [first, second] {
        assert_refused(&call, number, what);
    }
}

#[test]
fn answers_are_those_of_the_expansions() {
    let mut random = Random::new(24);
    for n in (1..=9).cycle().take(180) {
        let first = random_record(&mut random, n);
        let others = [image(&mut random, &first), random_record(&mut random, n)];
        for second in others {
            let lists = [&first, &second].map(|record| expand(record).expect("a record"));
            let due = compare(&lists[0], &lists[1]);
            for call in [compare_records, equivalent_records] {
                assert_eq!(call(&first, &second), due, "{first:?} {second:?}");
            }
        }
    }
}

#[test]
fn answers_on_64_qubits_are_those_of_the_expansions() {
    let mut random = Random::new(64);
    for largest in [1, 2, 5, 20, 20] {
        let sizes = random_sizes(&mut random, 64, largest);
        let first = random_components(&mut random, &sizes);
        let second = image(&mut random, &first);
        let lists = [&first, &second].map(|record| expand(record).expect("a record"));
        let due = compare(&lists[0], &lists[1]);
        assert!(due.is_ok(), "{first:?}");
        assert_eq!(compare_records(&first, &second), due);
        assert_eq!(equivalent_records(&first, &second), due);
    }
}

#[test]
fn a_part_above_20_is_refused_by_3_and_inequivalent_records_by_13() {
    let mut random = Random::new(3);
    let large = random_components(&mut random, &[21, 2]);
    let small = random_components(&mut random, &[20, 3]);
    for (first, second) in [(&large, &small), (&small, &large), (&large, &large)] {
        assert_eq!(compare_records(first, second), Err(Refusal::Large));
        let due = match first == second {
            true => Ok(Comparison {
                choice: vec![0; 23],
                complementations: vec![],
            }),
            false => Err(Refusal::Inequivalent),
        };
        assert_eq!(equivalent_records(first, second), due);
    }
    let path = reduce(&"+XZI\n+ZXZ\n+IZX\n".parse().unwrap()).unwrap();
    let apart = Record::zeros(3);
    for call in [compare_records, equivalent_records] {
        assert_eq!(call(&path, &apart), Err(Refusal::Inequivalent));
    }
}

#[test]
fn every_fault_of_either_record_gives_its_number() {
    for seed in 0..20 {
        let right = base(seed, 8);
        assert!(right.compare().is_ok(), "{right:?}");
        each_fault(
            &record_faults(),
            || right.first.clone(),
            |damaged, number, what| assert_refused_beside(&right, damaged, number, what),
        );
        for (choice, list) in [(7, 96), (9, 96), (8, 95), (8, 97), (0, 0)] {
            let call = RecordPairCall {
                choice,
                list,
                ..right.clone()
            };
            assert_refused(&call, 4, "an answer buffer");
        }
    }
}

#[test]
fn of_two_faults_the_earlier_number_is_given_in_either_record() {
    for seed in 0..10 {
        let right = base(seed, 8);
        each_pair(
            &record_faults(),
            || right.first.clone(),
            |damaged, number, what| assert_refused_beside(&right, damaged, number, what),
        );
        // One fault in each record: the earlier number, whichever record has it.
        for (k, (number, damage)) in record_faults().iter().enumerate() {
            for (m, (other, further)) in record_faults().iter().enumerate() {
                let mut call = right.clone();
                damage(&mut call.first);
                further(&mut call.second);
                let due = match call.first.n == call.second.n {
                    true => *number.min(other),
                    false => 2,
                };
                assert_refused(&call, due, &format!("faults {k} and {m}"));
            }
        }
    }
}
