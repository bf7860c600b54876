//! Complements: the record rewritten, its group kept.

use crate::common::local::complemented_record;
use crate::common::reference::{expanded, reduced};
use crate::common::{random_record, Operation, Random, RecordCall};
use sukhlent::{complement, gate, reduce, Record};

fn record(neighbours: &[u64], codes: &[u8]) -> Record {
    Record {
        neighbours: neighbours.to_vec(),
        codes: codes.to_vec(),
        used: 0,
    }
}

/// The record that an accepted call leaves.
fn after(given: &Record, operation: Operation) -> Record {
    let (record, measured) = RecordCall::with(given, operation).apply().unwrap();
    assert_eq!(measured, None);
    record
}

#[test]
fn thirteen_and_six_stand_before_the_codes_held() {
    // First 13, then 8 sends X to Z and Z to Y; first 6, then 8 sends X to Y and Z to X; first 6,
    // then 4 fixes X and Z.
    let mut star = record(&[0b110, 0b001, 0b001], &[8, 8, 4]);
    assert_eq!(complement(&mut star, 0), Ok(()));
    assert_eq!(star, record(&[0b110, 0b101, 0b011], &[20, 16, 0]));
}

#[test]
fn a_vertex_with_no_neighbours_changes_only_its_code() {
    let mut three = record(&[0b010, 0b001, 0], &[0, 0, 0]);
    assert_eq!(complement(&mut three, 2), Ok(()));
    assert_eq!(three, record(&[0b010, 0b001, 0], &[0, 0, 13]));
}

#[test]
fn the_record_is_not_reduced_until_a_gate() {
    let star = record(&[0b110, 0b001, 0b001], &[0, 0, 0]);
    let mut given = star.clone();
    complement(&mut given, 0).unwrap();
    assert_eq!(given, record(&[0b110, 0b101, 0b011], &[13, 6, 6]));
    gate(&mut given, 1, 0).unwrap();
    assert_eq!(given, star);
}

#[test]
fn complements_on_up_to_64_vertices() {
    for seed in 0..400 {
        let mut random = Random::new(30_000 + seed);
        let n = 1 + random.below(64);
        let given = random_record(&mut random, n);
        let a = random.below(n);
        let answer = after(&given, Operation::Complement(a as u64));
        assert_eq!(answer, complemented_record(&given, a), "seed {seed}");
        assert_same_group(&given, &answer);
    }
}

/// Two records stand for one group: by the reference, and by the engine's reduction.
fn assert_same_group(a: &Record, b: &Record) {
    let [a, b] = [a, b].map(expanded);
    assert_eq!(reduced(&a), reduced(&b));
    assert_eq!(reduce(&a), reduce(&b));
}
