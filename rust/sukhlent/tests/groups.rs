//! The record depends on the group alone.

use crate::common::{list, mixed, random_rows, Random};
use sukhlent::{expand, reduce, Record};

/// Whether a record is a reduced one: its codes are among 0, 2, 4, 6, 8, 10, and a vertex with 8
/// or 10 has only smaller neighbours, none of which has 8 or 10.
fn is_reduced(record: &Record) -> bool {
    let turned = |q: usize| record.codes[q] >= 8;
    let edge = |a: usize, b: usize| record.neighbours[a] >> b & 1 == 1;
    let n = record.n();
    record.codes.iter().all(|c| [0, 2, 4, 6, 8, 10].contains(c))
        && (0..n)
            .filter(|&a| turned(a))
            .all(|a| (0..n).filter(|&b| edge(a, b)).all(|b| b < a && !turned(b)))
}

#[test]
fn equal_groups_give_equal_records() {
    for seed in 0..300 {
        let mut random = Random::new(3000 + seed);
        let n = 1 + random.below(64);
        let rows = random_rows(&mut random, n);
        let record = reduce(&list(&rows)).unwrap();
        let again = reduce(&list(&mixed(&mut random, &rows))).unwrap();
        assert_eq!(record, again, "seed {seed}");
    }
}

#[test]
fn different_signs_give_different_records() {
    for seed in 0..300 {
        let mut random = Random::new(4000 + seed);
        let n = 1 + random.below(64);
        let rows = random_rows(&mut random, n);
        let record = reduce(&list(&rows)).unwrap();
        let mut flipped = rows.clone();
        let j = random.below(n);
        flipped[j].phase ^= 2;
        let other = reduce(&list(&mixed(&mut random, &flipped))).unwrap();
        assert_ne!(record.codes, other.codes, "seed {seed}");
        assert_eq!(record.neighbours, other.neighbours, "seed {seed}");
    }
}

#[test]
fn a_group_without_a_generator_of_another_has_another_record() {
    let mut tried = 0;
    for seed in 0..300 {
        let mut random = Random::new(5000 + seed);
        let n = 2 + random.below(63);
        let [first, second] = [0, 1].map(|_| random_rows(&mut random, n));
        // Groups are abelian and full: a row outside of one fails to commute with some generator.
        if second.iter().all(|b| first.iter().all(|a| a.commutes(b))) {
            continue;
        }
        let [a, b] = [first, second].map(|rows| reduce(&list(&rows)).unwrap());
        assert_ne!(a, b, "seed {seed}");
        tried += 1;
    }
    assert!(tried > 200, "{tried}");
}

#[test]
fn a_reduced_record_reduces_to_itself() {
    for seed in 0..300 {
        let mut random = Random::new(6000 + seed);
        let n = 1 + random.below(64);
        let record = reduce(&list(&random_rows(&mut random, n))).unwrap();
        assert!(is_reduced(&record), "seed {seed}: {record:?}");
        assert_eq!(reduce(&expand(&record).unwrap()), Ok(record), "seed {seed}");
    }
}
