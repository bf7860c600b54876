//! Damaged products of rows: every number, pairs of faults, and every stray bit of the word.

use crate::common::damage::{damage_list, each_fault, each_pair, Fault, LIST_FAULTS};
use crate::common::{list, random_rows, ListCall, Random};

/// The rows of a random state of n qubits.
fn base(seed: u64, n: usize) -> ListCall {
    ListCall::on(&list(&random_rows(&mut Random::new(seed), n)))
}

/// The faults of a list that a product refuses: rows need neither commute nor be independent.
fn faults() -> Vec<Fault<ListCall>> {
    LIST_FAULTS
        .iter()
        .filter(|fault| fault.0 < 9)
        .copied()
        .collect()
}

fn assert_refused(call: &ListCall, number: u8, what: &str) {
    for chosen in [0, 0b1010_0110, 0xff] {
        assert_eq!(call.product_due(chosen), Err(number), "the fault: {what}");
        assert_eq!(call.product(chosen), Err(number), "{what}: {call:?}");
    }
}

/// The answer is the one due; the number of a refusal, or 0.
fn assert_judged(call: &ListCall, chosen: u64) -> u8 {
    let answer = call.product(chosen);
    assert_eq!(answer, call.product_due(chosen), "{chosen:x}: {call:?}");
    answer.err().unwrap_or(0)
}

#[test]
fn every_fault_gives_its_number() {
    for seed in 0..20 {
        each_fault(&faults(), || base(seed, 8), assert_refused);
    }
}

#[test]
fn of_two_faults_the_earlier_number_is_given() {
    for seed in 0..20 {
        each_pair(&faults(), || base(seed, 8), assert_refused);
    }
}

#[test]
fn rows_that_do_not_commute_or_are_dependent_are_accepted() {
    let accepted = LIST_FAULTS.iter().filter(|fault| fault.0 >= 9);
    for (_, damage) in accepted {
        let mut call = base(1, 8);
        damage(&mut call);
        assert_ne!(call.check(), 0);
        (0..256).for_each(|chosen| assert_eq!(assert_judged(&call, chosen), 0));
    }
}

#[test]
fn a_stray_word_beside_every_fault() {
    for (number, damage) in LIST_FAULTS {
        let mut call = base(2, 8);
        damage(&mut call);
        for chosen in [1 << 8, 1 << 63 | 0b101, u64::MAX] {
            assert_eq!(assert_judged(&call, chosen), number.min(5), "{call:?}");
        }
    }
}

#[test]
fn every_bit_of_a_word() {
    for n in 1..=64 {
        let right = base(n as u64, n);
        for bit in 0..64 {
            for chosen in [1 << bit, right.z[0] | 1 << bit] {
                assert_eq!(assert_judged(&right, chosen), if bit < n { 0 } else { 5 });
            }
        }
    }
}

#[test]
fn seeded_damage_against_the_reference() {
    let mut counts = [0; 7];
    for seed in 0..6000 {
        let mut random = Random::new(90_000 + seed);
        let n = 1 + random.below(9);
        let mut call = base(seed, n);
        for _ in 0..random.below(4) {
            damage_list(&mut random, &mut call);
        }
        let chosen = match random.below(8) {
            0 => 1 << random.below(64),
            _ => random.word() >> (64 - n),
        };
        counts[usize::from(assert_judged(&call, chosen))] += 1;
    }
    let all = [0, 2, 4, 5, 6];
    assert!(all.iter().all(|&k| counts[k] > 50), "{counts:?}");
}
