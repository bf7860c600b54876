//! Damaged comparisons: every number, faults in one list and in both, and what an accepted one
//! leaves alone.

use crate::common::damage::{damage_list, each_fault, each_pair, LIST_FAULTS};
use crate::common::local::sent;
use crate::common::reference::expanded;
use crate::common::{list, mixed, parsed, random_components, random_rows, rows};
use crate::common::{ListCall, PairCall, Random};
use sukhlent::{compare, GeneratorList, Refusal};

/// A list on n qubits, and mixed generators of its image under random codes.
fn lists(seed: u64, n: usize) -> [GeneratorList; 2] {
    let mut random = Random::new(seed);
    let first = list(&random_rows(&mut random, n));
    let choice: Vec<u8> = (0..n).map(|_| random.below(24) as u8).collect();
    let second = list(&mixed(&mut random, &rows(&sent(&first, &choice))));
    [first, second]
}

/// A comparison of two lists on n qubits that has an answer.
fn base(seed: u64, n: usize) -> PairCall {
    let [first, second] = lists(seed, n);
    PairCall::on(&first, &second)
}

/// The comparison with other lists, in either order.
fn either_order(call: &PairCall, first: &ListCall, second: &ListCall) -> [PairCall; 2] {
    [(first, second), (second, first)].map(|(first, second)| PairCall {
        first: first.clone(),
        second: second.clone(),
        ..call.clone()
    })
}

fn assert_refused(call: &PairCall, number: u8, what: &str) {
    assert_eq!(call.due(), Some(number), "the fault itself: {what}");
    assert_eq!(call.compare(), Err(number), "{what}: {call:?}");
    match number {
        3 => assert!(call.equivalent().is_ok(), "{what}: {call:?}"),
        _ => assert_eq!(call.equivalent(), Err(number), "{what}: {call:?}"),
    }
}

/// A damaged list with a right one, in either order, gives the list's number, or 2 where their n
/// differ.
fn assert_refused_beside(right: &PairCall, damaged: &ListCall, number: u8, what: &str) {
    let number = if damaged.n == right.first.n {
        number
    } else {
        2
    };
    for call in either_order(right, damaged, &right.second) {
        assert_refused(&call, number, what);
    }
}

#[test]
fn every_fault_of_either_list_gives_its_number() {
    for seed in 0..20 {
        let right = base(seed, 8);
        assert!(right.compare().is_ok(), "{right:?}");
        each_fault(
            &LIST_FAULTS,
            || right.first.clone(),
            |damaged, number, what| assert_refused_beside(&right, damaged, number, what),
        );
    }
}

#[test]
fn of_two_faults_of_one_list_the_earlier_number_is_given() {
    for seed in 0..10 {
        let right = base(seed, 8);
        each_pair(
            &LIST_FAULTS,
            || right.first.clone(),
            |damaged, number, what| assert_refused_beside(&right, damaged, number, what),
        );
    }
}

#[test]
fn of_faults_in_both_lists_the_earlier_number_is_given() {
    for seed in 0..10 {
        let right = base(seed, 8);
        for (k, (one, damage)) in LIST_FAULTS.iter().enumerate() {
            for (m, (other, further)) in LIST_FAULTS.iter().enumerate() {
                let (mut first, mut second) = (right.first.clone(), right.second.clone());
                damage(&mut first);
                further(&mut second);
                let earlier = *one.min(other);
                let number = if first.n == second.n { earlier } else { 2 };
                for call in either_order(&right, &first, &second) {
                    assert_refused(&call, number, &format!("faults {k} and {m}"));
                }
            }
        }
    }
}

#[test]
fn a_dependent_list_and_one_that_does_not_commute_give_9() {
    let [right, dependent, clashing] =
        [["XX", "ZZ"], ["XX", "XX"], ["XI", "ZI"]].map(|texts| ListCall::on(&parsed(&texts)));
    let base = base(0, 2);
    for (first, second, number) in [
        (&right, &dependent, 10),
        (&dependent, &dependent, 10),
        (&right, &clashing, 9),
        (&dependent, &clashing, 9),
        (&clashing, &clashing, 9),
    ] {
        for call in either_order(&base, first, second) {
            assert_refused(&call, number, "examples");
        }
    }
}

#[test]
fn wrong_places_for_the_choice_or_the_list_give_4() {
    for n in [1, 2, 8, 20] {
        let right = base(n as u64, n);
        assert!(right.compare().is_ok(), "{n}");
        let lengths = [0, 1, n - 1, n + 1, 64, 95, 96, 97, n + 256, 96 + 256];
        for length in lengths {
            let choice = PairCall {
                choice: length,
                ..right.clone()
            };
            let list = PairCall {
                list: length,
                ..right.clone()
            };
            for (call, places) in [(choice, n), (list, 96)] {
                if length != places {
                    assert_refused(&call, 4, "one length");
                }
            }
        }
    }
}

#[test]
fn the_answer_buffers_lengths_stand_before_all_faults_but_those_of_n() {
    for (number, damage) in LIST_FAULTS {
        for (choice, list) in [(9, 96), (7, 96), (8, 95), (8, 97), (0, 0)] {
            let right = PairCall {
                choice,
                list,
                ..base(1, 8)
            };
            let mut damaged = right.first.clone();
            damage(&mut damaged);
            assert_refused_beside(&right, &damaged, number.min(4), "a length and a fault");
        }
    }
}

#[test]
fn numbers_of_qubits_that_differ_give_2_whatever_else_is_wrong() {
    for (n, other) in [(20, 21), (1, 2), (8, 7), (20, 64), (63, 64), (1, 64)] {
        let [one, two] = [n, other].map(|n| ListCall::on(&lists(1, n)[0]));
        for (choice, list) in [(n, 96), (other, 96), (n + 1, 96), (n, 95), (0, 0)] {
            let right = PairCall {
                choice,
                list,
                ..base(1, 8)
            };
            for call in either_order(&right, &one, &two) {
                assert_refused(&call, 2, "two numbers of qubits");
            }
        }
    }
}

#[test]
fn numbers_of_qubits_out_of_range_give_2_whatever_the_buffers() {
    let numbers = [0, 65, 256, 264, (1 << 32) + 8, (1 << 63) + 8, u64::MAX];
    for (n, other) in numbers.map(|n| [(n, n), (n, 8), (8, n)]).concat() {
        let mut call = base(2, 8);
        (call.first.n, call.second.n) = (n, other);
        for (choice, list) in [(8, 96), (8, 97), (9, 96)] {
            (call.choice, call.list) = (choice, list);
            assert_refused(&call, 2, "a number of qubits");
        }
    }
}

/// A comparison of a connected state on n qubits with its image.
fn connected(seed: u64, n: usize) -> PairCall {
    let mut random = Random::new(seed);
    let first = expanded(&random_components(&mut random, &[n]));
    let choice: Vec<u8> = (0..n).map(|_| random.below(24) as u8).collect();
    PairCall::on(&first, &sent(&first, &choice))
}

#[test]
fn a_part_of_more_than_twenty_gives_3_where_nothing_else_is_wrong() {
    for n in 1..=20 {
        assert!(connected(3, n).compare().is_ok(), "{n}");
    }
    for n in 21..=64 {
        let right = connected(3, n);
        assert_refused(&right, 3, "right lists");
        for (choice, list) in [(n + 1, 96), (n, 95), (n, 97), (0, 0)] {
            let call = PairCall {
                choice,
                list,
                ..right.clone()
            };
            assert_refused(&call, 4, "a length");
        }
        for seed in 0..10 {
            let mut call = right.clone();
            damage_list(&mut Random::new(seed), &mut call.first);
            call.assert_due(call.compare().expect_err("a large part"));
            call.assert_due_of_any_size(call.equivalent().err().unwrap_or(0));
        }
    }
}

#[test]
fn groups_that_are_not_equivalent_give_13_and_nothing_is_written() {
    for n in 2..=20 {
        // X at each qubit; and a star, whose group has no element on one qubit.
        let product = GeneratorList {
            signs: vec![0; n],
            z: vec![0; n],
            x: (0..n).map(|q| 1 << q).collect(),
        };
        let mut star = product.clone();
        star.z = (0..n).map(|q| u64::from(q > 0)).collect();
        star.z[0] = (1 << n) - 2;
        let right = PairCall::on(&product, &product);
        let [product, star] = [product, star].map(|list| ListCall::on(&list));
        for call in either_order(&right, &product, &star) {
            assert_eq!(call.due(), None, "{call:?}");
            assert_eq!(call.compare(), Err(13), "{call:?}");
            assert_eq!(call.equivalent(), Err(13), "{call:?}");
        }
        assert!(PairCall {
            first: star.clone(),
            second: star,
            ..right
        }
        .compare()
        .is_ok());
    }
}

#[test]
fn what_the_answer_buffers_held_does_not_matter() {
    let (mut empty, mut longest) = (0, 0);
    for seed in 0..300 {
        let n = 1 + Random::new(seed).below(20);
        let [first, second] = lists(seed, n);
        // The safe call lends zeros, the guarded one a pattern.
        let answer = PairCall::on(&first, &second).compare();
        let safe = compare(&first, &second).map_err(Refusal::number);
        assert_eq!(answer, safe, "seed {seed}");
        let count = answer.unwrap().complementations.len();
        empty += usize::from(count == 0);
        longest = longest.max(count);
    }
    assert!(empty > 5 && longest > 10, "{empty} {longest}");
}

#[test]
fn seeded_damage_against_the_reference() {
    let mut counts = [0; 14];
    for seed in 0..6000 {
        let mut random = Random::new(40_000 + seed);
        let n = 1 + random.below(8);
        let mut call = match random.below(8) {
            0 => connected(seed, 19 + random.below(4)),
            _ => base(seed, n),
        };
        match random.below(8) {
            0 => call.second = base(seed, 1 + random.below(8)).first,
            1 | 2 => call.second = base(seed + 1, call.choice).first,
            _ => (),
        }
        for _ in 0..random.below(3) {
            damage_list(&mut random, &mut call.first);
            damage_list(&mut random, &mut call.second);
        }
        match random.below(16) {
            0 => call.choice = random.below(24),
            1 => call.list = random.below(200),
            _ => (),
        }
        let answer = call.compare();
        let number = answer.as_ref().err().copied().unwrap_or(0);
        call.assert_due(number);
        counts[usize::from(number)] += 1;
        let other = call.equivalent();
        call.assert_due_of_any_size(other.as_ref().err().copied().unwrap_or(0));
        assert!(number == 3 || other == answer, "{call:?}");
    }
    let all = [0, 2, 3, 4, 5, 6, 9, 10, 13];
    assert!(all.iter().all(|&k| counts[k] > 20), "{counts:?}");
}
