//! Damaged generator lists: every place, and seeded damage against the reference.

use crate::common::damage::{damage_list, flip};
use crate::common::{list, random_rows, ListCall, Random};

#[test]
fn stray_bits_of_every_number_of_qubits() {
    for n in 1..=64 {
        let right = ListCall::on(&list(&random_rows(&mut Random::new(n), n as usize)));
        assert_eq!(right.check(), 0);
        for bit in n as u32..64 {
            for j in [0, n as usize - 1] {
                let mut call = right.clone();
                flip(&mut call.z, j, bit);
                assert_eq!((call.check(), call.reduce()), (5, Err(5)), "{n} {bit}");
                let mut call = right.clone();
                flip(&mut call.x, j, bit);
                assert_eq!((call.check(), call.reduce()), (5, Err(5)), "{n} {bit}");
            }
        }
    }
}

#[test]
fn signs_above_1_in_every_row() {
    for n in [1, 7, 64] {
        let right = ListCall::on(&list(&random_rows(&mut Random::new(n), n as usize)));
        for j in 0..n as usize {
            for sign in 2..=255 {
                let mut call = right.clone();
                call.signs[j] = sign;
                assert_eq!(call.check(), 6, "{j} {sign}");
            }
        }
    }
}

#[test]
fn every_pair_of_rows_is_compared() {
    // Z at each qubit; row a gets an X where row b has its Z, and then the other way round.
    for (a, b) in (0..64).flat_map(|b| (0..b).map(move |a| (a, b))) {
        let mut call = ListCall {
            n: 64,
            signs: vec![0; 64],
            z: (0..64).map(|q| 1 << q).collect(),
            x: vec![0; 64],
            neighbours: 64,
            codes: 64,
        };
        call.x[a] = 1 << b;
        assert_eq!((call.check(), call.reduce()), (9, Err(9)), "{a} {b}");
        call.x[b] = 1 << a;
        assert_eq!(call.check(), 0, "{a} {b}");
    }
}

#[test]
fn seeded_damage_against_the_reference() {
    let mut counts = [0; 11];
    for seed in 0..4000 {
        let mut random = Random::new(10_000 + seed);
        let n = 1 + random.below(10);
        let mut call = ListCall::on(&list(&random_rows(&mut random, n)));
        for _ in 0..random.below(4) {
            damage_list(&mut random, &mut call);
        }
        let (check, reduce) = call.due();
        assert_eq!(call.check(), check, "seed {seed}: {call:?}");
        assert_eq!(
            call.reduce().err().unwrap_or(0),
            reduce,
            "seed {seed}: {call:?}"
        );
        counts[usize::from(reduce)] += 1;
    }
    assert!(
        [0, 2, 4, 5, 6, 9, 10].iter().all(|&k| counts[k] > 50),
        "{counts:?}"
    );
}
