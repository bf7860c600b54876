//! Refused calls of the generator: every number, their order, and every length of the buffer near
//! the required one.

use crate::common::damage::{each_set, Fault};
use crate::common::{GenerateCall, Random};
use sukhlent::{generate, raw, Refusal};

/// Each fault with its number, in checking order.
const FAULTS: [Fault<GenerateCall>; 4] = [
    (15, |call| call.count = 4097),
    (2, |call| call.n = 65),
    (4, |call| call.places -= 1),
    (6, |call| call.seed = 0),
];

fn right() -> GenerateCall {
    GenerateCall::of(64, 4096, 1)
}

#[test]
fn every_set_of_faults_gives_the_first() {
    each_set(&FAULTS, right, |call, due| {
        assert_eq!(call.generate().err(), due, "{call:?}");
        assert_eq!(call.due().err(), due, "{call:?}");
    });
}

#[test]
fn more_than_4096_steps_give_15_whatever_else() {
    for count in [4097, 4098, 8192, 1 << 32, (1 << 32) + 1, 1 << 63, u64::MAX] {
        for n in [0, 1, 64, 65, u64::MAX] {
            let call = GenerateCall {
                count,
                n,
                ..right()
            };
            assert_eq!(call.generate(), Err(15), "{call:?}");
        }
    }
}

#[test]
fn numbers_of_qubits_out_of_range_give_2() {
    for n in [0, 65, 66, 128, 256, 257, (1 << 32) + 1, 1 << 63, u64::MAX] {
        for places in [0, 1, raw::JOB_PLACES] {
            let call = GenerateCall {
                n,
                places,
                ..right()
            };
            assert_eq!(call.generate(), Err(2), "{call:?}");
        }
    }
}

#[test]
fn other_lengths_give_4() {
    let near = [
        0,
        1,
        23,
        64,
        61_440,
        61_462,
        61_464,
        2 * 61_463,
        61_463 + 65_536,
    ];
    for places in near {
        for (count, seed) in [(0, 1), (1, 0), (4096, 1)] {
            let call = GenerateCall {
                places,
                count,
                seed,
                ..right()
            };
            assert_eq!(call.generate(), Err(4), "{call:?}");
        }
    }
}

#[test]
fn the_seed_0_gives_6() {
    for n in 1..=64 {
        for count in [0, 1, 4096] {
            assert_eq!(GenerateCall::of(n, count, 0).generate(), Err(6));
        }
    }
}

#[test]
fn the_safe_function_says_why() {
    assert_eq!(generate(64, 4097, 0), Err(Refusal::Steps));
    assert_eq!(generate(65, 4096, 0), Err(Refusal::Count));
    assert_eq!(generate(64, 4096, 0), Err(Refusal::Value));
    assert!(generate(64, 4096, 1).is_ok());
}

#[test]
fn seeded_arguments_against_the_reference() {
    let mut counts = [0; 16];
    for seed in 0..3000 {
        let mut random = Random::new(seed);
        let call = GenerateCall {
            n: random.below(70) as u64,
            count: [random.below(40), 4090 + random.below(10)][random.below(2)] as u64,
            seed: random.word() * (random.below(6) as u64 / 2).min(1),
            places: raw::JOB_PLACES - random.below(12) / 11,
        };
        let answer = call.generate();
        assert_eq!(answer, call.due(), "{call:?}");
        counts[usize::from(answer.err().unwrap_or(0))] += 1;
    }
    let all = [0, 2, 4, 6, 15];
    assert!(all.iter().all(|&k| counts[k] > 50), "{counts:?}");
}
