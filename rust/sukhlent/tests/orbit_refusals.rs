//! Refused calls on orbits: every number, their order, and lengths near the required ones.

use crate::common::damage::{each_set, Fault};
use crate::common::{OrbitCall, Random};
use sukhlent::{orbit, raw, Refusal};

/// Each fault with its number, in checking order.
const FAULTS: [Fault<OrbitCall>; 4] = [
    (2, |call| call.n = 7),
    (4, |call| call.places -= 1),
    (5, |call| call.neighbours[1] |= 1 << 6),
    (7, |call| call.neighbours[2] ^= 1 << 5),
];

/// The ring of six.
fn right() -> OrbitCall {
    OrbitCall::on(&[0b100010, 0b000101, 0b001010, 0b010100, 0b101000, 0b010001])
}

#[test]
fn every_set_of_faults_gives_the_first() {
    each_set(&FAULTS, right, |call, due| {
        assert_eq!(call.orbit().err(), due, "{call:?}");
        assert_eq!(call.due().err(), due, "{call:?}");
    });
}

#[test]
fn numbers_of_vertices_out_of_range_give_2() {
    for n in [0, 7, 8, 64, 65, 256, 1 << 32, (1 << 32) + 6, u64::MAX] {
        for places in [0, 1, raw::ORBIT_PLACES] {
            let call = OrbitCall {
                n,
                places,
                ..right()
            };
            assert_eq!(call.orbit(), Err(2), "{call:?}");
        }
    }
}

#[test]
fn other_lengths_give_4() {
    for places in [0, 1, 6, 32_767, 32_769, 65_536, 98_304] {
        let call = OrbitCall { places, ..right() };
        assert_eq!(call.orbit(), Err(4), "{call:?}");
    }
    for length in [0, 1, 5, 7, 64] {
        let neighbours = vec![u64::MAX; length];
        let call = OrbitCall {
            neighbours,
            ..right()
        };
        assert_eq!(call.orbit(), Err(4), "{call:?}");
    }
}

#[test]
fn stray_bits_give_5_before_loops_give_7() {
    for n in 1..=6 {
        for (vertex, bit) in (0..n).flat_map(|vertex| (0..64).map(move |bit| (vertex, bit))) {
            let mut words = vec![0; n];
            words[vertex] = 1 << bit;
            let due = if bit < n { 7 } else { 5 };
            assert_eq!(OrbitCall::on(&words).orbit(), Err(due), "{words:?}");
        }
    }
}

#[test]
fn the_safe_function_says_why() {
    assert_eq!(orbit(&[]), Err(Refusal::Count));
    assert_eq!(orbit(&[0; 7]), Err(Refusal::Count));
    assert_eq!(orbit(&[0, 4]), Err(Refusal::Stray));
    assert_eq!(orbit(&[1, 0]), Err(Refusal::Graph));
    assert_eq!(orbit(&[2, 0]), Err(Refusal::Graph));
    assert!(orbit(&[2, 1]).is_ok());
}

#[test]
fn seeded_arguments_against_the_reference() {
    let mut counts = [0; 16];
    for seed in 0..3000 {
        let mut random = Random::new(seed);
        let n = random.below(8);
        let mut neighbours = vec![0u64; n.min(6)];
        for (a, b) in (0..n.min(6)).flat_map(|a| (0..a).map(move |b| (a, b))) {
            let edge = random.below(2) as u64;
            neighbours[a] |= edge << b;
            neighbours[b] |= edge << a;
        }
        if let Some(word) = neighbours.first_mut().filter(|_| seed % 3 == 0) {
            *word ^= 1 << random.below(8);
        }
        let places = raw::ORBIT_PLACES - random.below(12) / 11;
        let n = n as u64;
        let call = OrbitCall {
            n,
            neighbours,
            places,
        };
        let answer = call.orbit();
        assert_eq!(answer, call.due(), "{call:?}");
        counts[usize::from(answer.err().unwrap_or(0))] += 1;
    }
    let all = [0, 2, 4, 5, 7];
    assert!(all.iter().all(|&k| counts[k] > 50), "{counts:?}");
}
