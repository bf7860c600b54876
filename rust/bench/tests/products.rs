//! Products of rows in plain Rust are as the engine's, on sound and on damaged lists.

use bench::calls::compare::lent;
use bench::calls::product::Multiply;
use bench::plain;
use bench::seeded::Random;
use sukhlent::{raw, GeneratorList};

/// The number that both products give; they leave the same.
fn multiplied(n: u64, list: &GeneratorList, chosen: u64) -> u8 {
    let [engine, plain] = [raw::product as Multiply, plain::product].map(|call| {
        let (mut z, mut x, mut phase) = (77, 77, 77);
        let (_, signs, zs, xs) = lent(list);
        let number = call((n, signs, zs, xs), chosen, &mut z, &mut x, &mut phase);
        (number, z, x, phase)
    });
    assert_eq!(engine, plain, "{n}, {list:?}, {chosen:x}");
    engine.0
}

/// Any rows on n qubits.
fn rows(random: &mut Random, n: usize) -> GeneratorList {
    let [z, x] = [0, 1].map(|_| (0..n).map(|_| random.word() >> (64 - n)).collect());
    let signs = (0..n).map(|_| random.below(2) as u8).collect();
    GeneratorList { signs, z, x }
}

#[test]
fn any_rows() {
    for seed in 0..3000 {
        let mut random = Random::new(seed);
        let n = 1 + random.below(64);
        let list = rows(&mut random, n);
        assert_eq!(multiplied(n as u64, &list, random.word() >> (64 - n)), 0);
    }
}

#[test]
fn damaged_rows() {
    let mut counts = [0; 7];
    for seed in 0..4000 {
        let mut random = Random::new(seed);
        let n = 1 + random.below(12);
        let mut list = rows(&mut random, n);
        let (mut count, mut chosen) = (n as u64, random.word() >> (64 - n));
        for _ in 0..2 {
            let a = random.below(n);
            match random.below(8) {
                0 => count = [0, 65, n as u64 + 1][random.below(3)],
                1 => list.x.push(0),
                2 => chosen ^= 1 << random.below(64),
                3 => list.z[a] ^= 1 << random.below(64),
                4 => list.signs[a] = random.below(4) as u8,
                _ => (),
            }
        }
        counts[usize::from(multiplied(count, &list, chosen))] += 1;
    }
    let all = [0, 2, 4, 5, 6];
    assert!(all.iter().all(|&k| counts[k] > 100), "{counts:?}");
}
