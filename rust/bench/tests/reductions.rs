//! The plain reduction answers as the engine, on sound and on damaged lists.

use bench::calls::reduce::Reduce;
use bench::plain;
use bench::seeded::{list, random_rows, Random};
use sukhlent::{raw, GeneratorList};

/// The number that both calls give; they leave the same in buffers of so many places.
fn number(n: u64, list: &GeneratorList, places: usize) -> u8 {
    let [engine, plain] = [raw::reduce as Reduce, plain::reduce].map(|call| {
        let (mut neighbours, mut codes, mut used) = (vec![77; places], vec![77; places], 77);
        let (signs, z, x) = (&list.signs, &list.z, &list.x);
        let (words, bytes) = (&mut neighbours, &mut codes);
        let number = call(n, signs, z, x, words, bytes, &mut used);
        (number, neighbours, codes, used)
    });
    assert_eq!(engine, plain, "{n}: {list:?}");
    engine.0
}

#[test]
fn the_same_numbers_and_records() {
    let mut counts = [0; 11];
    for seed in 0..4000 {
        let mut random = Random::new(seed);
        let n = 1 + random.below(12);
        let mut list = list(&random_rows(&mut random, n));
        let (mut length, mut places) = (n as u64, n);
        let (a, b) = (random.below(n), random.below(n));
        match random.below(9) {
            0 => length = [0, 65][random.below(2)],
            1 => places += 1,
            2 => list.z[a] ^= 1 << random.below(64),
            3 => list.x[a] ^= 1 << b,
            4 => list.signs[a] = random.below(4) as u8,
            5 => (list.z[a], list.x[a]) = (list.z[b], list.x[b]),
            _ => (),
        }
        counts[usize::from(number(length, &list, places))] += 1;
    }
    let reached = [0, 2, 4, 5, 6, 9, 10].iter().all(|&k| counts[k] > 20);
    assert!(reached, "{counts:?}");
}
