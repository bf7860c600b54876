//! The plain comparison answers as the engine, on sound and on damaged lists.

use bench::calls::compare::{lent, Compare};
use bench::local::sent;
use bench::plain;
use bench::seeded::{list, mixed, random_components, random_rows, random_sizes, rows, Random};
use sukhlent::raw::{self, Lent};
use sukhlent::{expand, GeneratorList};

/// The number that both calls give; they leave the same in buffers of so many places.
fn number(first: Lent, second: Lent, places: usize, list_places: usize) -> u8 {
    let [engine, plain] = [raw::compare as Compare, plain::compare].map(|call| {
        let (mut choice, mut list, mut count) = (vec![77; places], vec![77; list_places], 77);
        let number = call(first, second, &mut choice, &mut list, &mut count);
        (number, choice, list, count)
    });
    assert_eq!(engine, plain, "{first:?} {second:?}");
    engine.0
}

/// A random state, and its image under random codes or another random state.
fn pair(random: &mut Random, n: usize) -> [GeneratorList; 2] {
    let first = list(&random_rows(random, n));
    let second = if random.below(2) == 0 {
        let choice: Vec<u8> = (0..n).map(|_| random.below(24) as u8).collect();
        list(&mixed(random, &rows(&sent(&first, &choice))))
    } else {
        list(&random_rows(random, n))
    };
    [first, second]
}

#[test]
fn equivalent_pairs_and_others() {
    let mut counts = [0; 14];
    for seed in 0..2000 {
        let mut random = Random::new(seed);
        let n = 1 + random.below(20);
        let [first, second] = pair(&mut random, n);
        counts[usize::from(number(lent(&first), lent(&second), n, 96))] += 1;
    }
    assert!(counts[0] > 500 && counts[13] > 500, "{counts:?}");
}

#[test]
fn components() {
    let mut counts = [0; 14];
    for seed in 0..1000 {
        let mut random = Random::new(seed);
        let n = 1 + random.below(64);
        let largest = [4, 20, 24][random.below(3)];
        let mut sizes = random_sizes(&mut random, n, largest);
        let [first, second] = [0, 1].map(|k| {
            if k == 1 && random.below(2) == 0 {
                sizes = random_sizes(&mut random, n, largest);
            }
            let record = random_components(&mut random, &sizes);
            list(&mixed(&mut random, &rows(&expand(&record).unwrap())))
        });
        let other = list(&mixed(&mut random, &rows(&first)));
        counts[usize::from(number(lent(&first), lent(&second), n, 96))] += 1;
        counts[usize::from(number(lent(&first), lent(&other), n, 96))] += 1;
    }
    let reached = [0, 3, 13].iter().all(|&k| counts[k] > 100);
    assert!(reached, "{counts:?}");
}

#[test]
fn damaged_pairs() {
    let mut counts = [0; 14];
    for seed in 0..4000 {
        let mut random = Random::new(seed);
        let connected = random.below(4) == 0;
        let n = if connected {
            19 + random.below(4)
        } else {
            1 + random.below(22)
        };
        let mut lists = if connected {
            let record = random_components(&mut random, &[n]);
            let given = expand(&record).unwrap();
            [given.clone(), given]
        } else {
            pair(&mut random, n)
        };
        let (mut places, mut list_places) = (n, 96);
        let mut numbers = [n as u64; 2];
        for _ in 0..2 {
            let which = random.below(2);
            let list = &mut lists[which];
            let (a, b) = (random.below(n), random.below(n));
            match random.below(9) {
                0 => numbers[which] = [0, 65, n as u64 + 1][random.below(3)],
                1 => places += 1,
                2 => list_places = [0, 95, 97][random.below(3)],
                3 => list.z[a] ^= 1 << random.below(64),
                4 => list.x[a] ^= 1 << b,
                5 => list.signs[a] = random.below(4) as u8,
                6 => (list.z[a], list.x[a]) = (list.z[b], list.x[b]),
                _ => (),
            }
        }
        let [first, second] = [0, 1].map(|k| {
            let (_, signs, z, x) = lent(&lists[k]);
            (numbers[k], signs, z, x)
        });
        counts[usize::from(number(first, second, places, list_places))] += 1;
    }
    let reached = [0, 2, 3, 4, 5, 6, 9, 10, 13]
        .iter()
        .all(|&k| counts[k] > 20);
    assert!(reached, "{counts:?}");
}
