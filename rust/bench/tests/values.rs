//! Expansions and values in plain Rust are as the engine's, on sound and on damaged records.

use bench::calls::values::{Expand, Expectation};
use bench::plain;
use bench::seeded::{random_used_record, Random};
use sukhlent::{expand, product, raw, Record};

/// The number that both calls give; they leave the same value.
fn number(n: u64, record: &Record, z: u64, x: u64) -> (u8, u8) {
    let [engine, plain] = [raw::expectation as Expectation, plain::expectation].map(|call| {
        let mut value = 77;
        let Record {
            neighbours,
            codes,
            used,
        } = record;
        let number = call(n, neighbours, codes, *used, z, x, &mut value);
        (number, value)
    });
    assert_eq!(engine, plain, "{n}, {record:?}, {z:x}, {x:x}");
    engine
}

/// The number that both expansions give; they leave the same in buffers of so many places.
fn expanded(n: u64, record: &Record, places: [usize; 3]) -> u8 {
    let [engine, plain] = [raw::expand as Expand, plain::expand].map(|call| {
        let (mut signs, mut z, mut x) = (
            vec![77; places[0]],
            vec![77; places[1]],
            vec![77; places[2]],
        );
        let Record {
            neighbours,
            codes,
            used,
        } = record;
        let number = call(n, neighbours, codes, *used, &mut signs, &mut z, &mut x);
        (number, signs, z, x)
    });
    assert_eq!(engine, plain, "{n}, {record:?}, {places:?}");
    engine.0
}

#[test]
fn sound_records() {
    let mut counts = [0; 3];
    for seed in 0..2000 {
        let mut random = Random::new(seed);
        let n = 1 + random.below(64);
        let record = random_used_record(&mut random, n);
        assert_eq!(expanded(n as u64, &record, [n; 3]), 0);
        let element = product(&expand(&record).unwrap(), random.word() >> (64 - n)).unwrap();
        let changed = (random.below(3) == 0) as u64;
        let x = element.x ^ changed << random.below(n);
        let (number, value) = number(n as u64, &record, element.z, x);
        assert_eq!(number, 0);
        counts[usize::from(value)] += 1;
    }
    assert!(counts.iter().all(|&count| count > 300), "{counts:?}");
}

#[test]
fn damaged_records() {
    let mut counts = [0; 8];
    for seed in 0..6000 {
        let mut random = Random::new(seed);
        let n = 1 + random.below(12);
        let mut record = random_used_record(&mut random, n);
        let [mut z, mut x] = [0, 1].map(|_| random.word() >> (64 - n));
        let (mut count, mut places) = (n as u64, [n; 3]);
        for _ in 0..2 {
            let (a, b) = (random.below(n), random.below(n));
            match random.below(10) {
                0 => count = [0, 65, n as u64 + 1][random.below(3)],
                1 => places[random.below(3)] += 1,
                2 => record.codes[a] = random.word() as u8,
                3 => record.neighbours[a] ^= 1 << random.below(64),
                4 => record.neighbours[a] ^= 1 << b,
                5 => record.used ^= 1 << random.below(64),
                6 => record.used ^= 1 << a,
                7 => z ^= 1 << random.below(64),
                8 => x ^= 1 << random.below(64),
                _ => (),
            }
        }
        counts[usize::from(number(count, &record, z, x).0)] += 1;
        counts[usize::from(expanded(count, &record, places))] += 1;
    }
    let all = [0, 2, 4, 5, 6, 7];
    assert!(all.iter().all(|&k| counts[k] > 100), "{counts:?}");
}
