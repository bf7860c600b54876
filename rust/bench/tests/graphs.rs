//! Complementations and cuts in plain Rust are as the engine's, on sound and on damaged records.

use bench::calls::graphs::{Complement, Cut};
use bench::plain;
use bench::seeded::{random_used_record, Random};
use sukhlent::{raw, Record};

/// The number that both complementations give; they leave the same record.
fn complemented(n: u64, record: &Record, a: u64) -> u8 {
    let [engine, plain] = [raw::complement as Complement, plain::complement].map(|call| {
        let mut left = record.clone();
        let (words, codes) = (&mut left.neighbours, &mut left.codes);
        (call(n, words, codes, record.used, a), left)
    });
    assert_eq!(engine, plain, "{n}, {record:?}, {a}");
    engine.0
}

/// The number that both cuts give; they leave the same rank.
fn cut(n: u64, record: &Record, side: u64) -> u8 {
    let [engine, plain] = [raw::cut as Cut, plain::cut].map(|call| {
        let mut rank = 77;
        let (words, codes) = (&record.neighbours, &record.codes);
        (call(n, words, codes, record.used, side, &mut rank), rank)
    });
    assert_eq!(engine, plain, "{n}, {record:?}, {side:x}");
    engine.0
}

#[test]
fn sound_records() {
    let mut counts = [0; 2];
    for seed in 0..3000 {
        let mut random = Random::new(seed);
        let n = 1 + random.below(64);
        let record = random_used_record(&mut random, n);
        let (a, side) = (random.below(n) as u64, random.word() >> (64 - n));
        assert_eq!(cut(n as u64, &record, side), 0);
        let number = complemented(n as u64, &record, a);
        assert_eq!(number, if record.used >> a & 1 == 1 { 16 } else { 0 });
        counts[usize::from(number == 0)] += 1;
    }
    assert!(counts.iter().all(|&count| count > 300), "{counts:?}");
}

#[test]
fn damaged_records() {
    let mut counts = [0; 17];
    for seed in 0..8000 {
        let mut random = Random::new(seed);
        let n = 1 + random.below(30);
        let mut record = random_used_record(&mut random, n);
        let (mut count, mut vertex) = (n as u64, random.below(n) as u64);
        let mut side = random.word() >> (64 - n);
        for _ in 0..2 {
            let (a, b) = (random.below(n), random.below(n));
            match random.below(10) {
                0 => count = [0, 65, n as u64 + 1][random.below(3)],
                1 => record.neighbours.truncate(a),
                2 => record.codes[a] = random.word() as u8,
                3 => side ^= 1 << random.below(64),
                4 => record.used ^= 1 << random.below(64),
                5 => vertex = [n as u64, 64, u64::MAX][random.below(3)],
                6 if a < record.neighbours.len() => record.neighbours[a] ^= 1 << random.below(64),
                7 if a < record.neighbours.len() => record.neighbours[a] ^= 1 << b,
                8 if a < record.neighbours.len() => record.neighbours[a] ^= 1 << a,
                _ => (),
            }
        }
        counts[usize::from(complemented(count, &record, vertex))] += 1;
        counts[usize::from(cut(count, &record, side))] += 1;
    }
    let all = [0, 2, 4, 5, 6, 7, 8, 16];
    assert!(all.iter().all(|&k| counts[k] > 100), "{counts:?}");
}
