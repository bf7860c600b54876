//! Amplitudes in plain Rust beside the engine: answers and refusals.

use bench::calls::amplitude::Amplitude;
use bench::plain;
use bench::seeded::{random_record, random_used_record, Random};
use sukhlent::{raw, Record};

/// The number that a call answers, and the bits of what it leaves.
fn left(call: Amplitude, n: u64, record: &Record, y: u64) -> (u8, [u64; 3]) {
    let (mut re, mut im, mut p) = (2.0, 3.0, 4.0);
    let Record {
        neighbours,
        codes,
        used,
    } = record;
    let number = call(n, neighbours, codes, *used, y, &mut re, &mut im, &mut p);
    (number, [re, im, p].map(f64::to_bits))
}

fn assert_same(n: u64, record: &Record, y: u64) -> u8 {
    let engine = left(raw::amplitude, n, record, y);
    assert_eq!(left(plain::amplitude, n, record, y), engine, "{record:?}");
    engine.0
}

#[test]
fn seeded_records_and_words() {
    for seed in 0..2000 {
        let mut random = Random::new(seed);
        let n = 1 + random.below(64);
        let record = match random.below(2) {
            0 => random_record(&mut random, n),
            _ => random_used_record(&mut random, n),
        };
        let any = random.word() >> (64 - n);
        let some = plain::supported_word(&record.neighbours, &record.codes, any);
        for y in [any, some, some ^ 1] {
            assert_eq!(assert_same(n as u64, &record, y), 0);
        }
    }
}

#[test]
fn refused_alike() {
    let mut counts = [0; 8];
    for seed in 0..3000 {
        let mut random = Random::new(seed);
        let n = 2 + random.below(7);
        let mut record = random_used_record(&mut random, n);
        let mut count = n as u64;
        let mut y = random.word() >> (64 - n);
        for _ in 0..1 + random.below(2) {
            match random.below(7) {
                0 => count = [0, 65, u64::MAX][random.below(3)],
                1 => record.codes.push(0),
                2 => y |= 1 << (n + random.below(60 - n)),
                3 => record.used |= 1 << (n + random.below(60 - n)),
                4 => record.codes[0] = 24 + random.below(200) as u8,
                5 => record.neighbours[1] ^= 1,
                _ => record.used |= 1 << random.below(n),
            }
        }
        counts[usize::from(assert_same(count, &record, y))] += 1;
    }
    let all = [0, 2, 4, 5, 6, 7];
    assert!(all.iter().all(|&k| counts[k] > 20), "{counts:?}");
}
