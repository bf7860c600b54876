//! The plain image rule answers as the engine, on sound and on damaged records.

use bench::calls::image::Image;
use bench::local::{complemented_record, numbered_graph};
use bench::plain;
use bench::seeded::{random_record, Random};
use sukhlent::{raw, Record};

/// The number that both calls give; they leave the same in buffers of so many places.
fn number(n: u64, record: &Record, places: usize, list_places: usize) -> u8 {
    let [engine, plain] = [raw::image as Image, plain::image].map(|call| {
        let (mut image, mut signs) = (vec![77; places], vec![77; places]);
        let (mut list, mut count) = (vec![77; list_places], 77);
        let (neighbours, codes) = (&record.neighbours, &record.codes);
        let (words, bytes) = (&mut image, &mut signs);
        let number = call(n, neighbours, codes, words, bytes, &mut list, &mut count);
        (number, image, signs, list, count)
    });
    assert_eq!(engine, plain, "{n}: {record:?}");
    engine.0
}

#[test]
fn every_record_of_three_vertices() {
    let mut counts = [0; 13];
    for n in 1..=3 {
        let choices = 24usize.pow(n as u32);
        for k in 0..choices << (n * (n - 1) / 2) {
            let code = |q| (k / 24usize.pow(q) % 24) as u8;
            let record = Record {
                neighbours: numbered_graph(n, k / choices),
                codes: (0..n as u32).map(code).collect(),
                used: 0,
            };
            counts[usize::from(number(n as u64, &record, n, 96))] += 1;
        }
    }
    assert!([0, 11, 12].iter().all(|&k| counts[k] > 1000), "{counts:?}");
}

#[test]
fn complemented_and_damaged_records() {
    let mut counts = [0; 13];
    for seed in 0..4000 {
        let mut random = Random::new(seed);
        let n = 1 + random.below(64);
        let mut record = random_record(&mut random, n);
        record.codes.iter_mut().for_each(|code| *code %= 4);
        for _ in 0..random.below(n) {
            record = complemented_record(&record, random.below(n));
        }
        let (mut length, mut places, mut list_places) = (n as u64, n, 96);
        let (a, b) = (random.below(n), random.below(n));
        match random.below(12) {
            0 => length = [0, 65][random.below(2)],
            1 => places += 1,
            2 => list_places = [0, 95, 97][random.below(3)],
            3 => record.neighbours[a] ^= 1 << random.below(64),
            4 => record.codes[a] = 24,
            5 => record.neighbours[a] ^= 1 << b,
            6 => record.codes[a] = random.below(24) as u8,
            _ => (),
        }
        if random.below(10) == 0 {
            record.codes[b] = 255;
        }
        counts[usize::from(number(length, &record, places, list_places))] += 1;
    }
    let reached = [0, 2, 4, 5, 6, 7, 11, 12].iter().all(|&k| counts[k] > 20);
    assert!(reached, "{counts:?}");
}
