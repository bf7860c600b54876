//! The plain reader and writer of Pauli strings answer as the engine, on sound and on damaged
//! arguments.

use bench::calls::strings::{Read, Write};
use bench::plain;
use bench::seeded::{list, random_rows, Random};
use sukhlent::{raw, write_strings};

/// The number that both readers give; they leave the same in buffers of these lengths.
fn read(text: &[u8], lengths: [usize; 3]) -> u8 {
    let [engine, plain] = [raw::read_strings as Read, plain::read_strings].map(|call| {
        let mut signs = vec![77; lengths[0]];
        let [mut z, mut x] = [1, 2].map(|k| vec![77; lengths[k]]);
        let number = call(text, &mut signs, &mut z, &mut x);
        (number, signs, z, x)
    });
    assert_eq!(engine, plain, "{text:?}");
    engine.0
}

/// The number that both writers give; they leave the same in a buffer of so many places.
fn write(list: raw::Lent, places: usize) -> u8 {
    let [engine, plain] = [raw::write_strings as Write, plain::write_strings].map(|call| {
        let mut text = vec![77; places];
        let number = call(list, &mut text);
        (number, text)
    });
    assert_eq!(engine, plain, "{list:?}");
    engine.0
}

#[test]
fn the_same_numbers_and_lists() {
    let mut counts = [0; 11];
    for seed in 0..4000 {
        let mut random = Random::new(seed);
        let n = 1 + random.below(12);
        let rows = list(&random_rows(&mut random, n));
        let mut text = write_strings(&rows).unwrap().into_bytes();
        let mut lengths = [n; 3];
        let place = random.below(text.len());
        match random.below(8) {
            0 => text.clear(),
            1 => lengths[random.below(3)] += 1,
            2 => text[place] = random.word() as u8,
            3 => text[place] = b"IXYZ+-\n"[random.below(7)],
            4 => text.truncate(place),
            5 => text.copy_within(0..n + 2, (n - 1) * (n + 2)),
            _ => (),
        }
        counts[usize::from(read(&text, lengths))] += 1;
    }
    let reached = [0, 1, 2, 4, 9, 10].iter().all(|&k| counts[k] > 20);
    assert!(reached, "{counts:?}");
    let line = format!("+{}\n", "X".repeat(65));
    assert_eq!(read(line.repeat(65).as_bytes(), [65; 3]), 2);
}

#[test]
fn the_same_numbers_and_texts() {
    let mut counts = [0; 11];
    for seed in 0..4000 {
        let mut random = Random::new(seed);
        let n = 1 + random.below(12);
        let mut list = list(&random_rows(&mut random, n));
        let (mut length, mut places) = (n as u64, n * (n + 2));
        let (a, b) = (random.below(n), random.below(n));
        match random.below(9) {
            0 => length = [0, 65][random.below(2)],
            1 => places += 1,
            2 => list.z[a] ^= 1 << random.below(64),
            3 => list.x[a] ^= 1 << b,
            4 => list.signs[a] = random.below(4) as u8,
            5 => (list.z[a], list.x[a]) = (list.z[b], list.x[b]),
            _ => (),
        }
        let lent = (length, &*list.signs, &*list.z, &*list.x);
        counts[usize::from(write(lent, places))] += 1;
    }
    let reached = [0, 2, 4, 5, 6, 9, 10].iter().all(|&k| counts[k] > 20);
    assert!(reached, "{counts:?}");
}
