//! Amplitudes: known states, state vectors on up to eight qubits bit for bit, and elements of the
//! group on 64.

use crate::common::reference::{expanded, plot_lines, product, turns, Bits};
use crate::common::vectors::state_of;
use crate::common::{random_record, random_used_record, Random, RecordCall};
use crate::exhaustive::record;
use sukhlent::{measure, reduce, Pauli, Record, Refusal};

/// The bits of 0, 1, -1, 1/2 and 1/4.
const NOUGHT: u64 = 0;
const ONE: u64 = 0x3ff0_0000_0000_0000;
const MINUS: u64 = 0xbff0_0000_0000_0000;
const HALF: u64 = 0x3fe0_0000_0000_0000;
const QUARTER: u64 = 0x3fd0_0000_0000_0000;

const NOTHING: Bits = [NOUGHT; 3];

/// The bits of the answer at a word.
fn bits(record: &Record, y: u64) -> Bits {
    let line = record.amplitude(y).expect("a word below 2^n");
    [line.re, line.im, line.p].map(f64::to_bits)
}

/// The bits at every word of the state with these strings.
fn all_bits(strings: &str) -> Vec<Bits> {
    let record = reduce(&strings.parse().expect("a list")).expect("a list");
    (0..1 << record.n()).map(|y| bits(&record, y)).collect()
}

#[test]
fn known_states() {
    let [real, imaginary] = [[ONE, NOUGHT, HALF], [NOUGHT, ONE, HALF]];
    assert_eq!(all_bits("-ZZ\n+XY\n"), [NOTHING, real, imaginary, NOTHING]);
    let held = Record {
        neighbours: vec![2, 1],
        codes: vec![6, 10],
        used: 0,
    };
    assert_eq!(bits(&held, 2), imaginary);
    let minus = [MINUS, NOUGHT, HALF];
    assert_eq!(all_bits("-XX\n-ZZ\n"), [NOTHING, real, minus, NOTHING]);
    assert_eq!(all_bits("-Y\n"), [real, [NOUGHT, MINUS, HALF]]);
    let plus = [ONE, NOUGHT, QUARTER];
    let edge = [plus, plus, plus, [MINUS, NOUGHT, QUARTER]];
    assert_eq!(all_bits("+XZ\n+ZX\n"), edge);
    assert_eq!(all_bits("-Z\n"), [NOTHING, [ONE, NOUGHT, ONE]]);
}

#[test]
fn probabilities_down_to_two_to_the_minus_64() {
    for n in 1..=64 {
        let plain = Record {
            neighbours: vec![0; n],
            codes: vec![0; n],
            used: 0,
        };
        let p = (1023 - n as u64) << 52;
        for y in [0, u64::MAX >> (64 - n), 1 << (n - 1)] {
            assert_eq!(bits(&plain, y), [ONE, NOUGHT, p], "{n}");
        }
        let none = Record {
            codes: vec![8; n],
            ..plain
        };
        assert_eq!(bits(&none, 0), [ONE, NOUGHT, ONE]);
        assert_eq!(bits(&none, 1), NOTHING);
    }
    assert_eq!((1023 - 64) << 52, 0x3bf0_0000_0000_0000u64);
}

/// The call answers at every word what the state's vector says.
fn assert_as_vector(record: &Record) {
    for (y, line) in plot_lines(&state_of(record)).into_iter().enumerate() {
        assert_eq!(bits(record, y as u64), line, "{y} of {record:?}");
    }
}

#[test]
fn every_record_on_up_to_three_qubits() {
    for n in 1..=3 {
        let graphs = 1 << (n * (n - 1) / 2);
        let codes = 24usize.pow(n as u32);
        for k in 0..graphs {
            (0..codes).for_each(|m| assert_as_vector(&record(n, k, m)));
        }
    }
}

#[test]
fn seeded_records_on_four_to_eight_qubits() {
    for seed in 0..400 {
        let mut random = Random::new(74_000 + seed);
        let n = 4 + random.below(5);
        let record = match random.below(2) {
            0 => random_record(&mut random, n),
            _ => random_used_record(&mut random, n),
        };
        assert_as_vector(&record);
    }
}

/// Measures Z at a qubit of a copy, with this bit or, where the state forbids it, with the other.
/// Answers the bit and whether it was determined.
fn measured(record: &mut Record, q: usize, bit: u8) -> (u8, bool) {
    match measure(record, Pauli::Z, q, bit) {
        Ok(measured) => (bit, measured.determined),
        Err(refusal) => {
            assert_eq!(refusal, Refusal::Contradicted);
            let other = measure(record, Pauli::Z, q, 1 - bit);
            (1 - bit, other.expect("one of the two").determined)
        }
    }
}

/// A word with a nonzero amplitude, near the wanted one: each qubit from the last down has the wanted
/// bit where the state allows it. And the number of qubits whose bit was free.
fn near(record: &Record, wanted: u64) -> (u64, usize) {
    let mut copy = record.clone();
    let (mut word, mut free) = (0, 0);
    for q in (0..record.n()).rev() {
        let (bit, determined) = measured(&mut copy, q, (wanted >> q & 1) as u8);
        word |= u64::from(bit) << q;
        free += usize::from(!determined);
    }
    (word, free)
}

/// A power of i times 1, and the probability 2^-r, in bits.
fn power(k: u8, r: usize) -> Bits {
    let p = (1023 - r as u64) << 52;
    [
        [ONE, NOUGHT, p],
        [NOUGHT, ONE, p],
        [MINUS, NOUGHT, p],
        [NOUGHT, MINUS, p],
    ][usize::from(k % 4)]
}

/// A record on n vertices of which each has few neighbours, so that some qubits get a Hadamard.
fn sparse(random: &mut Random, n: usize) -> Record {
    let mut record = random_record(random, n);
    let kept = random.word() & random.word();
    for a in 0..n {
        for b in (0..a).filter(|b| kept >> ((a + b) % 64) & 1 == 0) {
            record.neighbours[a] &= !(1 << b);
            record.neighbours[b] &= !(1 << a);
        }
    }
    record
}

#[test]
fn the_ratio_on_64_qubits_by_elements_of_the_group() {
    let (mut ranks, mut seen) = (Vec::new(), [0; 4]);
    for seed in 0..60 {
        let mut random = Random::new(75_000 + seed);
        let record = sparse(&mut random, 64);
        let (low, r) = near(&record, 0);
        assert_eq!(bits(&record, low), power(0, r), "seed {seed}");
        let list = expanded(&record);
        for _ in 0..20 {
            // An element leads from the smallest word to another, and fixes the ratio there.
            let element = product(&list, random.word());
            let y = low ^ element.x;
            let k = turns(&element, low);
            assert_eq!(bits(&record, y), power(k, r), "seed {seed}: {y:x}");
            seen[usize::from(k)] += 1;
            assert!(y >= low);
        }
        ranks.push(r);
    }
    assert!(seen.iter().all(|&count| count > 50), "{seen:?}");
    assert!(ranks.iter().any(|r| r != &ranks[0]), "{ranks:?}");
}

#[test]
fn nothing_on_64_qubits_where_the_measurements_forbid_the_word() {
    let mut counts = [0; 2];
    for seed in 0..200 {
        let mut random = Random::new(76_000 + seed);
        let record = sparse(&mut random, 64);
        let (word, r) = near(&record, random.word());
        let y = word ^ 1 << random.below(64);
        let forbidden = near(&record, y).0 != y;
        let answer = RecordCall::amplitude_of(&record, y).amplitude().unwrap();
        assert_eq!(answer == NOTHING, forbidden, "seed {seed}: {y:x}");
        assert_eq!(answer[2], if forbidden { 0 } else { power(0, r)[2] });
        counts[usize::from(forbidden)] += 1;
    }
    assert!(counts.iter().all(|&count| count > 20), "{counts:?}");
}
