//! Times of `compare` over families of states on 20 qubits, of `equivalent` on 64, and brute force.

mod brute;
mod families;

use bench::local::{complemented, sent};
use bench::pairs::{self, differ, inequivalent, state, Pair};
use bench::plain;
use bench::seeded::Random;
use families::{Family, FAMILIES, LARGE, LARGE_FAMILIES, N};
use std::time::{Duration, Instant};
use sukhlent::{compare, equivalent, Comparison, GeneratorList, Record, Refusal};

/// The number of pairs of each kind in a family.
const PAIRS: u64 = 100;
/// The number of times that a pair is compared; the least time counts.
const RUNS: usize = 5;

/// The times of one kind of pairs.
#[derive(Default)]
struct Measured {
    times: Vec<Duration>,
}

/// A comparison of two lists.
type Compare = fn(&GeneratorList, &GeneratorList) -> Result<Comparison, Refusal>;

fn main() {
    println!("compare on {N} qubits, {PAIRS} pairs of each kind, each the least time of {RUNS}");
    table(compare, &FAMILIES);
    println!();
    println!("equivalent on {LARGE} qubits, as above");
    table(equivalent, &LARGE_FAMILIES);
    println!();
    println!("a pair that is not equivalent, and brute force over all 6^n classes");
    println!("{:<4}{:>11}{:>17}", "n", "engine", "brute force");
    [6, 8, 10].into_iter().for_each(against_brute_force);
}

/// Prints the times of a call over families.
fn table(compare: Compare, families: &[Family]) {
    println!("{:<36}{:^22}{:^22}", "", "equivalent", "not equivalent");
    let columns = format!("{:>11}{:>11}", "mean", "worst");
    println!("{:<36}{columns}{columns}", "family");
    for family in families {
        let mut random = Random::new(20);
        let (mut same, mut other) = (Measured::default(), Measured::default());
        for _ in 0..PAIRS {
            let graph = (family.member)(&mut random);
            same.pair(compare, &pairs::equivalent(&mut random, &graph), true);
            let graph = (family.member)(&mut random);
            let told = inequivalent(&mut random, &graph, family.other);
            other.pair(compare, &told, false);
        }
        println!("{:<36}{}{}", family.name, same.columns(), other.columns());
    }
}

impl Measured {
    /// Compares a pair, and panics unless the answer is right.
    fn pair(&mut self, compare: Compare, (first, second): &Pair, equivalent: bool) {
        let (time, answer) = timed(compare, first, second);
        assert_right(first, second, &answer, equivalent);
        self.times.push(time);
    }

    fn columns(&self) -> String {
        let mean = self.times.iter().sum::<Duration>() / self.times.len() as u32;
        let worst = self.times.iter().max().unwrap();
        let [mean, worst] = [mean, *worst].map(micros);
        format!("{mean:>8.0} µs{worst:>8.0} µs")
    }
}

fn micros(time: Duration) -> f64 {
    time.as_secs_f64() * 1e6
}

/// The least time of some runs of the public call, and its answer.
fn timed(
    compare: Compare,
    first: &GeneratorList,
    second: &GeneratorList,
) -> (Duration, Result<Comparison, Refusal>) {
    let run = |_| {
        let start = Instant::now();
        let answer = compare(first, second);
        (start.elapsed(), answer)
    };
    (0..RUNS).map(run).min_by_key(|(time, _)| *time).unwrap()
}

/// The reduced record, by plain Rust.
fn reduced(list: &GeneratorList) -> Record {
    let n = list.n();
    let (mut neighbours, mut codes, mut used) = (vec![0; n], vec![0; n], 0);
    let (signs, z, x) = (&list.signs, &list.z, &list.x);
    let (words, bytes) = (&mut neighbours, &mut codes);
    let refusal = plain::reduce(n as u64, signs, z, x, words, bytes, &mut used);
    assert_eq!(refusal, 0);
    Record {
        neighbours,
        codes,
        used,
    }
}

/// The choice carries the first group onto the second, and the complementations the first reduced
/// graph to the second; a pair that is not equivalent is refused.
fn assert_right(
    first: &GeneratorList,
    second: &GeneratorList,
    answer: &Result<Comparison, Refusal>,
    equivalent: bool,
) {
    match answer {
        Ok(answer) => {
            assert!(equivalent);
            assert_eq!(reduced(&sent(first, &answer.choice)), reduced(second));
            let graph = complemented(&reduced(first).neighbours, &answer.complementations);
            assert_eq!(graph, reduced(second).neighbours);
        }
        Err(refusal) => {
            assert!(!equivalent);
            assert_eq!(*refusal, Refusal::Inequivalent);
        }
    }
}

/// Rings on n vertices, engine and brute force: an equivalent pair for the answer, and one with a
/// chord for the time.
fn against_brute_force(n: usize) {
    let mut random = Random::new(n as u64);
    let ring = |n: usize| -> Vec<u64> {
        let near = |a: usize| 1 << ((a + 1) % n) | 1 << ((a + n - 1) % n);
        (0..n).map(near).collect()
    };
    let mut chord = ring(n);
    (chord[0], chord[3]) = (chord[0] | 1 << 3, chord[3] | 1);
    assert!(differ(&mut random, &ring(n), &chord));

    let (first, second) = pairs::equivalent(&mut random, &ring(n));
    let answer = compare(&first, &second).expect("an equivalent pair");
    let classes: Vec<u8> = answer.choice.iter().map(|code| code / 4).collect();
    assert_eq!(brute::least_classes(&first, &second), Some(classes));

    let other = state(&mut random, &chord);
    let (time, answer) = timed(compare, &first, &other);
    assert_eq!(answer, Err(Refusal::Inequivalent));
    let start = Instant::now();
    assert_eq!(brute::least_classes(&first, &other), None);
    let brute = micros(start.elapsed());
    println!("{n:<4}{:>8.0} µs{brute:>14.0} µs", micros(time));
}
