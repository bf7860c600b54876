//! `product` of the rows that a word chooses.

use super::compare::lent;
use super::Line;
use crate::plain;
use crate::seeded::Random;
use crate::timing::Ready;
use sukhlent::raw::{self, Lent};
use sukhlent::GeneratorList;

/// The signature that both products have.
pub type Multiply = fn(Lent, u64, &mut u64, &mut u64, &mut u8) -> u8;

/// The number of lists.
const LISTS: usize = 512;
/// The number of lists in a timed sample.
const AT_ONCE: usize = 8;

/// A list of any rows, and a word.
type Case = (GeneratorList, u64);

/// The line of products of n rows on n qubits.
pub fn line(n: usize) -> Line {
    let mut random = Random::new(n as u64);
    let cases: Vec<Case> = (0..LISTS).map(|_| case(&mut random, n)).collect();
    cases.iter().for_each(assert_same_answers);
    let names = ("product", n, "any rows, every second one chosen or so");
    Line::measured(names, &cases, AT_ONCE, [engine, in_plain_rust])
}

fn case(random: &mut Random, n: usize) -> Case {
    let [z, x] = [0, 1].map(|_| (0..n).map(|_| random.word() >> (64 - n)).collect());
    let signs = (0..n).map(|_| random.below(2) as u8).collect();
    (GeneratorList { signs, z, x }, random.word() >> (64 - n))
}

fn engine(cases: &[Case]) -> Ready<'_> {
    Box::new(|| run(raw::product, cases))
}

fn in_plain_rust(cases: &[Case]) -> Ready<'_> {
    Box::new(|| run(plain::product, cases))
}

/// Multiplies every list's rows.
fn run(call: Multiply, cases: &[Case]) -> u64 {
    cases.iter().fold(0, |sum, case| {
        let (number, z, x, phase) = multiplied(call, case);
        sum ^ z ^ x ^ u64::from(phase ^ number)
    })
}

fn multiplied(call: Multiply, (list, chosen): &Case) -> (u8, u64, u64, u8) {
    let (mut z, mut x, mut phase) = (0, 0, 0);
    let number = call(lent(list), *chosen, &mut z, &mut x, &mut phase);
    (number, z, x, phase)
}

/// Panics unless both accept a case and write the same.
fn assert_same_answers(case: &Case) {
    let [engine, plain] =
        [raw::product as Multiply, plain::product].map(|call| multiplied(call, case));
    assert_eq!(engine, plain, "{case:?}");
    assert_eq!(engine.0, 0);
}
