//! `compare` on pairs of lists.

use super::Line;
use crate::pairs::{equivalent, inequivalent, Pair};
use crate::plain;
use crate::seeded::{random_components, random_record, Random};
use crate::timing::Ready;
use sukhlent::raw::{self, Lent};
use sukhlent::GeneratorList;

/// The signature that both comparisons have.
pub type Compare = fn(Lent, Lent, &mut [u8], &mut [u8], &mut u64) -> u8;

/// The number of pairs.
const PAIRS: usize = 512;
/// The number of pairs in a timed sample.
const AT_ONCE: usize = 1;

/// What a comparison writes.
#[derive(Debug, PartialEq)]
pub(super) struct Answer {
    pub(super) choice: [u8; 64],
    pub(super) list: [u8; 96],
    pub(super) count: u64,
}

/// The line of n qubits, on pairs that are equivalent or on pairs that are not.
pub fn line(n: usize, are_equivalent: bool) -> Line {
    let (pairs, name, number) = if are_equivalent {
        (pairs(n, equivalent), "equivalent pairs of random graphs", 0)
    } else {
        let pairs = pairs(n, |random, graph| {
            inequivalent(random, graph, |random, _| {
                random_record(random, n).neighbours
            })
        });
        (pairs, "pairs of random graphs, not equivalent", 13)
    };
    pairs
        .iter()
        .for_each(|pair| assert_same_answers(pair, number));
    Line::measured(
        ("compare", n, name),
        &pairs,
        AT_ONCE,
        [engine, in_plain_rust],
    )
}

/// The line of 64 qubits in components of these sizes, on equivalent pairs.
pub fn components(sizes: &[usize], name: &'static str) -> Line {
    let mut random = Random::new(64);
    let one = |_| {
        let graph = random_components(&mut random, sizes).neighbours;
        equivalent(&mut random, &graph)
    };
    let pairs: Vec<Pair> = (0..PAIRS).map(one).collect();
    pairs.iter().for_each(|pair| assert_same_answers(pair, 0));
    let n = sizes.iter().sum();
    Line::measured(
        ("compare", n, name),
        &pairs,
        AT_ONCE,
        [engine, in_plain_rust],
    )
}

/// Seeded pairs, each of a random graph on n vertices and another.
fn pairs(n: usize, pair: impl Fn(&mut Random, &Vec<u64>) -> Pair) -> Vec<Pair> {
    let mut random = Random::new(n as u64);
    let one = |_| {
        let graph = random_record(&mut random, n).neighbours;
        pair(&mut random, &graph)
    };
    (0..PAIRS).map(one).collect()
}

fn engine(pairs: &[Pair]) -> Ready<'_> {
    Box::new(|| run(raw::compare, pairs))
}

fn in_plain_rust(pairs: &[Pair]) -> Ready<'_> {
    Box::new(|| run(plain::compare, pairs))
}

/// Compares every pair. The answer buffers are used again and again, and not cleared between.
fn run(compare: Compare, pairs: &[Pair]) -> u64 {
    let mut answer = Answer::empty();
    pairs.iter().fold(0, |sum, pair| {
        let refusal = answer.write(compare, pair);
        let last = answer.choice[pair.0.n() - 1];
        sum ^ answer.count ^ u64::from(last ^ answer.list[0] ^ refusal)
    })
}

impl Answer {
    pub(super) fn empty() -> Answer {
        Answer {
            choice: [0; 64],
            list: [0; 96],
            count: 0,
        }
    }

    /// Writes the answer of a comparison of a pair, and gives its number.
    fn write(&mut self, compare: Compare, (first, second): &Pair) -> u8 {
        compare(
            lent(first),
            lent(second),
            &mut self.choice[..first.n()],
            &mut self.list,
            &mut self.count,
        )
    }
}

/// A list as the calls take it.
pub fn lent(list: &GeneratorList) -> Lent<'_> {
    (list.n() as u64, &list.signs, &list.z, &list.x)
}

/// Panics unless both comparisons give this number on a pair, and write the same.
fn assert_same_answers(pair: &Pair, number: u8) {
    let [engine, plain] = [raw::compare as Compare, plain::compare].map(|compare| {
        let mut answer = Answer::empty();
        (answer.write(compare, pair), answer)
    });
    assert_eq!(engine.0, number);
    assert_eq!(engine, plain);
}
