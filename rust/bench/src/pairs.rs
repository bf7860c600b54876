//! Pairs of lists that are known to be equivalent, or known not to be.

use crate::local::{complemented, sent};
use crate::seeded::{list, mixed, rows, Random};
use sukhlent::{expand, GeneratorList, Record};

/// The neighbour words of a graph.
pub type Graph = Vec<u64>;

/// Two lists.
pub type Pair = (GeneratorList, GeneratorList);

/// Mixed generators of a list's group under local Cliffords.
fn image(random: &mut Random, given: &GeneratorList, codes: &[u8]) -> GeneratorList {
    list(&mixed(random, &rows(&sent(given, codes))))
}

/// Mixed generators of a graph's state under random local Cliffords.
pub fn state(random: &mut Random, graph: &Graph) -> GeneratorList {
    let n = graph.len();
    let record = Record {
        neighbours: graph.clone(),
        codes: vec![0; n],
        used: 0,
    };
    let codes: Vec<u8> = (0..n).map(|_| random.below(24) as u8).collect();
    image(random, &expand(&record).expect("a simple graph"), &codes)
}

/// A state of a graph and, in one half of the cases, a state of the graph after random local
/// complementations, in the other the image under the last class at every qubit, which is
/// tried last.
pub fn equivalent(random: &mut Random, graph: &Graph) -> Pair {
    let n = graph.len();
    let first = state(random, graph);
    let second = if random.below(2) == 0 {
        let vertices: Vec<u8> = (0..2 * n).map(|_| random.below(n) as u8).collect();
        state(random, &complemented(graph, &vertices))
    } else {
        let codes: Vec<u8> = (0..n).map(|_| 20 + random.below(4) as u8).collect();
        image(random, &first, &codes)
    };
    (first, second)
}

/// States of a graph and of another with a different rank at some cut; local Cliffords keep these
/// ranks.
pub fn inequivalent(
    random: &mut Random,
    first: &Graph,
    other: impl Fn(&mut Random, &Graph) -> Graph,
) -> Pair {
    for _ in 0..1000 {
        let second = other(random, first);
        if differ(random, first, &second) {
            return (state(random, first), state(random, &second));
        }
    }
    panic!("no cut tells another graph from {first:?}");
}

/// Whether the graphs are seen to have different ranks at some cut: all sets of up to three
/// vertices and 200 random ones are tried.
pub fn differ(random: &mut Random, first: &Graph, second: &Graph) -> bool {
    let n = first.len();
    let small = (0..n * n * n).map(|k| 1 << (k % n) | 1 << (k / n % n) | 1 << (k / n / n));
    let drawn = (0..200).map(|_| random.word() >> (64 - n));
    small
        .chain(drawn)
        .any(|set| cut_rank(first, set) != cut_rank(second, set))
}

/// The rank of the edges between a set of vertices and the others.
fn cut_rank(graph: &Graph, set: u64) -> usize {
    let inside = (0..graph.len()).filter(|a| set >> a & 1 == 1);
    let mut basis: Vec<u64> = Vec::new();
    for a in inside {
        let row = basis
            .iter()
            .fold(graph[a] & !set, |row, b| row.min(row ^ b));
        if row != 0 {
            basis.push(row);
        }
    }
    basis.len()
}
