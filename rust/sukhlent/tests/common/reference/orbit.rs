//! Orbits by the request's words: sets of edges, complemented until nothing new comes.

use crate::common::local::complemented;
use std::collections::BTreeSet;

/// Whether a and b are joined in the graph with these neighbour words.
fn joined(neighbours: &[u64], a: usize, b: usize) -> bool {
    neighbours[a] >> b & 1 == 1
}

/// The pairs of n vertices in the order 0-1, 0-2, and so on.
pub fn pairs(n: usize) -> Vec<(usize, usize)> {
    let all = (0..n).flat_map(|a| (0..n).map(move |b| (a, b)));
    all.filter(|(a, b)| a < b).collect()
}

/// The number of a graph.
pub fn graph_number(neighbours: &[u64]) -> u16 {
    let pairs = pairs(neighbours.len()).into_iter();
    let bits = pairs.map(|(a, b)| u16::from(joined(neighbours, a, b)));
    bits.rev().fold(0, |number, bit| 2 * number + bit)
}

/// The graph on n vertices that has this number.
pub fn graph_with_number(n: usize, number: u16) -> Vec<u64> {
    let pairs = pairs(n);
    let edge = |a: usize, b: usize| {
        let k = pairs.iter().position(|&pair| pair == (a.min(b), a.max(b)));
        k.is_some_and(|k| number >> k & 1 == 1)
    };
    let word = |a| (0..n).fold(0, |word, b| word | u64::from(edge(a, b)) << b);
    (0..n).map(word).collect()
}

/// The numbers of all graphs that complementations reach from one, rising.
pub fn orbit(neighbours: &[u64]) -> Vec<u16> {
    let mut found = BTreeSet::from([graph_number(neighbours)]);
    let mut open = vec![neighbours.to_vec()];
    while let Some(graph) = open.pop() {
        for a in 0..graph.len() {
            let next = complemented(&graph, &[a as u8]);
            if found.insert(graph_number(&next)) {
                open.push(next);
            }
        }
    }
    found.into_iter().collect()
}

/// The first line that is true of a graph and of a list of so many places.
pub fn orbit_refusal(n: u64, neighbours: &[u64], places: usize) -> u8 {
    if n == 0 || n > 6 {
        return 2;
    }
    if neighbours.len() as u64 != n || places != 32_768 {
        return 4;
    }
    if neighbours.iter().any(|word| word >> n != 0) {
        return 5;
    }
    let n = n as usize;
    let all = (0..n).flat_map(|a| (0..n).map(move |b| (a, b)));
    let unequal = |(a, b)| joined(neighbours, a, b) != joined(neighbours, b, a);
    if (0..n).any(|a| joined(neighbours, a, a)) || all.into_iter().any(unequal) {
        return 7;
    }
    0
}
