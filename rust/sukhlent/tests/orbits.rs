//! Orbits of all graphs on up to 6 vertices, against a plain search.

use crate::common::reference::{graph_number, graph_with_number, orbit as due, pairs};
use crate::common::OrbitCall;
use std::collections::BTreeMap;
use sukhlent::{compare, expand, orbit, GeneratorList, Record, Refusal};

/// Every graph on n vertices, by number.
fn graphs(n: usize) -> impl Iterator<Item = Vec<u64>> {
    let count = 1 << pairs(n).len();
    (0..count).map(move |number| graph_with_number(n, number as u16))
}

/// The generators of a graph's plain state.
fn plain(neighbours: &[u64]) -> GeneratorList {
    let codes = vec![0; neighbours.len()];
    let neighbours = neighbours.to_vec();
    let used = 0;
    expand(&Record {
        neighbours,
        codes,
        used,
    })
    .expect("a simple graph")
}

/// Asserts that every graph on n vertices has the orbit that a plain search finds, and answers how
/// many orbits of each size there are.
fn sizes(n: usize) -> BTreeMap<usize, usize> {
    let mut orbits: Vec<Vec<u16>> = Vec::new();
    let mut of = vec![usize::MAX; 1 << pairs(n).len()];
    for (number, graph) in graphs(n).enumerate() {
        if of[number] == usize::MAX {
            let found = due(&graph);
            found
                .iter()
                .for_each(|&h| of[usize::from(h)] = orbits.len());
            orbits.push(found);
        }
        let answer = OrbitCall::on(&graph).orbit();
        assert_eq!(answer.as_ref(), Ok(&orbits[of[number]]), "{n}: {number}");
    }
    let mut sizes = BTreeMap::new();
    let all = orbits.iter().map(Vec::len);
    all.for_each(|size| *sizes.entry(size).or_insert(0) += 1);
    sizes
}

#[test]
fn numbers_read_the_pairs_in_order() {
    assert_eq!(pairs(4), [(0, 1), (0, 2), (0, 3), (1, 2), (1, 3), (2, 3)]);
    assert_eq!(graph_with_number(4, 4), [0b1000, 0, 0, 0b0001]);
    for n in 1..=6 {
        for (number, graph) in graphs(n).enumerate() {
            assert_eq!(usize::from(graph_number(&graph)), number);
        }
    }
}

#[test]
fn worked_examples() {
    let numbers = |graph: &[u64]| OrbitCall::on(graph).orbit().unwrap();
    assert_eq!(numbers(&[0]), [0]);
    assert_eq!(numbers(&[0b010, 0b101, 0b010]), [3, 5, 6, 7]);
    let star = [0b1110, 0b0001, 0b0001, 0b0001];
    assert_eq!(numbers(&star), [7, 25, 42, 52, 63]);
    let path = [0b0010, 0b0101, 0b1010, 0b0100];
    let due = [30, 31, 35, 37, 39, 41, 43, 49, 53, 57, 62];
    assert_eq!(numbers(&path), due);
}

#[test]
fn every_graph_on_up_to_5_vertices() {
    let orbits = (1..=5).map(|n| sizes(n).values().sum::<usize>());
    assert_eq!(orbits.collect::<Vec<_>>(), [1, 2, 5, 18, 93]);
}

#[test]
fn every_graph_on_6_vertices() {
    let sizes = sizes(6);
    assert_eq!(sizes.values().sum::<usize>(), 760);
    assert_eq!(sizes.keys().last(), Some(&372));
    let graphs = sizes.iter().map(|(size, count)| size * count);
    assert_eq!(graphs.sum::<usize>(), 32_768);
}

#[test]
fn graphs_come_out_by_number() {
    for n in 1..=5 {
        for graph in graphs(n).step_by(7) {
            let found = orbit(&graph).unwrap();
            assert_eq!(found.n, n);
            assert!(found.graphs().any(|member| member == graph));
            let numbers = found.graphs().map(|member| graph_number(&member));
            assert!(numbers.eq(found.numbers.iter().copied()));
        }
    }
}

#[test]
fn two_graphs_lie_on_one_list_exactly_if_their_plain_states_compare() {
    for n in 1..=4 {
        for first in graphs(n) {
            let numbers = orbit(&first).unwrap().numbers;
            for (number, second) in graphs(n).enumerate() {
                let answer = compare(&plain(&first), &plain(&second));
                let same = numbers.contains(&(number as u16));
                assert_eq!(answer.is_ok(), same, "{first:?} {second:?}");
                assert!(same || answer == Err(Refusal::Inequivalent));
            }
        }
    }
}

#[test]
fn some_graphs_on_5_and_6_vertices_compare_as_they_lie_on_lists() {
    for (n, step) in [(5, 31), (6, 1021)] {
        let some: Vec<Vec<u64>> = graphs(n).step_by(step).collect();
        for first in &some {
            let numbers = orbit(first).unwrap().numbers;
            for second in &some {
                let same = numbers.contains(&graph_number(second));
                let answer = compare(&plain(first), &plain(second));
                assert_eq!(answer.is_ok(), same, "{first:?} {second:?}");
            }
        }
    }
}
