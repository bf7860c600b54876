//! Graph states by their edges: what the gates make of them, and what is refused.

use crate::common::Random;
use sukhlent::{codes, cz, expand, gate, reduce, Record, Refusal};

#[test]
fn a_graph_state_is_what_hadamards_and_cz_make() {
    let mut random = Random::new(1);
    for n in [1, 2, 5, 63, 64] {
        let mut made = Record::zeros(n);
        (0..n).for_each(|q| gate(&mut made, q, codes::H).unwrap());
        let mut edges = Vec::new();
        for (a, b) in (0..n).flat_map(|a| (0..a).map(move |b| (a, b))) {
            if random.below(4) == 0 {
                cz(&mut made, a, b).unwrap();
                edges.push((a, b));
            }
        }
        let graph = Record::graph(n, &edges).unwrap();
        assert_eq!((&graph.codes, graph.used), (&vec![codes::I; n], 0));
        assert_eq!(reduce(&expand(&graph).unwrap()), Ok(made));
    }
}

#[test]
fn an_edge_that_is_named_twice_is_one_edge() {
    let once = Record::graph(3, &[(0, 1), (1, 2)]);
    assert_eq!(once.as_ref().unwrap().neighbours, [0b010, 0b101, 0b010]);
    assert_eq!(Record::graph(3, &[(1, 0), (1, 2), (0, 1), (1, 2)]), once);
}

#[test]
fn the_first_fitting_number_is_given() {
    let refused = [
        (0, vec![], Refusal::Count),
        (65, vec![], Refusal::Count),
        (70, vec![(0, 99), (1, 1)], Refusal::Count),
        (usize::MAX, vec![(0, 0)], Refusal::Count),
        (3, vec![(0, 3)], Refusal::Stray),
        (64, vec![(64, 0)], Refusal::Stray),
        (3, vec![(usize::MAX, usize::MAX)], Refusal::Stray),
        (3, vec![(1, 1), (0, 3)], Refusal::Stray),
        (3, vec![(0, 1), (2, 2)], Refusal::Graph),
    ];
    for (n, edges, refusal) in refused {
        assert_eq!(Record::graph(n, &edges), Err(refusal), "{n} {edges:?}");
    }
}
