//! Graph images: the examples of document 01, every graph of few vertices against state vectors,
//! and signed graphs on up to 64 vertices.

use crate::common::local::{complemented, complemented_record, numbered_graph};
use crate::common::reference::reduced;
use crate::common::vectors::state_of;
use crate::common::Random;
use simulator::{Row, State};
use sukhlent::{expand, image, GeneratorList, Image, Record, Refusal};

fn record(neighbours: &[u64], codes: &[u8]) -> Record {
    Record {
        neighbours: neighbours.to_vec(),
        codes: codes.to_vec(),
        used: 0,
    }
}

/// The generators of a graph with signs.
fn graph_list(neighbours: &[u64], signs: &[u8]) -> GeneratorList {
    GeneratorList {
        signs: signs.to_vec(),
        z: neighbours.to_vec(),
        x: (0..signs.len()).map(|q| 1 << q).collect(),
    }
}

/// The digits of k in a base, as codes.
fn digits(n: usize, k: usize, base: usize) -> Vec<u8> {
    (0..n as u32)
        .map(|q| (k / base.pow(q) % base) as u8)
        .collect()
}

/// The list leads to the image graph, which stands for the record's group, and is short enough.
fn assert_image(given: &Record, answer: &Image) {
    let of_graph = graph_list(&answer.neighbours, &answer.signs);
    let group = reduced(&expand(given).unwrap());
    assert_eq!(reduced(&of_graph), group, "{given:?}");
    let led = complemented(&given.neighbours, &answer.complementations);
    assert_eq!(led, answer.neighbours, "{given:?}");
    assert!(
        2 * answer.complementations.len() <= 3 * given.n(),
        "{given:?}"
    );
}

#[test]
fn star_and_edge() {
    let star = image(&record(&[6, 1, 1], &[12, 4, 4])).unwrap();
    assert_eq!(star.neighbours, [6, 5, 3]);
    assert_eq!(star.signs, [0, 0, 0]);
    assert_eq!(star.complementations, [0]);
    let edge = image(&record(&[2, 1], &[8, 8])).unwrap();
    assert_eq!(edge.neighbours, [2, 1]);
    assert_eq!(edge.complementations, [0, 1, 0]);
}

#[test]
fn refused_images() {
    assert_eq!(image(&record(&[0], &[8])), Err(Refusal::ImageC));
    assert_eq!(image(&record(&[0], &[4])), Err(Refusal::ImageY));
}

#[test]
fn thirty_two_edges_fill_the_list() {
    let edges: Vec<u64> = (0..64).map(|q: u64| 1 << (q ^ 1)).collect();
    let answer = image(&record(&edges, &[8; 64])).unwrap();
    assert_eq!(answer.neighbours, edges);
    let pairs = (0..32).flat_map(|e| [2 * e, 2 * e + 1, 2 * e]);
    assert_eq!(answer.complementations, pairs.collect::<Vec<u8>>());
}

#[test]
fn every_record_of_three_vertices() {
    let mut accepted = 0;
    for n in 1..=3 {
        let codes = 24usize.pow(n as u32);
        for k in 0..codes << (n * (n - 1) / 2) {
            let given = record(&numbered_graph(n, k / codes), &digits(n, k % codes, 24));
            if let Ok(answer) = image(&given) {
                assert_image(&given, &answer);
                accepted += 1;
            }
        }
    }
    assert!(accepted > 1000);
}

/// Whether the group of a state, signs dropped, is that of some graph: each generator of the graph
/// has expectation +1 or -1.
fn is_some_graphs(state: &State, graphs: &[Vec<Row>]) -> bool {
    let certain = |row: &Row| state.expectation(row).re.abs() > 0.5;
    graphs.iter().any(|graph| graph.iter().all(certain))
}

#[test]
fn refused_exactly_when_the_image_is_no_graphs_on_four_vertices() {
    for n in 1..=4 {
        let number = 1 << (n * (n - 1) / 2);
        let generators = |k| {
            let graph = numbered_graph(n, k);
            (0..n).map(|j| Row::new(0, graph[j], 1 << j)).collect()
        };
        let graphs: Vec<Vec<Row>> = (0..number).map(generators).collect();
        for (k, c) in (0..number).flat_map(|k| (0..6usize.pow(n as u32)).map(move |c| (k, c))) {
            let codes: Vec<u8> = digits(n, c, 6).iter().map(|class| 4 * class).collect();
            let given = record(&numbered_graph(n, k), &codes);
            let found = is_some_graphs(&state_of(&given), &graphs);
            match image(&given) {
                Ok(answer) => {
                    assert!(found, "{given:?}");
                    assert_image(&given, &answer);
                }
                Err(Refusal::ImageC | Refusal::ImageY) => assert!(!found, "{given:?}"),
                Err(other) => panic!("{given:?}: {other}"),
            }
        }
    }
}

#[test]
fn complemented_records_of_signed_graphs_on_up_to_64_vertices() {
    for seed in 0..200 {
        let mut random = Random::new(12_000 + seed);
        let n = 1 + random.below(64);
        let mut neighbours = vec![0u64; n];
        for (a, b) in (0..n).flat_map(|a| (0..a).map(move |b| (a, b))) {
            let bit = (random.below(3) == 0) as u64;
            neighbours[a] |= bit << b;
            neighbours[b] |= bit << a;
        }
        let codes: Vec<u8> = (0..n).map(|_| 2 * random.below(2) as u8).collect();
        let signs: Vec<u8> = codes.iter().map(|c| c / 2).collect();
        let mut given = record(&neighbours, &codes);
        for _ in 0..random.below(2 * n) {
            given = complemented_record(&given, random.below(n));
        }
        let answer = image(&given).unwrap();
        assert_eq!(
            (&answer.neighbours, &answer.signs),
            (&neighbours, &signs),
            "seed {seed}"
        );
        assert_image(&given, &answer);
    }
}
