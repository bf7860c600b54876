//! The plain search answers as the engine, on sound and on damaged graphs.

use bench::calls::orbit::Orbit;
use bench::local::numbered_graph;
use bench::plain;
use bench::seeded::Random;
use sukhlent::raw;

/// The number that both calls give; they leave the same in a list of so many places.
fn number(n: u64, neighbours: &[u64], places: usize) -> u8 {
    let [engine, plain] = [raw::orbit as Orbit, plain::orbit].map(|call| {
        let (mut list, mut count) = (vec![77; places], 77);
        let number = call(n, neighbours, &mut list, &mut count);
        (number, list, count)
    });
    assert_eq!(engine, plain, "{n}: {neighbours:?}");
    engine.0
}

#[test]
fn every_graph_of_up_to_four_vertices_and_some_of_five_and_six() {
    for (n, step) in [(1, 1), (2, 1), (3, 1), (4, 1), (5, 3), (6, 101)] {
        for k in (0..1 << (n * (n - 1) / 2)).step_by(step) {
            assert_eq!(number(n as u64, &numbered_graph(n, k), 32_768), 0);
        }
    }
}

#[test]
fn damaged_graphs() {
    let mut counts = [0; 8];
    for seed in 0..2000 {
        let mut random = Random::new(seed);
        let n = 1 + random.below(6);
        let mut graph = numbered_graph(n, random.below(1 << (n * (n - 1) / 2)));
        let (mut length, mut places) = (n as u64, 32_768);
        let a = random.below(n);
        match random.below(8) {
            0 => length = [0, 7, 64][random.below(3)],
            1 => places = [0, 32_767, 32_769][random.below(3)],
            2 => graph.truncate(n - 1),
            3 => graph[a] ^= 1 << random.below(64),
            4 => graph[a] ^= 1 << random.below(n),
            _ => (),
        }
        counts[usize::from(number(length, &graph, places))] += 1;
    }
    assert!(
        [0, 2, 4, 5, 7].iter().all(|&k| counts[k] > 50),
        "{counts:?}"
    );
}
