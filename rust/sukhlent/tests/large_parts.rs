//! Equivalence of states in one part of 21 to 64 vertices: choices checked on every generator and by
//! the list, others told apart by a cut rank, and least choices against a list of all solutions.

use crate::common::local::complemented;
use crate::common::reference::{cut_rank, expanded, image_of, least_choice, reduced, Group};
use crate::common::{list, mixed, rows, Random};
use sukhlent::{compare, equivalent, equivalent_records, reduce};
use sukhlent::{Comparison, GeneratorList, Record, Refusal};

/// One pair in so many has its least choice checked.
const LISTED: u64 = 5;

/// What a run has seen.
#[derive(Default)]
struct Seen {
    equivalent: u32,
    others: u32,
    least: u32,
}

/// A connected graph on n vertices: a tree, and edges by the kind.
fn connected(random: &mut Random, n: usize, kind: u64) -> Vec<u64> {
    let mut graph = vec![0u64; n];
    let mut join = |a: usize, b: usize| {
        graph[a] |= 1 << b;
        graph[b] |= 1 << a;
    };
    for b in 1..n {
        let a = match kind {
            0 | 1 => b - 1,
            2 => 0,
            _ => random.below(b),
        };
        join(a, b);
    }
    let further = match kind {
        0 => n / 2 * n / 2,
        1 => 1,
        3 => 0,
        4 => n,
        5 => 2,
        _ => n * n / 16,
    };
    for _ in 0..further * usize::from(kind != 2) {
        let (a, b) = random.pair_below(n);
        join(a, b);
    }
    graph
}

/// Mixed generators of a graph's state under random codes.
fn state(random: &mut Random, graph: &[u64]) -> GeneratorList {
    let record = Record {
        neighbours: graph.to_vec(),
        codes: graph.iter().map(|_| random.below(24) as u8).collect(),
        used: 0,
    };
    list(&mixed(random, &rows(&expanded(&record))))
}

/// Whether a cut has other ranks in two graphs: sets of up to two vertices and 100 random ones.
fn differ(random: &mut Random, first: &[u64], second: &[u64]) -> bool {
    let n = first.len();
    let small = (0..n * n).map(|k| 1 << (k % n) | 1 << (k / n));
    let drawn: Vec<u64> = (0..100).map(|_| random.word() >> (64 - n)).collect();
    let mut sides = small.chain(drawn);
    sides.any(|side| cut_rank(first, side) != cut_rank(second, side))
}

/// A graph with a few edges of another changed, told from it by a cut.
fn other(random: &mut Random, graph: &[u64]) -> Vec<u64> {
    for _ in 0..100 {
        let mut changed = graph.to_vec();
        for _ in 0..1 + random.below(3) {
            let (a, b) = random.pair_below(graph.len());
            changed[a] ^= 1 << b;
            changed[b] ^= 1 << a;
        }
        if differ(random, graph, &changed) {
            return changed;
        }
    }
    panic!("no cut tells a graph from {graph:?}");
}

/// The choice sends every generator to an element of the second group, and the list leads from the
/// first reduced graph to the second.
fn assert_carries(first: &GeneratorList, second: &GeneratorList, answer: &Comparison) {
    let group = Group::new(&rows(second));
    for row in rows(first) {
        assert!(group.has(&image_of(&row, &answer.choice)), "{first:?}");
    }
    let [from, to] = [first, second].map(reduced);
    let led = complemented(&from.neighbours, &answer.complementations);
    assert_eq!(led, to.neighbours, "{first:?} {second:?}");
    assert!(2 * answer.complementations.len() <= 3 * first.n());
}

/// One pair: the answer is that of the records too, and `compare` refuses it.
fn pair(seed: u64, seen: &mut Seen) {
    let mut random = Random::new(7_000_000 + seed);
    let n = 21 + random.below(44);
    let graph = connected(&mut random, n, seed % 7);
    let same = seed % 3 != 0;
    let further = if same {
        let vertices: Vec<u8> = (0..2 * n).map(|_| random.below(n) as u8).collect();
        complemented(&graph, &vertices)
    } else {
        other(&mut random, &graph)
    };
    let [first, second] = [&graph, &further].map(|graph| state(&mut random, graph));
    let answer = equivalent(&first, &second);
    let [from, to] = [&first, &second].map(|list| reduce(list).expect("a list of a state"));
    assert_eq!(equivalent_records(&from, &to), answer, "seed {seed}");
    assert_eq!(compare(&first, &second), Err(Refusal::Large));
    match &answer {
        Ok(answer) => {
            assert!(same, "seed {seed}: a cut tells them apart");
            assert_carries(&first, &second, answer);
            seen.equivalent += 1;
        }
        Err(refusal) => {
            assert!(!same, "seed {seed}: {refusal}");
            assert_eq!(*refusal, Refusal::Inequivalent);
            seen.others += 1;
        }
    }
    if seed % LISTED == 0 {
        if let Some(due) = least_choice(&rows(&first), &rows(&second)) {
            assert_eq!(answer.ok().map(|found| found.choice), due, "seed {seed}");
            seen.least += 1;
        }
    }
}

/// So many pairs.
fn seen(pairs: u64) -> Seen {
    let mut seen = Seen::default();
    (0..pairs).for_each(|seed| pair(seed, &mut seen));
    seen
}

#[test]
fn pairs_of_states_in_one_part() {
    let seen = seen(210);
    assert!(seen.equivalent == 140 && seen.others == 70);
    assert!(seen.least >= 20, "{}", seen.least);
}

#[test]
#[ignore = "half a minute"]
fn two_thousand_pairs_of_states_in_one_part() {
    let seen = seen(2000);
    assert!(seen.equivalent > 1300 && seen.others > 660);
    assert!(seen.least >= 200, "{}", seen.least);
}
