//! Comparison: the examples of document 01, states on few qubits against all choices, and images
//! of states on up to 20.

use crate::common::local::{complemented, numbered_graph, sent};
use crate::common::reference::reduced;
use crate::common::{list, mixed, parsed as of, random_rows, rows, Random};
use std::collections::HashMap;
use sukhlent::{compare, expand, Comparison, GeneratorList, Record, Refusal};

fn graph(neighbours: &[u64]) -> GeneratorList {
    let record = Record {
        codes: vec![0; neighbours.len()],
        neighbours: neighbours.to_vec(),
        used: 0,
    };
    expand(&record).unwrap()
}

/// The first reduced graph, complemented at each vertex of the answer's list, is the second.
fn assert_leads(first: &GeneratorList, second: &GeneratorList, answer: &Comparison) {
    let graph = complemented(&reduced(first).neighbours, &answer.complementations);
    assert_eq!(graph, reduced(second).neighbours);
    assert!(2 * answer.complementations.len() <= 3 * first.n());
}

#[test]
fn path_and_star_are_not_equivalent() {
    let path = graph(&[2, 5, 10, 4]);
    let star = graph(&[14, 1, 1, 1]);
    assert_eq!(compare(&path, &star), Err(Refusal::Inequivalent));
    assert_eq!(compare(&star, &path), Err(Refusal::Inequivalent));
}

#[test]
fn one_qubit() {
    let choice = |a: &str, b: &str| compare(&of(&[a]), &of(&[b])).unwrap().choice;
    assert_eq!(choice("X", "X"), [0]);
    assert_eq!(choice("Z", "Y"), [12]);
    let to_y = compare(&of(&["Z"]), &of(&["Y"])).unwrap();
    assert_eq!(to_y.complementations, [0]);
    assert_eq!(choice("Y", "X"), [5]);
}

#[test]
fn twenty_one_qubits_give_3_as_one_part_and_pass_as_components() {
    let all = |n: usize| GeneratorList {
        signs: vec![0; n],
        z: vec![0; n],
        x: (0..n).map(|q| 1 << q).collect(),
    };
    let star = |n: usize| {
        let mut star = all(n);
        star.z = (0..n).map(|q| u64::from(q > 0)).collect();
        star.z[0] = (1 << n) - 2;
        star
    };
    for n in [20, 21, 64] {
        assert_eq!(compare(&all(n), &all(n)).unwrap().choice, vec![0; n]);
    }
    assert_eq!(compare(&star(20), &star(20)).unwrap().choice, [0; 20]);
    assert_eq!(compare(&star(21), &star(21)), Err(Refusal::Large));
    assert_eq!(compare(&all(3), &all(4)), Err(Refusal::Count));
}

/// The place of a choice in the order: classes first, qubit 0 first, then signs likewise.
fn order(choice: &[u8]) -> (Vec<u8>, Vec<u8>) {
    let part = |f: fn(&u8) -> u8| choice.iter().map(f).collect();
    (part(|c| c / 4), part(|c| c % 4))
}

/// Every choice of n codes, in order.
fn choices(n: usize) -> Vec<Vec<u8>> {
    let digit = |k: usize, q| (k / 24usize.pow(q) % 24) as u8;
    let mut all: Vec<Vec<u8>> = (0..24usize.pow(n as u32))
        .map(|k| (0..n as u32).map(|q| digit(k, q)).collect())
        .collect();
    all.sort_by_key(|choice| order(choice));
    all
}

/// The states on n qubits, one list for each reduced record.
fn states(n: usize, all: &[Vec<u8>]) -> HashMap<Record, GeneratorList> {
    let graphs = (0..1 << (n * (n - 1) / 2)).map(|k| graph(&numbered_graph(n, k)));
    let lists = graphs.flat_map(|of_graph| all.iter().map(move |c| sent(&of_graph, c)));
    lists.map(|given| (reduced(&given), given)).collect()
}

/// The answers of all pairs of a list with the states, against all choices.
fn assert_least(first: &GeneratorList, states: &HashMap<Record, GeneratorList>, all: &[Vec<u8>]) {
    let mut least: HashMap<Record, &Vec<u8>> = HashMap::new();
    for choice in all {
        least.entry(reduced(&sent(first, choice))).or_insert(choice);
    }
    for (record, second) in states {
        match (compare(first, second), least.get(record)) {
            (Ok(answer), Some(due)) => {
                assert_eq!(answer.choice, **due, "{first:?} {second:?}");
                assert_leads(first, second, &answer);
            }
            (Err(Refusal::Inequivalent), None) => {}
            other => panic!("{first:?} {second:?}: {other:?}"),
        }
    }
}

#[test]
fn every_pair_of_states_on_one_and_two_qubits_against_all_choices() {
    for (n, number) in [(1, 6), (2, 60)] {
        let all = choices(n);
        let states = states(n, &all);
        assert_eq!(states.len(), number);
        states
            .values()
            .for_each(|first| assert_least(first, &states, &all));
    }
}

#[test]
fn states_on_three_qubits_against_all_choices() {
    let all = choices(3);
    let states = states(3, &all);
    assert_eq!(states.len(), 1080);
    for seed in 0..20 {
        let first = list(&random_rows(&mut Random::new(20_000 + seed), 3));
        assert_least(&first, &states, &all);
    }
}

/// What the reduced record says of the letters alone.
fn letters(given: &GeneratorList) -> Record {
    let mut record = reduced(given);
    record.codes.iter_mut().for_each(|code| *code &= !2);
    record
}

/// The pairs of one graph with all graphs on n vertices, against all classes.
fn assert_least_classes(n: usize, k: usize) {
    let first = graph(&numbered_graph(n, k));
    let mut least: HashMap<Record, Vec<u8>> = HashMap::new();
    for c in 0..6usize.pow(n as u32) {
        let class = |q: usize| (c / 6usize.pow((n - 1 - q) as u32) % 6) as u8;
        let choice: Vec<u8> = (0..n).map(|q| 4 * class(q)).collect();
        least
            .entry(letters(&sent(&first, &choice)))
            .or_insert(choice);
    }
    for other in 0..1 << (n * (n - 1) / 2) {
        let second = graph(&numbered_graph(n, other));
        match (compare(&first, &second), least.get(&letters(&second))) {
            (Ok(answer), Some(due)) => {
                let classes: Vec<u8> = answer.choice.iter().map(|c| c & !3).collect();
                assert_eq!(classes, *due, "{n}: {k} {other}");
                assert_eq!(reduced(&sent(&first, &answer.choice)), reduced(&second));
                assert_leads(&first, &second, &answer);
            }
            (Err(Refusal::Inequivalent), None) => {}
            other => panic!("{n}: {k} {other:?}"),
        }
    }
}

#[test]
fn all_pairs_of_graphs_on_four_vertices_against_all_classes() {
    for n in 1..=4 {
        (0..1 << (n * (n - 1) / 2)).for_each(|k| assert_least_classes(n, k));
    }
}

#[test]
fn graphs_on_five_vertices_against_all_classes() {
    (0..1024)
        .step_by(41)
        .for_each(|k| assert_least_classes(5, k));
}

#[test]
fn a_choice_is_found_for_images_of_states() {
    for seed in 0..200 {
        let mut random = Random::new(11_000 + seed);
        let n = 1 + random.below(20);
        let first = list(&random_rows(&mut random, n));
        let choice: Vec<u8> = (0..n).map(|_| random.below(24) as u8).collect();
        let second = list(&mixed(&mut random, &rows(&sent(&first, &choice))));
        let answer = compare(&first, &second).unwrap();
        assert_eq!(
            reduced(&sent(&first, &answer.choice)),
            reduced(&second),
            "seed {seed}"
        );
        assert!(order(&answer.choice) <= order(&choice), "seed {seed}");
        assert_leads(&first, &second, &answer);
    }
}
