//! Comparison part by part: states on up to 64 qubits whose graphs fall into components.

use crate::common::local::{complemented, sent};
use crate::common::reference::{expanded, parts, reduced};
use crate::common::{list, mixed, random_components, random_sizes, rows, PairCall, Random};
use sukhlent::{compare, GeneratorList, Record, Refusal};

/// A state with components of these sizes, and mixed generators of its image under random codes.
fn pair(random: &mut Random, sizes: &[usize]) -> [GeneratorList; 2] {
    let first = expanded(&random_components(random, sizes));
    let choice: Vec<u8> = first.signs.iter().map(|_| random.below(24) as u8).collect();
    let [a, b] = [first.clone(), sent(&first, &choice)];
    [a, b].map(|given| list(&mixed(random, &rows(&given))))
}

/// The part of a record on some of its vertices, in their order.
fn component(record: &Record, vertices: &[usize]) -> GeneratorList {
    let word = |&a: &usize| {
        let bits = vertices.iter().enumerate();
        bits.fold(0, |w, (i, &b)| w | (record.neighbours[a] >> b & 1) << i)
    };
    expanded(&Record {
        neighbours: vertices.iter().map(word).collect(),
        codes: vertices.iter().map(|&a| record.codes[a]).collect(),
        used: 0,
    })
}

/// The answer has at the vertices of each part the least choice of the part alone, carries the one
/// state to the other, and its list leads from graph to graph.
fn assert_by_parts([first, second]: &[GeneratorList; 2]) {
    let answer = compare(first, second).unwrap();
    let [from, to] = [first, second].map(reduced);
    assert_eq!(parts(&from.neighbours), parts(&to.neighbours));
    for vertices in parts(&from.neighbours) {
        let alone = compare(&component(&from, &vertices), &component(&to, &vertices)).unwrap();
        let there: Vec<u8> = vertices.iter().map(|&q| answer.choice[q]).collect();
        assert_eq!(there, alone.choice, "{vertices:?}");
    }
    assert_eq!(reduced(&sent(first, &answer.choice)), to);
    let led = complemented(&from.neighbours, &answer.complementations);
    assert_eq!(led, to.neighbours);
    assert!(2 * answer.complementations.len() <= 3 * first.n());
}

#[test]
fn sixty_four_qubits_in_components() {
    for (seed, sizes) in [
        &[1; 64][..],
        &[2; 32],
        &[20, 20, 20, 4],
        &[20, 20, 20, 1, 1, 1, 1],
        &[16, 16, 16, 16],
        &[7, 13, 1, 20, 2, 2, 19],
    ]
    .into_iter()
    .enumerate()
    {
        assert_by_parts(&pair(&mut Random::new(seed as u64), sizes));
    }
}

#[test]
fn seeded_components_on_every_number_of_qubits() {
    for n in 1..=64 {
        for seed in 0..3 {
            let mut random = Random::new(64 * seed + n as u64);
            let largest = [3, 8, 20][seed as usize];
            let sizes = random_sizes(&mut random, n, largest);
            assert_by_parts(&pair(&mut random, &sizes));
        }
    }
}

/// A product of |+> on n qubits and a path through the first k of them.
fn path(n: usize, k: usize) -> GeneratorList {
    let around = |q: usize| {
        let next = if q + 1 < k { 2 << q } else { 0 };
        let last = if q > 0 && q < k { 1 << (q - 1) } else { 0 };
        next | last
    };
    GeneratorList {
        signs: vec![0; n],
        z: (0..n).map(around).collect(),
        x: (0..n).map(|q| 1 << q).collect(),
    }
}

#[test]
fn a_part_of_20_passes_and_one_of_21_gives_3() {
    for n in 20..=64 {
        assert!(compare(&path(n, 20), &path(n, 20)).is_ok(), "{n}");
        for k in (21..=64).filter(|&k| k <= n) {
            let large = path(n, k);
            assert_eq!(compare(&large, &large), Err(Refusal::Large), "{n} {k}");
        }
    }
}

#[test]
fn a_large_part_of_either_graph_gives_3_also_where_the_parts_differ() {
    for n in [21, 40, 64] {
        let [large, small] = [path(n, 21), path(n, 20)];
        assert_eq!(compare(&large, &small), Err(Refusal::Large));
        assert_eq!(compare(&small, &large), Err(Refusal::Large));
    }
}

#[test]
fn three_is_checked_after_lengths_and_after_the_lists() {
    let large = path(30, 25);
    let right = PairCall::on(&large, &large);
    assert_eq!(right.compare(), Err(3));
    for (choice, list) in [(29, 96), (31, 96), (30, 95), (30, 97), (0, 0)] {
        let call = PairCall {
            choice,
            list,
            ..right.clone()
        };
        assert_eq!(call.compare(), Err(4));
    }
    let mut stray = right.clone();
    stray.second.z[3] ^= 1 << 40;
    assert_eq!(stray.compare(), Err(5));
    let mut sign = right.clone();
    sign.first.signs[7] = 2;
    assert_eq!(sign.compare(), Err(6));
    let mut clash = right.clone();
    clash.second.z[0] ^= 1 << 5;
    assert_eq!(clash.compare(), Err(9));
    let mut dependent = right;
    (dependent.first.z[0], dependent.first.x[0]) = (dependent.first.z[1], dependent.first.x[1]);
    assert_eq!(dependent.compare(), Err(10));
}

#[test]
fn parts_that_differ_give_13() {
    let [ends, middle] = [[2, 1, 8, 4], [4, 8, 1, 2]].map(|neighbours: [u64; 4]| {
        expanded(&Record {
            neighbours: neighbours.to_vec(),
            codes: vec![0; 4],
            used: 0,
        })
    });
    for [a, b] in [[&ends, &middle], [&path(4, 4), &ends], [&path(4, 2), &ends]] {
        assert_eq!(compare(a, b), Err(Refusal::Inequivalent));
        assert_eq!(compare(b, a), Err(Refusal::Inequivalent));
    }
    for n in [21, 40, 64] {
        for k in 2..=20 {
            let answer = compare(&path(n, k), &path(n, k - 1));
            assert_eq!(answer, Err(Refusal::Inequivalent), "{n} {k}");
        }
    }
}

#[test]
fn one_component_that_is_not_equivalent_gives_13() {
    // Fifteen paths of four vertices and a star, against sixteen paths.
    let record = |star: usize| {
        let inner = |k: usize| {
            if k == star {
                [14, 1, 1, 1]
            } else {
                [2, 5, 10, 4]
            }
        };
        let words = (0..16).flat_map(|k| inner(k).map(move |word: u64| word << (4 * k)));
        expanded(&Record {
            neighbours: words.collect(),
            codes: vec![0; 64],
            used: 0,
        })
    };
    let paths = record(16);
    assert!(compare(&paths, &paths).is_ok());
    for star in 0..16 {
        assert_eq!(compare(&paths, &record(star)), Err(Refusal::Inequivalent));
        assert_eq!(compare(&record(star), &paths), Err(Refusal::Inequivalent));
    }
}

#[test]
fn the_same_components_on_other_qubits_give_13() {
    let mut random = Random::new(5);
    for _ in 0..50 {
        let record = random_components(&mut random, &[3, 4, 5]);
        let turned = |word: u64| (word << 1 | word >> 11) & 0xFFF;
        let mut neighbours: Vec<u64> = record.neighbours.iter().map(|&w| turned(w)).collect();
        neighbours.rotate_right(1);
        let moved = Record {
            neighbours,
            codes: record.codes.clone(),
            used: 0,
        };
        let same = parts(&record.neighbours) == parts(&moved.neighbours);
        let answer = compare(&expanded(&record), &expanded(&moved));
        assert!(same || answer == Err(Refusal::Inequivalent));
    }
}
