//! Steps of jobs whose op is pivot: an accepted one leaves what complement calls at a, b and a leave, on one line; any
//! other prints its refusal and changes nothing.

use crate::common::local::complemented_record;
use crate::common::process::{run_job, Step};
use crate::common::reference::{cut_rank, expanded, reduced};
use crate::common::Random;
use sukhlent::{complement, Record};

/// The record that a job leaves, and the line of its last step without the step's number.
fn last(n: usize, steps: &[Step]) -> (String, Record) {
    let (lines, record) = run_job(n, steps);
    let line = lines.last().expect("a step");
    let (_, answer) = line.split_once(' ').expect("fields");
    (answer.to_string(), record)
}

/// The job with one step more.
fn with(steps: &[Step], step: Step) -> Vec<Step> {
    [steps, &[step]].concat()
}

/// A Hadamard on each qubit, and then random steps that are mostly accepted: edges, codes of every kind by complements,
/// and few measurements.
fn prefix(random: &mut Random, n: usize) -> Vec<Step> {
    let hadamards = (0..n).map(|q| ("gate", q, 0, 8));
    let joins = (0..3 * n).map(|_| match random.below(8) {
        0 => ("gate", random.below(n), 0, random.below(24)),
        1 => ("measure", random.below(4 * n), 0, random.below(6)),
        2 => ("complement", random.below(n), 0, 0),
        _ => ("cz", random.below(n), random.below(n), 0),
    });
    let joins: Vec<Step> = joins.collect();
    let complements = (0..4).map(|_| ("complement", random.below(n), 0, 0));
    hadamards.chain(joins).chain(complements).collect()
}

/// Two vertices with an edge, where there are any.
fn an_edge(random: &mut Random, record: &Record) -> Option<(usize, usize)> {
    let n = record.n();
    let pairs = (0..n).flat_map(|a| (0..n).map(move |b| (a, b)));
    let edges: Vec<_> = pairs
        .filter(|&(a, b)| record.neighbours[a] >> b & 1 == 1)
        .collect();
    (!edges.is_empty()).then(|| edges[random.below(edges.len())])
}

/// The record after complement calls at these vertices, and the same by document 01's text.
fn complemented(record: &Record, vertices: [usize; 3]) -> Record {
    let mut called = record.clone();
    for v in vertices {
        assert_eq!(complement(&mut called, v), Ok(()));
    }
    let by_text = vertices
        .into_iter()
        .fold(record.clone(), |r, v| complemented_record(&r, v));
    assert_eq!(called, by_text);
    called
}

#[test]
fn an_accepted_pivot_step_leaves_what_three_complement_calls_leave() {
    let (mut tried, mut with_used) = (0, 0);
    for seed in 0..400 {
        let mut random = Random::new(31_000 + seed);
        let n = 2 + random.below(63);
        let steps = prefix(&mut random, n);
        let (_, given) = run_job(n, &steps);
        let Some((a, b)) = an_edge(&mut random, &given) else {
            continue;
        };
        let [there, back] = [(a, b), (b, a)].map(|(a, b)| {
            let (line, left) = last(n, &with(&steps, ("pivot", a, b, 0)));
            assert_eq!(line, "0 0 0", "seed {seed}");
            assert_eq!(left, complemented(&given, [a, b, a]), "seed {seed}");
            left
        });
        assert_eq!(there, back, "seed {seed}: the order of the ends");
        assert_kept(&given, &there, random.word());
        tried += 1;
        with_used += usize::from(given.used != 0);
    }
    assert!(tried > 300 && with_used > 100, "{tried}, {with_used}");
}

/// The group, the rank across a cut, and the used vertices are as they were.
fn assert_kept(before: &Record, after: &Record, side: u64) {
    let [old, new] = [before, after].map(expanded);
    assert_eq!(reduced(&old), reduced(&new));
    let side = side & (u64::MAX >> (64 - before.n()));
    let ranks = [before, after].map(|record| cut_rank(&record.neighbours, side));
    assert_eq!(ranks[0], ranks[1], "{side:b}");
    assert_eq!(before.used, after.used);
    for q in (0..before.n()).filter(|q| before.used >> q & 1 == 1) {
        assert_eq!(after.neighbours[q], 0, "{q}");
        assert_eq!(after.codes[q], before.codes[q], "{q}");
    }
}

#[test]
fn a_job_with_pivots_ends_as_the_one_with_complements_in_their_place() {
    let mut pivots = 0;
    for seed in 0..60 {
        let mut random = Random::new(32_000 + seed);
        let n = 2 + random.below(63);
        let (mut short, mut long) = (prefix(&mut random, n), Vec::new());
        long.extend(short.iter().copied());
        for _ in 0..6 {
            let (_, record) = run_job(n, &short);
            let Some((a, b)) = an_edge(&mut random, &record) else {
                break;
            };
            let next = ("cz", random.below(n), random.below(n), 0);
            short.extend([("pivot", a, b, 0), next]);
            let complements = [a, b, a].map(|v| ("complement", v, 0, 0));
            long.extend(complements.into_iter().chain([next]));
            pivots += 1;
        }
        let (answer, record) = run_job(n, &short);
        assert_eq!(answer.len(), short.len(), "one line for each step");
        assert_eq!(record, run_job(n, &long).1, "seed {seed}");
    }
    assert!(pivots > 200, "{pivots}");
}

#[test]
fn a_pivot_on_an_edge_alone_exchanges_x_and_z() {
    // First 13, 6 and 13 at qubit 0; 6, 13 and 6 at qubit 1: X goes to Z up to signs.
    let edge = [("gate", 0, 0, 8), ("gate", 1, 0, 8), ("cz", 0, 1, 0)];
    let (_, before) = run_job(2, &edge);
    assert_eq!(
        (&before.neighbours[..], &before.codes[..]),
        (&[2, 1][..], &[0, 0][..])
    );
    let (line, left) = last(2, &with(&edge, ("pivot", 0, 1, 0)));
    assert_eq!(line, "0 0 0");
    assert_eq!(left.neighbours, [2, 1]);
    assert!(left.codes.iter().all(|code| code / 4 == 2), "{left:?}");
    assert_eq!(reduced(&expanded(&left)), before);
}

/// 6 where the value is not 0, 8 where the pair has no edge of the record.
fn due(record: &Record, a: usize, b: usize, value: usize) -> u8 {
    let n = record.n();
    let edge = a < n && b < n && record.neighbours[a] >> b & 1 == 1;
    match (value, edge) {
        (1.., _) => 6,
        (0, false) => 8,
        (0, true) => 0,
    }
}

#[test]
fn every_pair_is_accepted_exactly_where_it_has_an_edge() {
    let mut counts = [0; 9];
    for n in [1, 2, 3, 8, 64] {
        let mut random = Random::new(33_000 + n as u64);
        let steps = prefix(&mut random, n);
        let (_, given) = run_job(n, &steps);
        let bound = if n == 64 { 8 } else { n };
        let beyond = [n, n + 1, 64, 65, 128, 256, 999];
        let numbers = || (0..bound).chain(beyond).filter(|q| *q < bound || *q >= n);
        for (a, b) in numbers().flat_map(|a| numbers().map(move |b| (a, b))) {
            for value in [0, 1].into_iter().take(1 + usize::from(a % 3 == 0)) {
                let number = due(&given, a, b, value);
                let (line, left) = last(n, &with(&steps, ("pivot", a, b, value)));
                assert_eq!(line, format!("{number} 0 0"), "{n}: {a} {b} {value}");
                if number != 0 {
                    assert_eq!(left, given, "{n}: {a} {b} {value}");
                }
                counts[usize::from(number)] += 1;
            }
        }
    }
    assert!([0, 6, 8].iter().all(|&k| counts[k] > 10), "{counts:?}");
}

#[test]
fn a_pivot_step_on_a_used_qubit_is_8_always() {
    let mut tried = 0;
    for seed in 0..40 {
        let mut random = Random::new(34_000 + seed);
        let n = 2 + random.below(7);
        let mut steps = prefix(&mut random, n);
        steps.push(("measure", random.below(n), 0, 4));
        steps.push(("measure", random.below(n), 0, 1));
        let (_, given) = run_job(n, &steps);
        for q in (0..n).filter(|q| given.used >> q & 1 == 1) {
            let other = random.below(n);
            for (a, b) in [(q, other), (other, q)] {
                let (line, left) = last(n, &with(&steps, ("pivot", a, b, 0)));
                assert_eq!(line, "8 0 0", "seed {seed}: {a} {b}");
                assert_eq!(left, given, "seed {seed}");
                tried += 1;
            }
        }
    }
    assert!(tried > 60, "{tried}");
}
