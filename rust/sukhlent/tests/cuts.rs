//! Cuts: known ranks, plain elimination on up to 64 vertices, state vectors on few, and what keeps
//! the number.

use crate::common::reference::cut_rank;
use crate::common::vectors::state_of;
use crate::common::{random_record, Random, RecordCall};
use simulator::{Complex, State, TOLERANCE};
use sukhlent::{complement, cut, cz, gate, Record};

/// The record of a graph with these edges, with code 0 everywhere.
fn graph(n: usize, edges: impl IntoIterator<Item = (usize, usize)>) -> Record {
    let mut neighbours = vec![0; n];
    for (a, b) in edges {
        neighbours[a] |= 1 << b;
        neighbours[b] |= 1 << a;
    }
    Record {
        neighbours,
        codes: vec![0; n],
        used: 0,
    }
}

/// The vertices below n.
fn all(n: usize) -> u64 {
    u64::MAX >> (64 - n)
}

/// Every cut of n vertices.
fn sides(n: usize) -> std::ops::Range<u64> {
    0..1 << n
}

#[test]
fn an_edge_has_rank_1_between_its_ends() {
    let edge = graph(2, [(0, 1)]);
    assert_eq!(
        [0, 1, 2, 3].map(|side| cut(&edge, side)),
        [0, 1, 1, 0].map(Ok)
    );
}

#[test]
fn a_star_has_rank_1_across_every_cut() {
    let star = graph(6, (1..6).map(|leaf| (0, leaf)));
    let inner = sides(6).filter(|&side| side != 0 && side != all(6));
    inner.for_each(|side| assert_eq!(cut(&star, side), Ok(1), "{side:b}"));
}

#[test]
fn a_ring_of_five_has_rank_2_across_every_cut_of_two() {
    let ring = graph(5, (0..5).map(|q| (q, (q + 1) % 5)));
    for side in sides(5) {
        let smaller = side.count_ones().min(5 - side.count_ones());
        assert_eq!(cut(&ring, side), Ok(smaller as usize), "{side:b}");
    }
}

#[test]
fn thirty_two_pairs_on_64_vertices() {
    let pairs = graph(64, (0..32).map(|q| (2 * q, 2 * q + 1)));
    let odd = 0xaaaa_aaaa_aaaa_aaaa;
    assert_eq!(cut(&pairs, odd), Ok(32));
    assert_eq!(cut(&pairs, all(32)), Ok(0));
    (0..=32).for_each(|k| assert_eq!(cut(&pairs, odd & ((1 << k) - 1)), Ok(k / 2)));
    // Every edge between the halves: equal columns.
    let halves = (0..32).flat_map(|a| (32..64).map(move |b| (a, b)));
    let complete = graph(64, halves);
    assert_eq!(cut(&complete, all(32)), Ok(1));
    assert_eq!(cut(&complete, odd), Ok(2));
}

#[test]
fn empty_and_full_sides_give_0() {
    for n in 1..=64 {
        let record = random_record(&mut Random::new(n as u64), n);
        assert_eq!([0, all(n)].map(|side| cut(&record, side)), [Ok(0), Ok(0)]);
    }
}

#[test]
fn records_on_up_to_64_vertices_against_plain_elimination() {
    let mut seen = [false; 33];
    for seed in 0..2000 {
        let mut random = Random::new(70_000 + seed);
        let n = 1 + random.below(64);
        let mut record = random_record(&mut random, n);
        // Repeated columns make some ranks small.
        for _ in 0..random.below(2 * n) {
            let (a, b) = (random.below(n), random.below(n));
            copy_neighbours(&mut record, a, b);
        }
        let side = random.word() & all(n);
        let rank = RecordCall::cut_of(&record, side).cut().unwrap();
        assert_eq!(rank, cut_rank(&record.neighbours, side), "seed {seed}");
        assert_eq!(cut(&record, side), Ok(rank as usize), "seed {seed}");
        assert_eq!(
            cut(&record, all(n) ^ side),
            Ok(rank as usize),
            "seed {seed}"
        );
        seen[rank as usize] = true;
    }
    let missing: Vec<usize> = (0..25).filter(|&rank| !seen[rank]).collect();
    assert_eq!(missing, [], "ranks that no cut had");
}

/// Gives vertex b the neighbours of vertex a, a and b apart.
fn copy_neighbours(record: &mut Record, a: usize, b: usize) {
    for q in (0..record.n()).filter(|&q| q != a && q != b) {
        let differ = (record.neighbours[a] ^ record.neighbours[b]) >> q & 1;
        record.neighbours[b] ^= differ << q;
        record.neighbours[q] ^= differ << b;
    }
}

/// The Schmidt rank of a state across a cut: the rank of the amplitudes, with a row for each value
/// of the marked qubits and a column for each value of the others.
fn schmidt_rank(state: &State, side: u64) -> usize {
    let side = side as usize;
    let indices = 0..1 << state.n();
    let rows = indices.clone().filter(|y| y & !side == 0);
    let columns: Vec<usize> = indices.filter(|y| y & side == 0).collect();
    let row = |y: usize| columns.iter().map(move |z| state.amplitudes()[y | z]);
    rank(rows.map(|y| row(y).collect()).collect())
}

/// The rank of a matrix, by elimination with the largest entry of all as the next pivot.
fn rank(mut rows: Vec<Vec<Complex>>) -> usize {
    let mut rank = 0;
    loop {
        let places = (0..rows.len()).flat_map(|a| (0..rows[a].len()).map(move |b| (a, b)));
        let size = |&(a, b): &(usize, usize)| rows[a][b].norm_sqr();
        let largest = places.max_by(|p, q| size(p).total_cmp(&size(q)));
        let Some((a, b)) = largest.filter(|p| size(p).sqrt() > TOLERANCE) else {
            return rank;
        };
        let pivot = rows.swap_remove(a);
        let inverse = pivot[b].conj().scale(1.0 / pivot[b].norm_sqr());
        for row in &mut rows {
            let factor = row[b] * inverse;
            for (entry, &above) in row.iter_mut().zip(&pivot) {
                *entry = *entry - factor * above;
            }
        }
        rank += 1;
    }
}

#[test]
fn the_schmidt_rank_of_the_state_is_two_to_the_rank() {
    for seed in 0..200 {
        let mut random = Random::new(71_000 + seed);
        let n = 1 + random.below(6);
        let record = random_record(&mut random, n);
        let state = state_of(&record);
        for side in sides(n) {
            let rank = cut(&record, side).unwrap();
            assert_eq!(
                schmidt_rank(&state, side),
                1 << rank,
                "seed {seed}, {side:b}"
            );
        }
    }
}

/// One call that acts on the sides of a cut apart: a gate, CZ inside a side, or a complement, which
/// keeps the group.
fn step_apart(random: &mut Random, record: &mut Record, side: u64) {
    let n = record.n();
    let (a, b) = random.pair_below(n);
    let done = match random.below(3) {
        0 => gate(record, a, random.below(24) as u8),
        1 if (side >> a ^ side >> b) & 1 == 0 => cz(record, a, b),
        _ => complement(record, a),
    };
    assert_eq!(done, Ok(()));
}

#[test]
fn gates_cz_inside_a_side_and_complements_keep_the_number() {
    for seed in 0..300 {
        let mut random = Random::new(72_000 + seed);
        let n = 2 + random.below(63);
        let mut record = random_record(&mut random, n);
        let side = random.word() & all(n);
        let before = cut(&record, side);
        for _ in 0..20 {
            step_apart(&mut random, &mut record, side);
            assert_eq!(cut(&record, side), before, "seed {seed}: {record:?}");
        }
    }
}

#[test]
fn cz_between_the_sides_changes_the_number_by_at_most_1() {
    let mut changed = 0;
    for seed in 0..300 {
        let mut random = Random::new(73_000 + seed);
        let n = 2 + random.below(9);
        let mut record = random_record(&mut random, n);
        let (a, b) = random.pair_below(n);
        let side = (random.word() & all(n) | 1 << a) & !(1 << b);
        let before = cut(&record, side).unwrap();
        cz(&mut record, a, b).unwrap();
        let after = cut(&record, side).unwrap();
        assert!(
            before.abs_diff(after) <= 1,
            "seed {seed}: {before}, {after}"
        );
        changed += before.abs_diff(after);
    }
    assert!(changed > 20, "{changed}");
}
