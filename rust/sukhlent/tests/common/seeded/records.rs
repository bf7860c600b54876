//! Random records.

use random::Random;
use sukhlent::Record;

/// A record of n vertices: each edge with probability one half, and any codes.
pub fn random_record(random: &mut Random, n: usize) -> Record {
    let mut neighbours = vec![0u64; n];
    for (a, b) in (0..n).flat_map(|a| (0..a).map(move |b| (a, b))) {
        let bit = random.below(2) as u64;
        neighbours[a] |= bit << b;
        neighbours[b] |= bit << a;
    }
    Record {
        neighbours,
        codes: (0..n).map(|_| random.below(24) as u8).collect(),
        used: 0,
    }
}

/// A record of n vertices, each of them used with probability one in four, and any codes elsewhere.
pub fn random_used_record(random: &mut Random, n: usize) -> Record {
    let mut record = random_record(random, n);
    for q in 0..n {
        if random.below(4) == 0 {
            use_up(&mut record, q, 2 * random.below(6) as u8);
        }
    }
    record
}

/// Marks a vertex as used: it loses its neighbours and gets a code.
pub fn use_up(record: &mut Record, q: usize, code: u8) {
    isolate(&mut record.neighbours, q);
    record.codes[q] = code;
    record.used |= 1 << q;
}

/// Takes the edges at a vertex.
pub fn isolate(neighbours: &mut [u64], q: usize) {
    neighbours.iter_mut().for_each(|word| *word &= !(1 << q));
    neighbours[q] = 0;
}
