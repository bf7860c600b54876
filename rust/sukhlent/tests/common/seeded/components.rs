//! Records whose graphs fall into components.

use random::Random;
use sukhlent::Record;

/// A record with components of these sizes: their vertices lie anywhere among the qubits, a path leads
/// through each, further edges have probability one half, and the codes are any.
pub fn random_components(random: &mut Random, sizes: &[usize]) -> Record {
    let n: usize = sizes.iter().sum();
    let mut order: Vec<usize> = (0..n).collect();
    (1..n).for_each(|k| order.swap(k, random.below(k + 1)));
    let mut neighbours = vec![0u64; n];
    let mut rest = &order[..];
    for &size in sizes {
        let (component, others) = rest.split_at(size);
        for (i, j) in (0..size).flat_map(|i| (0..i).map(move |j| (i, j))) {
            let edge = i == j + 1 || random.below(2) == 0;
            neighbours[component[i]] |= u64::from(edge) << component[j];
            neighbours[component[j]] |= u64::from(edge) << component[i];
        }
        rest = others;
    }
    Record {
        neighbours,
        codes: (0..n).map(|_| random.below(24) as u8).collect(),
        used: 0,
    }
}

/// Sizes of components, each at most the largest, on n qubits in all.
pub fn random_sizes(random: &mut Random, n: usize, largest: usize) -> Vec<usize> {
    let mut sizes = Vec::new();
    let mut rest = n;
    while rest > 0 {
        let size = 1 + random.below(largest.min(rest));
        sizes.push(size);
        rest -= size;
    }
    sizes
}
