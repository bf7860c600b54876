//! Connected parts of a graph.

/// The parts of a graph, each with its vertices in rising order, by their smallest vertices.
pub fn parts(neighbours: &[u64]) -> Vec<Vec<usize>> {
    let n = neighbours.len();
    // The smallest vertex known to be joined to each, lowered edge by edge until nothing changes.
    let mut smallest: Vec<usize> = (0..n).collect();
    let mut changed = true;
    while changed {
        changed = false;
        for (a, b) in (0..n).flat_map(|a| (0..n).map(move |b| (a, b))) {
            if neighbours[a] >> b & 1 == 1 && smallest[a] < smallest[b] {
                smallest[b] = smallest[a];
                changed = true;
            }
        }
    }
    let part = |a: usize| (0..n).filter(|&b| smallest[b] == a).collect();
    let heads = (0..n).filter(|&a| smallest[a] == a);
    heads.map(part).collect()
}
