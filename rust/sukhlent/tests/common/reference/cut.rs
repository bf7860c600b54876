//! The rank of the edges across a cut.

/// The rank modulo 2 of the matrix with a row for each marked vertex and a column for each other
/// one, 1 where the two have an edge.
pub fn cut_rank(neighbours: &[u64], side: u64) -> u64 {
    let (marked, others): (Vec<usize>, Vec<usize>) =
        (0..neighbours.len()).partition(|q| side >> q & 1 == 1);
    let edges = |a: usize| others.iter().map(move |b| neighbours[a] >> b & 1 == 1);
    let mut rows: Vec<Vec<bool>> = marked.iter().map(|&a| edges(a).collect()).collect();
    let mut rank = 0;
    while let Some(row) = rows.pop() {
        // A place that this row has: clear it from all the others.
        if let Some(lead) = row.iter().position(|&bit| bit) {
            rank += 1;
            for other in rows.iter_mut().filter(|other| other[lead]) {
                other.iter_mut().zip(&row).for_each(|(a, b)| *a ^= b);
            }
        }
    }
    rank
}
