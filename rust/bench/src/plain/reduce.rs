//! The reduction in plain Rust: the refusals, then signed Gaussian elimination on words.

use super::refusals;
use super::row::Row;

/// The reduced record of a list, with no used qubit, or the number of the refusal.
pub fn reduce(
    n: u64,
    signs: &[u8],
    z: &[u64],
    x: &[u64],
    neighbours: &mut [u64],
    codes: &mut [u8],
    used: &mut u64,
) -> u8 {
    let refusal = refusals::of_list((n, signs, z, x), &[neighbours.len(), codes.len()]);
    if refusal != 0 {
        return refusal;
    }
    if !reduced(signs, z, x, neighbours, codes) {
        return 10;
    }
    *used = 0;
    0
}

/// Writes the reduced record of commuting generators, or answers that they are dependent.
pub fn reduced(
    signs: &[u8],
    z: &[u64],
    x: &[u64],
    neighbours: &mut [u64],
    codes: &mut [u8],
) -> bool {
    let n = signs.len();
    let mut rows = [Row::default(); 64];
    let rows = &mut rows[..n];
    for (j, row) in rows.iter_mut().enumerate() {
        *row = Row::new(signs[j] == 1, z[j], x[j]);
    }

    // The pivot rows come first; owner[q] is the pivot row of qubit q.
    let mut owner = [0; 64];
    let all = u64::MAX >> (64 - n);
    let kept = eliminate(rows, 0, all, &mut owner);
    let rank = kept.count_ones() as usize;
    let turned = all ^ kept;
    rows.iter_mut().for_each(|row| row.hadamards(turned));
    if eliminate(rows, rank, turned, &mut owner) != turned {
        return false;
    }
    for q in 0..n {
        let row = rows[owner[q]];
        neighbours[q] = row.z & !(1 << q);
        let y = (row.z >> q & 1) as u8;
        let hadamard = (turned >> q & 1) as u8;
        codes[q] = 8 * hadamard + 4 * y + 2 * u8::from(row.is_minus());
    }
    true
}

/// Makes a pivot of each column that has an x bit at or below row `rank`, and clears the column
/// from all other rows. The answer names the columns with a pivot.
fn eliminate(rows: &mut [Row], mut rank: usize, columns: u64, owner: &mut [usize; 64]) -> u64 {
    let mut pivots = 0;
    for q in (0..rows.len()).filter(|q| columns >> q & 1 == 1) {
        let Some(found) = (rank..rows.len()).find(|&k| rows[k].x >> q & 1 == 1) else {
            continue;
        };
        rows.swap(rank, found);
        let pivot = rows[rank];
        let column = rows.iter().enumerate();
        let mut others = column.fold(0, |word, (k, row)| word | (row.x >> q & 1) << k);
        others ^= 1 << rank;
        while others != 0 {
            rows[others.trailing_zeros() as usize].multiply(pivot);
            others &= others - 1;
        }
        owner[q] = rank;
        pivots |= 1 << q;
        rank += 1;
    }
    pivots
}
