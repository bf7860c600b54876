//! The refusals that need no elimination.

use super::{odd, places};
use sukhlent::raw::Lent;

/// The refusals of a list, and of further buffers of n places, before that of dependent generators.
pub fn of_list((n, signs, z, x): Lent, others: &[usize]) -> u8 {
    if n == 0 || n > 64 {
        return 2;
    }
    let mut lengths = [signs.len(), z.len(), x.len()].into_iter();
    if lengths.any(|length| length as u64 != n) || others.iter().any(|&other| other as u64 != n) {
        return 4;
    }
    let all = u64::MAX >> (64 - n);
    if z.iter().chain(x).any(|word| word & !all != 0) {
        return 5;
    }
    if signs.iter().any(|&sign| sign > 1) {
        return 6;
    }
    let clash = |a: usize, b: usize| odd((z[a] & x[b]) ^ (x[a] & z[b]));
    if (0..n as usize).any(|a| (0..a).any(|b| clash(a, b))) {
        return 9;
    }
    0
}

/// The refusals of a record, and of further buffers of n places.
pub fn of_record(n: u64, neighbours: &[u64], codes: &[u8], others: &[usize]) -> u8 {
    if n == 0 || n > 64 {
        return 2;
    }
    let mut lengths = [neighbours.len(), codes.len()].into_iter();
    if lengths.any(|length| length as u64 != n) || others.iter().any(|&other| other as u64 != n) {
        return 4;
    }
    let all = u64::MAX >> (64 - n);
    if neighbours.iter().any(|word| word & !all != 0) {
        return 5;
    }
    if codes.iter().any(|&code| code > 23) {
        return 6;
    }
    if is_simple(neighbours) {
        return 0;
    }
    7
}

/// Whether no vertex of a graph is its own neighbour, and every edge is at both its ends: edge by edge
/// on a few vertices, else by the transposed words.
fn is_simple(neighbours: &[u64]) -> bool {
    let mut words = neighbours.iter().enumerate();
    if neighbours.len() <= FEW {
        let alone = |a: usize, b: usize| a == b || neighbours[b] >> a & 1 == 0;
        return !words.any(|(a, &word)| places(word).any(|b| alone(a, b)));
    }
    let mut columns = [0; 64];
    columns[..neighbours.len()].copy_from_slice(neighbours);
    transpose(&mut columns);
    let same = neighbours.iter().eq(&columns[..neighbours.len()]);
    same && !words.any(|(a, word)| word >> a & 1 == 1)
}

/// So many vertices are looked at edge by edge.
const FEW: usize = 12;

/// Exchanges the rows and columns of 64 words: halves of blocks, then halves of these, and so on.
fn transpose(rows: &mut [u64; 64]) {
    let (mut width, mut mask) = (32, u64::MAX >> 32);
    while width > 0 {
        for block in (0..64).step_by(2 * width) {
            for a in block..block + width {
                let changed = (rows[a] >> width ^ rows[a + width]) & mask;
                rows[a] ^= changed << width;
                rows[a + width] ^= changed;
            }
        }
        width /= 2;
        mask ^= mask << width;
    }
}

/// The refusals of a record with used qubits, of a further word, and of further buffers of n places.
pub fn of_used_record(
    n: u64,
    neighbours: &[u64],
    codes: &[u8],
    used: u64,
    word: u64,
    others: &[usize],
) -> u8 {
    let number = of_record(n, neighbours, codes, others);
    if number == 2 || number == 4 {
        return number;
    }
    if (used | word) & !(u64::MAX >> (64 - n)) != 0 {
        return 5;
    }
    let wrong = |q: usize| neighbours[q] != 0 || codes[q] >= 12 || codes[q] % 2 == 1;
    if number == 0 && places(used).any(wrong) {
        return 7;
    }
    number
}
