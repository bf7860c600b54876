//! What changes or reads a record's graph in plain Rust: complementation, and the rank of a cut.

use super::{places, refusals};

/// The code of 13 and then each code.
const AFTER_13: [u8; 24] = [
    13, 12, 14, 15, 16, 17, 19, 18, 20, 21, 23, 22, 0, 1, 3, 2, 5, 4, 6, 7, 9, 8, 10, 11,
];
/// The code of 6 and then each code.
const AFTER_6: [u8; 24] = [
    6, 5, 4, 7, 0, 3, 2, 1, 16, 19, 18, 17, 20, 23, 22, 21, 10, 9, 8, 11, 14, 13, 12, 15,
];

/// Complements at a vertex, or answers the number of the refusal.
pub fn complement(n: u64, neighbours: &mut [u64], codes: &mut [u8], used: u64, a: u64) -> u8 {
    let refusal = refusals::of_used_record(n, neighbours, codes, used, 0, &[]);
    if refusal != 0 {
        return refusal;
    }
    if a >= n {
        return 8;
    }
    if used >> a & 1 == 1 {
        return 16;
    }
    let around = neighbours[a as usize];
    for b in places(around) {
        neighbours[b] ^= around & !(1 << b);
        codes[b] = AFTER_6[usize::from(codes[b])];
    }
    let code = &mut codes[a as usize];
    *code = AFTER_13[usize::from(*code)];
    0
}

/// Writes the rank modulo 2 of the edges between a side and the other, or answers the number of the
/// refusal. Each row is reduced by those that were kept before, found by their lowest bits.
pub fn cut(n: u64, neighbours: &[u64], codes: &[u8], used: u64, side: u64, rank: &mut u64) -> u8 {
    let refusal = refusals::of_used_record(n, neighbours, codes, used, side, &[]);
    if refusal != 0 {
        return refusal;
    }
    let mut kept = [0; 64];
    let mut count = 0;
    for j in places(side) {
        let mut row = neighbours[j] & !side;
        while row != 0 {
            let other = &mut kept[row.trailing_zeros() as usize];
            if *other == 0 {
                *other = row;
                count += 1;
                break;
            }
            row ^= *other;
        }
    }
    *rank = count;
    0
}
