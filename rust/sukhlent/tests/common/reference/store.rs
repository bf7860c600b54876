//! Stores of named states, by document 02's text.

use super::record_refusal;
use sukhlent::Record;

/// The first line, of 2, 4, 5, 6 and 7, that is true of a store: of one of its held records, of a
/// length, or of two equal names. `others`: a further buffer has a wrong length.
pub fn store_refusal(heads: &[u64], neighbours: &[u64], codes: &[u8], others: bool) -> u8 {
    let word = |at: usize| heads.get(at).copied().unwrap_or(0);
    let held: Vec<usize> = (0..8).filter(|i| word(3 * i) != 0).collect();
    if held.iter().any(|i| word(3 * i) > 64) {
        return 2;
    }
    if others || heads.len() != 24 || neighbours.len() != 512 || codes.len() != 512 {
        return 4;
    }
    let number = |&i: &usize| {
        let n = heads[3 * i] as usize;
        let record = Record {
            neighbours: neighbours[64 * i..64 * i + n].to_vec(),
            codes: codes[64 * i..64 * i + n].to_vec(),
            used: heads[3 * i + 2],
        };
        record_refusal(n as u64, &record, &[])
    };
    let first = held.iter().map(number).filter(|&k| k != 0).min();
    let name = |&i: &usize| heads[3 * i + 1];
    let twice = held
        .iter()
        .any(|i| held.iter().any(|j| i < j && name(i) == name(j)));
    first.unwrap_or(if twice { 7 } else { 0 })
}
