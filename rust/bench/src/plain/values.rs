//! What is read off a record in plain Rust: its generators, and the value of a row.

use super::codes::Codes;
use super::{places, refusals, Row};

/// Writes the generators of a record, or answers the number of the refusal.
pub fn expand(
    n: u64,
    neighbours: &[u64],
    codes: &[u8],
    used: u64,
    signs: &mut [u8],
    z: &mut [u64],
    x: &mut [u64],
) -> u8 {
    let others = [signs.len(), z.len(), x.len()];
    let refusal = refusals::of_used_record(n, neighbours, codes, used, 0, &others);
    if refusal != 0 {
        return refusal;
    }
    let codes = Codes::new(codes);
    for (j, &around) in neighbours.iter().enumerate() {
        let row = codes.image(Row::new(false, around, 1 << j));
        (signs[j], z[j], x[j]) = (u8::from(row.is_minus()), row.z, row.x);
    }
    0
}

/// Writes the value of a row on a record, or answers the number of the refusal. The codes are undone
/// for the x bits alone; the element that they choose is sent through the codes and compared.
pub fn expectation(
    n: u64,
    neighbours: &[u64],
    codes: &[u8],
    used: u64,
    z: u64,
    x: u64,
    value: &mut u8,
) -> u8 {
    let refusal = refusals::of_used_record(n, neighbours, codes, used, z | x, &[]);
    if refusal != 0 {
        return refusal;
    }
    let codes = Codes::new(codes);
    let (_, chosen) = codes.inverse().letters(z, x);
    let mut element = Row::default();
    for j in places(chosen) {
        element.multiply(Row::new(false, neighbours[j], 1 << j));
    }
    let image = codes.image(element);
    *value = match (image.z, image.x) == (z, x) {
        true => u8::from(image.is_minus()),
        false => 2,
    };
    0
}
