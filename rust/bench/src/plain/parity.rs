//! The measurement of a row in plain Rust: the record is expanded, the list changed and reduced.

use super::codes::Codes;
use super::reduce::reduced;
use super::{refusals, Row};

/// Whether two rows anticommute.
fn clashes(a: &Row, z: u64, x: u64) -> bool {
    ((a.z & x) ^ (a.x & z)).count_ones() & 1 == 1
}

/// Measures a row with a bit by lot, or answers the number of the refusal.
#[allow(clippy::too_many_arguments)]
pub fn measure_row(
    n: u64,
    neighbours: &mut [u64],
    codes: &mut [u8],
    used: u64,
    z: u64,
    x: u64,
    bit: u8,
    answer: &mut u8,
    determined: &mut u8,
) -> u8 {
    let refusal = refusals::of_used_record(n, neighbours, codes, used, z | x, &[]);
    if refusal != 0 || bit > 1 || used & (z | x) != 0 {
        return if refusal != 0 {
            refusal
        } else {
            6 + 10 * u8::from(bit < 2)
        };
    }
    let mut value = 2;
    super::expectation(n, neighbours, codes, used, z, x, &mut value);
    let images = Codes::new(codes);
    let mut rows = [Row::default(); 64];
    let rows = &mut rows[..neighbours.len()];
    for (j, row) in rows.iter_mut().enumerate() {
        *row = images.image(Row::new(false, neighbours[j], 1 << j));
    }
    (*answer, *determined) = (value, 1);
    if let Some(first) = rows.iter().position(|row| clashes(row, z, x)) {
        let by = rows[first];
        for row in rows.iter_mut().filter(|row| clashes(row, z, x)) {
            row.multiply(by);
        }
        rows[first] = Row::new(bit == 1, z, x);
        (*answer, *determined) = (bit, 0);
    }
    let (mut signs, mut zs, mut xs) = ([0; 64], [0; 64], [0; 64]);
    for (j, row) in rows.iter().enumerate() {
        (signs[j], zs[j], xs[j]) = (u8::from(row.is_minus()), row.z, row.x);
    }
    let n = rows.len();
    reduced(&signs[..n], &zs[..n], &xs[..n], neighbours, codes);
    0
}
