//! Products of rows in plain Rust.

use super::{places, Row};
use sukhlent::raw::Lent;

/// Writes the product of the chosen rows, or answers the number of the refusal.
pub fn product(
    (n, signs, z, x): Lent,
    chosen: u64,
    product_z: &mut u64,
    product_x: &mut u64,
    phase: &mut u8,
) -> u8 {
    if n == 0 || n > 64 {
        return 2;
    }
    if [signs.len(), z.len(), x.len()].map(|length| length as u64) != [n; 3] {
        return 4;
    }
    let all = u64::MAX >> (64 - n);
    if z.iter()
        .chain(x)
        .chain([&chosen])
        .any(|word| word & !all != 0)
    {
        return 5;
    }
    if signs.iter().any(|&sign| sign > 1) {
        return 6;
    }
    let mut found = Row::default();
    for j in places(chosen) {
        found.multiply(Row::new(signs[j] == 1, z[j], x[j]));
    }
    (*product_z, *product_x, *phase) = (found.z, found.x, found.phase_of_letters());
    0
}
