//! The images of a code.

use crate::row::Row;

/// The images of I, X, Z and XZ under a code, 4 * class + 2 * sx + sz, as rows at qubit 0.
pub fn images(code: u8) -> [Row; 4] {
    // The Paulis to which X and Z go, by class.
    let (x, z) = match code / 4 {
        0 => (1, 3),
        1 => (2, 3),
        2 => (3, 1),
        3 => (1, 2),
        4 => (2, 1),
        5 => (3, 2),
        _ => panic!("no code: {code}"),
    };
    let x = Row::single(x, 0).with_sign(code / 2 % 2);
    let z = Row::single(z, 0).with_sign(code % 2);
    let mut both = x;
    both.multiply(&z);
    [Row::IDENTITY, x, z, both]
}
