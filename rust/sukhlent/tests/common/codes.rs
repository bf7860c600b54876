//! The images of a code.

use super::seeded::pauli::{letter_product, I, X, Y, Z};

/// The phase and the letter to which a code sends a letter; phase 2 is minus.
pub fn image(code: u8, letter: u8) -> (u8, u8) {
    let (to_x, to_z) = images(code);
    match letter {
        I => (0, I),
        X => to_x,
        Z => to_z,
        _ => {
            // Y goes to i times the image of X times the image of Z.
            let (turn, product) = letter_product(to_x.1, to_z.1);
            ((1 + to_x.0 + to_z.0 + turn) % 4, product)
        }
    }
}

/// The phases and letters to which a code sends X and Z.
pub fn images(code: u8) -> ((u8, u8), (u8, u8)) {
    let (x, z) = match code / 4 {
        0 => (X, Z),
        1 => (Y, Z),
        2 => (Z, X),
        3 => (X, Y),
        4 => (Y, X),
        5 => (Z, Y),
        _ => panic!("not a code: {code}"),
    };
    ((2 * (code / 2 % 2), x), (2 * (code % 2), z))
}
