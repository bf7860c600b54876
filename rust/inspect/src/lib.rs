//! Safe functions over the exported inspection functions of the engine.
//! Letters are numbered 2z + x: 0 I, 1 X, 2 Z, 3 Y.

extern "C" {
    fn inspect_then(a: u8, b: u8) -> u8;
    fn inspect_inverse(a: u8) -> u8;
    fn inspect_image(a: u8, z: bool, x: bool) -> u8;
    fn inspect_bits(a: u8) -> u8;
    fn inspect_phase(z: u64, x: u64, z2: u64, x2: u64) -> u64;
    fn inspect_clashes(z: u64, x: u64, z2: u64, x2: u64) -> bool;
}

/// First a, then b; 24 where one of them is not a code.
pub fn then(a: u8, b: u8) -> u8 {
    unsafe { inspect_then(a, b) }
}

/// The inverse of a; 24 where a is not a code.
pub fn inverse(a: u8) -> u8 {
    unsafe { inspect_inverse(a) }
}

/// The sign and the letter of the image of a letter; `None` where a is not a code.
pub fn image(a: u8, letter: u8) -> Option<(bool, u8)> {
    match unsafe { inspect_image(a, letter & 2 != 0, letter & 1 != 0) } {
        8 => None,
        number => Some((number & 4 != 0, number & 3)),
    }
}

/// The bits C and D; `None` where a is not a code.
pub fn bits(a: u8) -> Option<(bool, bool)> {
    match unsafe { inspect_bits(a) } {
        8 => None,
        number => Some((number & 2 != 0, number & 1 != 0)),
    }
}

/// The power of i in the product of the letters of two rows.
pub fn phase(z: u64, x: u64, z2: u64, x2: u64) -> u64 {
    unsafe { inspect_phase(z, x, z2, x2) }
}

/// Whether two rows fail to commute.
pub fn clashes(z: u64, x: u64, z2: u64, x2: u64) -> bool {
    unsafe { inspect_clashes(z, x, z2, x2) }
}
