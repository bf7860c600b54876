//! Values of rows on the record of a session.

use crate::common::Random;
use sukhlent::{raw, Record};
use tableau::{Row, Tableau};

/// The rows asked after each call.
pub const ROWS: usize = 6;

/// The words of a row: of letters anywhere, of one or two letters, or of an element of the group.
pub fn words(random: &mut Random, tableau: &Tableau, kind: usize) -> (u64, u64) {
    let n = tableau.n();
    let mut letter = || 1u64 << random.below(n);
    match kind % 3 {
        0 => (random.word() >> (64 - n), random.word() >> (64 - n)),
        1 => (letter() ^ letter(), letter() ^ letter()),
        _ => {
            let mut product = Row::IDENTITY;
            for generator in tableau.generators() {
                if random.below(2) == 1 {
                    product.multiply(generator);
                }
            }
            (product.z, product.x)
        }
    }
}

/// What the call answers for the row with these words on a record: 0 plus, 1 minus, 2 neither. The
/// error names a refusal.
pub fn answered(record: &Record, z: u64, x: u64) -> Result<u8, String> {
    let mut value = 0xa5;
    let (n, used) = (record.n() as u64, record.used);
    match raw::expectation(n, &record.neighbours, &record.codes, used, z, x, &mut value) {
        0 => Ok(value),
        number => Err(format!("refused by {number}")),
    }
}
