//! Products of chosen rows, letter by letter.

use crate::common::seeded::{rows, Pauli};
use sukhlent::{GeneratorList, Product};

/// The product of the rows that the word chooses, the row with the lowest index first.
pub fn product(list: &GeneratorList, chosen: u64) -> Product {
    let mut product = Pauli::identity(list.n());
    for (j, row) in rows(list).iter().enumerate() {
        if chosen >> j & 1 == 1 {
            product = product.times(row);
        }
    }
    let word = |bit: u8| {
        let places = product.letters.iter().enumerate();
        places.fold(0, |w, (q, l)| w | u64::from(l & bit != 0) << q)
    };
    Product {
        phase: product.phase,
        z: word(2),
        x: word(1),
    }
}
