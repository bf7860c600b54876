//! Products of rows.

use crate::{raw, GeneratorList, Refusal};

/// A power of i in front of one letter per qubit.
///
/// ```
/// use sukhlent::{product, Product};
///
/// // XX times ZZ is -YY.
/// let found = product(&"+XX\n+ZZ\n".parse()?, 0b11)?;
/// assert_eq!(found, Product { phase: 2, z: 0b11, x: 0b11 });
/// # Ok::<(), sukhlent::Refusal>(())
/// ```
#[derive(Clone, Copy, Debug, PartialEq, Eq, Hash)]
pub struct Product {
    /// The exponent of i, 0 to 3.
    pub phase: u8,
    /// The qubits with letter Z or Y.
    pub z: u64,
    /// The qubits with letter X or Y.
    pub x: u64,
}

/// The product, in index order, of the rows of a list that a word chooses, bit j for row j. The
/// rows need neither commute nor be independent. The empty word gives the identity with phase 0.
///
/// Refusals: 2, 4, 5 (also for a word with a bit past the rows), 6.
///
/// ```
/// use sukhlent::{product, GeneratorList, Product};
///
/// // XI, YI: X times Y is iZ.
/// let rows = GeneratorList {
///     signs: vec![0, 0],
///     z: vec![0b00, 0b01],
///     x: vec![0b01, 0b01],
/// };
/// let (phase, z, x) = (1, 0b01, 0b00);
/// assert_eq!(product(&rows, 0b11)?, Product { phase, z, x });
/// # Ok::<(), sukhlent::Refusal>(())
/// ```
pub fn product(rows: &GeneratorList, chosen: u64) -> Result<Product, Refusal> {
    let lent = (rows.n() as u64, &*rows.signs, &*rows.z, &*rows.x);
    let (mut z, mut x, mut phase) = (0, 0, 0);
    let number = raw::product(lent, chosen, &mut z, &mut x, &mut phase);
    Refusal::unless_accepted(number).map(|()| Product { phase, z, x })
}
