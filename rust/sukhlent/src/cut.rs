//! Cuts of the qubits into two sides.

use crate::{raw, Record, Refusal};

/// The entanglement between two sides of the qubits: the rank modulo 2 of the edges between the
/// side that the word marks, bit q for qubit q, and the other. An empty or full side gives 0. A side
/// may mark used qubits.
///
/// Refusals: 2, 4, 5 (also for a side with a bit outside of the qubits), 6, 7.
///
/// ```
/// use sukhlent::{cut, Record};
///
/// // The path 0 - 1 - 2 - 3, with any codes.
/// let path = Record {
///     neighbours: vec![0b0010, 0b0101, 0b1010, 0b0100],
///     codes: vec![0, 8, 4, 23],
///     used: 0,
/// };
/// assert_eq!(cut(&path, 0b0011)?, 1);
/// assert_eq!(cut(&path, 0b0101)?, 2);
/// # Ok::<(), sukhlent::Refusal>(())
/// ```
pub fn cut(record: &Record, side: u64) -> Result<usize, Refusal> {
    let ((n, words, codes, used), mut rank) = (record.lent(), 0);
    let number = raw::cut(n, words, codes, used, side, &mut rank);
    Refusal::unless_accepted(number).map(|()| rank as usize)
}
