//! Values of Pauli rows.

use crate::{raw, Record, Refusal};

impl Record {
    /// The expectation value of a Pauli row with sign plus: 1 where the row is in the group of the
    /// record, -1 where its negative is, 0 where neither is. At each qubit the bits (z, x) are 00 for
    /// I, 01 for X, 10 for Z, 11 for Y. The record need not be reduced, and the row may have letters
    /// at used qubits. The row with sign minus has the opposite value.
    ///
    /// Refusals: 2, 4, 5 (also for a row with a letter outside of the qubits), 6, 7.
    ///
    /// ```
    /// use sukhlent::{reduce, GeneratorList};
    ///
    /// // XX, ZZ: the Bell state, on which YY is -1.
    /// let bell: GeneratorList = "+XX\n+ZZ\n".parse()?;
    /// let bell = reduce(&bell)?;
    /// assert_eq!(bell.expectation(0b00, 0b11)?, 1);
    /// assert_eq!(bell.expectation(0b11, 0b11)?, -1);
    /// assert_eq!(bell.expectation(0b01, 0b00)?, 0);
    /// # Ok::<(), sukhlent::Refusal>(())
    /// ```
    pub fn expectation(&self, z: u64, x: u64) -> Result<i8, Refusal> {
        let ((n, words, codes, used), mut value) = (self.lent(), 0);
        let number = raw::expectation(n, words, codes, used, z, x, &mut value);
        Refusal::unless_accepted(number).map(|()| [1, -1, 0][usize::from(value)])
    }
}
