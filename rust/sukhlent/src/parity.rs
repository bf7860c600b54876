//! Measurements of Pauli rows of any weight: parities, joint measurements.

use crate::{raw, Measured, Record, Refusal};

impl Record {
    /// Measures a Pauli row of any weight, sign plus, with a bit by lot; the record becomes the reduced
    /// one, and no qubit is used up. At each qubit the bits of `z` and `x` are 00 for I, 01 for X, 10
    /// for Z, 11 for Y.
    ///
    /// The outcome is the bit (1 for minus) where the state does not determine it, and otherwise the
    /// state's sign, whatever the bit.
    ///
    /// Refusals: 2, 4, 5 (also for a row with a letter at or above n), 6 (also for a bit above 1), 7,
    /// 16 for a row that acts on a used qubit.
    ///
    /// ```
    /// use sukhlent::{Measured, Record};
    ///
    /// // A parity check repeated: by lot the first time, and the same the second time.
    /// let mut record = Record::zeros(3);
    /// let first = record.measure_row(0b000, 0b011, 1)?;
    /// assert_eq!(first, Measured { outcome: 1, determined: false });
    /// let second = record.measure_row(0b000, 0b011, 0)?;
    /// assert_eq!(second, Measured { outcome: 1, determined: true });
    /// assert_eq!(record.used, 0);
    /// # Ok::<(), sukhlent::Refusal>(())
    /// ```
    pub fn measure_row(&mut self, z: u64, x: u64, bit: u8) -> Result<Measured, Refusal> {
        let n = self.n() as u64;
        let (mut outcome, mut determined) = (0, 0);
        let number = raw::measure_row(
            n,
            &mut self.neighbours,
            &mut self.codes,
            self.used,
            z,
            x,
            bit,
            &mut outcome,
            &mut determined,
        );
        Measured::unless_refused(number, outcome, determined)
    }
}
