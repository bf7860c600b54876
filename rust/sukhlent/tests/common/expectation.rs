//! Values of Pauli rows on records, on guarded buffers of any lengths and contents.

use super::calls::RecordCall;
use super::guarded::Guarded;
use super::reference;
use sukhlent::{raw, Record};

/// The two words of a Pauli row with sign plus.
#[derive(Clone, Copy, Debug)]
pub struct Letters {
    pub z: u64,
    pub x: u64,
}

impl RecordCall<Letters> {
    /// The call on a record and a row.
    pub fn row_of(record: &Record, z: u64, x: u64) -> RecordCall<Letters> {
        RecordCall::with(record, Letters { z, x })
    }

    /// The value that the call writes, or the number of its refusal.
    ///
    /// Asserts that the record and all guards keep their contents, and on a refusal the value too.
    pub fn expectation(&self) -> Result<u8, u8> {
        let mut neighbours = Guarded::holding(&self.neighbours);
        let mut codes = Guarded::holding(&self.codes);
        let mut value = Guarded::patterned(1);
        let number = raw::expectation(
            self.n,
            neighbours.lent(),
            codes.lent(),
            self.used,
            self.with.z,
            self.with.x,
            &mut value.lent()[0],
        );
        neighbours.assert_unchanged("neighbours");
        codes.assert_unchanged("codes");
        if number != 0 {
            value.assert_unchanged("value");
            return Err(number);
        }
        Ok(value.answer("value")[0])
    }

    /// The number due to the record and the row.
    pub fn due(&self) -> u8 {
        reference::expectation_refusal(self.n, &self.record(), self.with.z, self.with.x)
    }
}
