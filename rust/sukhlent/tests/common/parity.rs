//! Measurements of Pauli rows, on guarded buffers of any lengths and contents.

use super::calls::RecordCall;
use super::guarded::Guarded;
use super::in_place::measured;
use super::reference;
use sukhlent::{raw, Measured, Record};

/// The two words of a Pauli row with sign plus, and a bit by lot.
#[derive(Clone, Copy, Debug)]
pub struct Joint {
    pub z: u64,
    pub x: u64,
    pub bit: u8,
}

impl RecordCall<Joint> {
    /// The record that the call leaves and what it measures, or the number of its refusal.
    ///
    /// Asserts that all guards keep their contents, and on a refusal the buffers too.
    pub fn measure_row(&self) -> Result<(Record, Measured), u8> {
        let mut neighbours = Guarded::holding(&self.neighbours);
        let mut codes = Guarded::holding(&self.codes);
        let mut answer = Guarded::patterned(1);
        let mut determined = Guarded::patterned(1);
        let Joint { z, x, bit } = self.with;
        let answers = (&mut answer.lent()[0], &mut determined.lent()[0]);
        let (n, words, bytes) = (self.n, neighbours.lent(), codes.lent());
        let number = raw::measure_row(n, words, bytes, self.used, z, x, bit, answers.0, answers.1);
        if number != 0 {
            neighbours.assert_unchanged("neighbours");
            codes.assert_unchanged("codes");
            answer.assert_unchanged("answer");
            determined.assert_unchanged("determined");
            return Err(number);
        }
        let record = Record {
            neighbours: neighbours.answer("neighbours"),
            codes: codes.answer("codes"),
            used: self.used,
        };
        Ok((record, measured(&answer, &determined)))
    }

    /// The number due to the record, the row and the bit.
    pub fn due_row(&self) -> u8 {
        let Joint { z, x, bit } = self.with;
        let record = self.record();
        match reference::expectation_refusal(self.n, &record, z, x) {
            number @ (2 | 4 | 5) => number,
            _ if bit > 1 => 6,
            0 if record.used & (z | x) != 0 => 16,
            number => number,
        }
    }
}
