//! Calls on a record in place, on guarded buffers of any lengths and contents.

use super::calls::RecordCall;
use super::guarded::Guarded;
use super::operation::Operation;
use super::reference;
use sukhlent::{Measured, Record};

/// What a measurement wrote into its two buffers.
pub fn measured(answer: &Guarded<u8>, determined: &Guarded<u8>) -> Measured {
    Measured {
        outcome: answer.answer("answer")[0],
        determined: match determined.answer("determined")[0] {
            0 => false,
            1 => true,
            other => panic!("{other} is not 0 or 1"),
        },
    }
}

impl RecordCall<Operation> {
    /// The record that the call leaves and what it measures, or the number of its refusal.
    ///
    /// Asserts that all guards keep their contents, on a refusal the buffers too, and that only a
    /// measurement writes an outcome and the used word.
    pub fn apply(&self) -> Result<(Record, Option<Measured>), u8> {
        let mut neighbours = Guarded::holding(&self.neighbours);
        let mut codes = Guarded::holding(&self.codes);
        let mut used = Guarded::holding(&[self.used]);
        let mut answer = Guarded::patterned(1);
        let mut determined = Guarded::patterned(1);
        let number = self.with.call(
            self.n,
            neighbours.lent(),
            codes.lent(),
            &mut used.lent()[0],
            &mut answer.lent()[0],
            &mut determined.lent()[0],
        );
        let measures = matches!(self.with, Operation::Measure(..));
        if number != 0 || !measures {
            used.assert_unchanged("used");
            answer.assert_unchanged("answer");
            determined.assert_unchanged("determined");
        }
        if number != 0 {
            neighbours.assert_unchanged("neighbours");
            codes.assert_unchanged("codes");
            return Err(number);
        }
        let record = Record {
            neighbours: neighbours.answer("neighbours"),
            codes: codes.answer("codes"),
            used: used.answer("used")[0],
        };
        let measured = measures.then(|| measured(&answer, &determined));
        Ok((record, measured))
    }

    /// The number due to the record and the further arguments.
    pub fn due(&self) -> u8 {
        reference::in_place_refusal(self.n, &self.record(), self.with)
    }
}
