//! The calls of a source that goes on, on guarded buffers of any lengths and contents, and what is due of each.

use super::calls::RecordCall;
use super::guarded::Guarded;
use super::in_place::measured;
use super::operation::Operation;
use super::reference::{after, argument_refusal, in_place_refusal, record_refusal};
use sukhlent::{raw, Measured, Record};

/// A call of a source.
#[derive(Clone, Copy, Debug, PartialEq, Eq)]
pub enum Source {
    /// A Pauli (1 X, 2 Y, 3 Z), a qubit and a bit by lot.
    Observe(u8, u64, u8),
    /// A used qubit, and the code of its new photon.
    Renew(u64, u8),
}

impl RecordCall<Source> {
    /// The record that the call leaves and what it measures, or the number of its refusal.
    ///
    /// Asserts that all guards keep their contents, on a refusal the buffers too, and that only an
    /// observation writes an outcome.
    pub fn apply_source(&self) -> Result<(Record, Option<Measured>), u8> {
        let mut neighbours = Guarded::holding(&self.neighbours);
        let mut codes = Guarded::holding(&self.codes);
        let mut used = Guarded::holding(&[self.used]);
        let mut answer = Guarded::patterned(1);
        let mut determined = Guarded::patterned(1);
        let (words, bytes, word) = (neighbours.lent(), codes.lent(), &mut used.lent()[0]);
        let number = match self.with {
            Source::Observe(pauli, qubit, bit) => {
                let answers = (&mut answer.lent()[0], &mut determined.lent()[0]);
                let n = self.n;
                raw::observe(
                    n, words, bytes, word, pauli, qubit, bit, answers.0, answers.1,
                )
            }
            Source::Renew(qubit, code) => raw::renew(self.n, words, bytes, word, qubit, code),
        };
        let observes = matches!(self.with, Source::Observe(..));
        if number != 0 || !observes {
            answer.assert_unchanged("answer");
            determined.assert_unchanged("determined");
        }
        if number != 0 {
            neighbours.assert_unchanged("neighbours");
            codes.assert_unchanged("codes");
            used.assert_unchanged("used");
            return Err(number);
        }
        let record = Record {
            neighbours: neighbours.answer("neighbours"),
            codes: codes.answer("codes"),
            used: used.answer("used")[0],
        };
        Ok((record, observes.then(|| measured(&answer, &determined))))
    }

    /// The number due to the record and the further arguments.
    pub fn due_number(&self) -> u8 {
        let (n, record) = (self.n, self.record());
        let (qubit, code) = match self.with {
            Source::Observe(pauli, q, bit) => {
                return argument_refusal(n, &record, Operation::Measure(pauli, q, bit));
            }
            Source::Renew(qubit, code) => (qubit, code),
        };
        let of_record = record_refusal(n, &record, &[]);
        if ![0, 2, 4, 6, 8, 10].contains(&code) && ![2, 4, 5].contains(&of_record) {
            return 6;
        }
        match of_record {
            0 if qubit >= n => 8,
            0 if record.used >> qubit & 1 == 0 => 20,
            number => number,
        }
    }

    /// What an accepted call leaves: an observation is the measurement with the outcome that the
    /// state allows, the bit's where it allows both.
    pub fn due_after(&self) -> (Record, Option<Measured>) {
        let mut record = self.record();
        match self.with {
            Source::Observe(pauli, q, bit) => {
                let with = |bit| Operation::Measure(pauli, q, bit);
                match in_place_refusal(self.n, &record, with(bit)) {
                    14 => after(&record, with(1 - bit)),
                    _ => after(&record, with(bit)),
                }
            }
            Source::Renew(q, code) => {
                record.codes[q as usize] = code;
                record.used &= !(1 << q);
                (record, None)
            }
        }
    }
}
