//! Comparisons of two records, on guarded buffers of any lengths and contents.

use super::calls::RecordCall;
use super::complementations::{Complementations, LIST_PLACES};
use super::guarded::Guarded;
use super::pairs::{assert_number, has_large_part};
use super::reference;
use sukhlent::{expand, raw, Comparison, Record};

/// A comparison of two records.
type Compare = fn(raw::LentGraph, raw::LentGraph, &mut [u8], &mut [u8], &mut u64) -> u8;

/// The arguments of a comparison of two records; answer buffers by their lengths.
#[derive(Clone, Debug)]
pub struct RecordPairCall {
    pub first: RecordCall<()>,
    pub second: RecordCall<()>,
    pub choice: usize,
    pub list: usize,
}

impl RecordPairCall {
    /// The call on two records, with lengths as they should be.
    pub fn on(first: &Record, second: &Record) -> RecordPairCall {
        RecordPairCall {
            first: RecordCall::with(first, ()),
            second: RecordCall::with(second, ()),
            choice: first.n(),
            list: LIST_PLACES,
        }
    }

    /// The comparison that `compare_records` writes, or the number of its refusal.
    pub fn compare(&self) -> Result<Comparison, u8> {
        self.answered(raw::compare_records)
    }

    /// The comparison that `equivalent_records` writes, or the number of its refusal.
    pub fn equivalent(&self) -> Result<Comparison, u8> {
        self.answered(raw::equivalent_records)
    }

    /// The comparison that a call writes, or the number of its refusal.
    ///
    /// Asserts that the records and all guards keep their contents, on a refusal the answer buffers
    /// too, and always the list of complementations past its count.
    fn answered(&self, call: Compare) -> Result<Comparison, u8> {
        let records = [&self.first, &self.second];
        let mut words = records.map(|record| Guarded::holding(&record.neighbours));
        let mut codes = records.map(|record| Guarded::holding(&record.codes));
        let mut choice = Guarded::patterned(self.choice);
        let mut complementations = Complementations::patterned(self.list);
        let (list, count) = complementations.lent();
        let [words1, words2] = &mut words;
        let [codes1, codes2] = &mut codes;
        let number = call(
            (self.first.n, words1.lent(), codes1.lent()),
            (self.second.n, words2.lent(), codes2.lent()),
            choice.lent(),
            list,
            count,
        );
        words
            .iter()
            .for_each(|words| words.assert_unchanged("neighbours"));
        codes
            .iter()
            .for_each(|codes| codes.assert_unchanged("codes"));
        complementations.compared(number, &choice)
    }

    /// The number due to the records and the buffers' lengths, for parts of any size; None where the
    /// search decides.
    pub fn due_of_any_size(&self) -> Option<u8> {
        let records = [&self.first, &self.second];
        let numbers = records.map(|call| reference::record_refusal(call.n, &unused(call), &[]));
        let counts = records.map(|call| call.n);
        reference::pair_refusal(counts, numbers, self.choice, self.list)
    }

    /// The same of `compare_records`, whose parts have at most 20 vertices.
    pub fn due(&self) -> Option<u8> {
        let records = [&self.first, &self.second];
        self.due_of_any_size()
            .or_else(|| records.into_iter().any(has_large_record).then_some(3))
    }

    /// Panics unless a number of `compare_records` is the one due: 0 or 13 where the search decides.
    pub fn assert_due(&self, number: u8) {
        assert_number(number, self.due(), self);
    }

    /// The same of `equivalent_records`.
    pub fn assert_due_of_any_size(&self, number: u8) {
        assert_number(number, self.due_of_any_size(), self);
    }
}

/// The record without its used word, which the call does not take.
fn unused(call: &RecordCall<()>) -> Record {
    Record {
        used: 0,
        ..call.record()
    }
}

/// Whether a part of the reduced graph of an accepted record has more than 20 vertices.
fn has_large_record(call: &RecordCall<()>) -> bool {
    has_large_part(&expand(&unused(call)).expect("an accepted record"))
}
