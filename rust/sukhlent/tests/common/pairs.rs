//! Comparisons of two generator lists, on guarded buffers of any lengths and contents.

use super::calls::ListCall;
use super::complementations::{Complementations, LIST_PLACES};
use super::guarded::Guarded;
use super::reference;
use std::fmt::Debug;
use sukhlent::{raw, Comparison, GeneratorList};

/// A comparison of two lists.
type Compare = fn(raw::Lent, raw::Lent, &mut [u8], &mut [u8], &mut u64) -> u8;

/// The arguments of a comparison; answer buffers by their lengths.
#[derive(Clone, Debug)]
pub struct PairCall {
    pub first: ListCall,
    pub second: ListCall,
    pub choice: usize,
    pub list: usize,
}

impl PairCall {
    /// The call on two lists, with lengths as they should be.
    pub fn on(first: &GeneratorList, second: &GeneratorList) -> PairCall {
        PairCall {
            first: ListCall::on(first),
            second: ListCall::on(second),
            choice: first.n(),
            list: LIST_PLACES,
        }
    }

    /// The comparison that `compare` writes, or the number of its refusal.
    pub fn compare(&self) -> Result<Comparison, u8> {
        self.answered(raw::compare)
    }

    /// The comparison that `equivalent` writes, or the number of its refusal.
    pub fn equivalent(&self) -> Result<Comparison, u8> {
        self.answered(raw::equivalent)
    }

    /// The comparison that a call writes, or the number of its refusal.
    ///
    /// Asserts that the lists and all guards keep their contents, on a refusal the answer buffers
    /// too, and always the list of complementations past its count.
    fn answered(&self, call: Compare) -> Result<Comparison, u8> {
        let mut first = self.first.guarded();
        let mut second = self.second.guarded();
        let mut choice = Guarded::patterned(self.choice);
        let mut complementations = Complementations::patterned(self.list);
        let (list, count) = complementations.lent();
        let number = call(first.lent(), second.lent(), choice.lent(), list, count);
        first.assert_unchanged();
        second.assert_unchanged();
        complementations.compared(number, &choice)
    }

    /// The number due to the lists and the buffers' lengths, for parts of any size; None where the
    /// search decides.
    pub fn due_of_any_size(&self) -> Option<u8> {
        let lists = [&self.first, &self.second];
        let numbers = lists.map(|list| list.due().0);
        let counts = lists.map(|list| list.n);
        reference::pair_refusal(counts, numbers, self.choice, self.list)
    }

    /// The same of `compare`, whose parts have at most 20 vertices.
    pub fn due(&self) -> Option<u8> {
        let large = |call: &ListCall| has_large_part(&call.list());
        let lists = [&self.first, &self.second];
        self.due_of_any_size()
            .or_else(|| lists.into_iter().any(large).then_some(3))
    }

    /// Panics unless a number of `compare` is the one due: 0 or 13 where the search decides.
    pub fn assert_due(&self, number: u8) {
        assert_number(number, self.due(), self);
    }

    /// The same of `equivalent`.
    pub fn assert_due_of_any_size(&self, number: u8) {
        assert_number(number, self.due_of_any_size(), self);
    }
}

/// Panics unless a comparison's number is the one due; where none is, the search gives 0 or 13.
pub fn assert_number(number: u8, due: Option<u8>, call: &impl Debug) {
    match due {
        Some(due) => assert_eq!(number, due, "{call:?}"),
        None => assert!([0, 13].contains(&number), "{number}: {call:?}"),
    }
}

/// Whether a part of the reduced graph of an accepted list has more than 20 vertices.
pub fn has_large_part(list: &GeneratorList) -> bool {
    let parts = reference::parts(&reference::reduced(list).neighbours);
    parts.iter().any(|part| part.len() > 20)
}
