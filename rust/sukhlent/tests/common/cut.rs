//! Cuts of a record's vertices, on guarded buffers of any lengths and contents.

use super::calls::RecordCall;
use super::guarded::Guarded;
use super::reference;
use sukhlent::{raw, Record};

/// The word that marks one side of a cut.
#[derive(Clone, Copy, Debug)]
pub struct Side(pub u64);

impl RecordCall<Side> {
    /// The call on a record and a side.
    pub fn cut_of(record: &Record, side: u64) -> RecordCall<Side> {
        RecordCall::with(record, Side(side))
    }

    /// The rank that the call writes, or the number of its refusal.
    ///
    /// Asserts that the record and all guards keep their contents, and on a refusal the rank too.
    pub fn cut(&self) -> Result<u64, u8> {
        let mut neighbours = Guarded::holding(&self.neighbours);
        let mut codes = Guarded::holding(&self.codes);
        let mut rank = Guarded::patterned(1);
        let number = raw::cut(
            self.n,
            neighbours.lent(),
            codes.lent(),
            self.used,
            self.with.0,
            &mut rank.lent()[0],
        );
        neighbours.assert_unchanged("neighbours");
        codes.assert_unchanged("codes");
        if number != 0 {
            rank.assert_unchanged("rank");
            return Err(number);
        }
        Ok(rank.answer("rank")[0])
    }

    /// The number due to the record and the side.
    pub fn due(&self) -> u8 {
        reference::cut_refusal(self.n, &self.record(), self.with.0)
    }
}
