//! Amplitudes of a record, on guarded buffers of any lengths and contents.

use super::calls::RecordCall;
use super::guarded::Guarded;
use super::reference::{self, Bits};
use sukhlent::{raw, Record};

/// The word whose amplitude is asked for.
#[derive(Clone, Copy, Debug)]
pub struct At(pub u64);

impl RecordCall<At> {
    /// The call on a record and a word.
    pub fn amplitude_of(record: &Record, y: u64) -> RecordCall<At> {
        RecordCall::with(record, At(y))
    }

    /// The bits of the three floats that the call writes, or the number of its refusal.
    ///
    /// Asserts that the record and all guards keep their contents, and on a refusal the floats too.
    pub fn amplitude(&self) -> Result<Bits, u8> {
        let mut neighbours = Guarded::holding(&self.neighbours);
        let mut codes = Guarded::holding(&self.codes);
        let mut floats = [(); 3].map(|()| Guarded::<f64>::patterned(1));
        let [re, im, p] = floats.each_mut().map(|float| &mut float.lent()[0]);
        let (words, bytes) = (neighbours.lent(), codes.lent());
        let number = raw::amplitude(self.n, words, bytes, self.used, self.with.0, re, im, p);
        neighbours.assert_unchanged("neighbours");
        codes.assert_unchanged("codes");
        if number != 0 {
            floats
                .iter()
                .for_each(|float| float.assert_unchanged("a float"));
            return Err(number);
        }
        Ok(floats.map(|float| float.answer("a float")[0].to_bits()))
    }

    /// The number due to the record and the word.
    pub fn due(&self) -> u8 {
        reference::cut_refusal(self.n, &self.record(), self.with.0)
    }
}
