//! The generator of jobs, on a guarded buffer of any length.

use super::guarded::{Guarded, Pattern};
use super::reference;
use sukhlent::raw;

/// The arguments of a call, and the length of the buffer that it is lent.
#[derive(Clone, Copy, Debug)]
pub struct GenerateCall {
    pub n: u64,
    pub count: u64,
    pub seed: u64,
    pub places: usize,
}

impl GenerateCall {
    /// A call with a buffer of the required length.
    pub fn of(n: u64, count: u64, seed: u64) -> GenerateCall {
        GenerateCall {
            n,
            count,
            seed,
            places: raw::JOB_PLACES,
        }
    }

    /// The text that the call writes, or the number of its refusal.
    ///
    /// Asserts that the guards and the bytes past the text keep their contents, and on a refusal
    /// the whole buffer and the length too.
    pub fn generate(&self) -> Result<String, u8> {
        let mut text: Guarded<u8> = Guarded::patterned(self.places);
        let mut length: Guarded<u64> = Guarded::patterned(1);
        let to_length = &mut length.lent()[0];
        let number = raw::generate(self.n, self.count, self.seed, text.lent(), to_length);
        if number != 0 {
            text.assert_unchanged("text");
            length.assert_unchanged("length");
            return Err(number);
        }
        let mut answer = text.answer("text");
        let length = length.answer("length")[0] as usize;
        let past = answer.iter().enumerate().skip(length);
        past.for_each(|(k, &byte)| assert_eq!(byte, u8::pattern(k), "{self:?}, byte {k}"));
        answer.truncate(length);
        Ok(String::from_utf8(answer).expect("a text of ASCII"))
    }

    /// The answer due to the arguments.
    pub fn due(&self) -> Result<String, u8> {
        match reference::generate_refusal(self.n, self.count, self.seed, self.places) {
            0 => Ok(reference::job_text(self.n, self.count, self.seed)),
            number => Err(number),
        }
    }
}
