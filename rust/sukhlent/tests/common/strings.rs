//! Reading and writing texts of Pauli strings, on guarded buffers of any lengths and contents.

use super::calls::{answered_list, ListCall};
use super::guarded::Guarded;
use super::reference;
use sukhlent::{raw, GeneratorList};

/// A text, and the lengths of the buffers that are lent for its list.
#[derive(Clone, Debug)]
pub struct ReadCall {
    pub text: Vec<u8>,
    pub lengths: [usize; 3],
}

impl ReadCall {
    /// The call on a text, with a place for each newline.
    pub fn on(text: &[u8]) -> ReadCall {
        let lines = text.iter().filter(|&&byte| byte == b'\n').count();
        ReadCall {
            text: text.to_vec(),
            lengths: [lines; 3],
        }
    }

    /// The list that the call writes, or the number of its refusal.
    ///
    /// Asserts that the text and all guards keep their contents, and on a refusal the answer too.
    pub fn read(&self) -> Result<GeneratorList, u8> {
        let mut text = Guarded::holding(&self.text);
        let mut signs = Guarded::patterned(self.lengths[0]);
        let [mut z, mut x] = [1, 2].map(|k| Guarded::patterned(self.lengths[k]));
        let number = raw::read_strings(text.lent(), signs.lent(), z.lent(), x.lent());
        text.assert_unchanged("text");
        answered_list(number, &signs, &z, &x)
    }

    /// The answer due to the text and the lengths.
    pub fn due(&self) -> Result<GeneratorList, u8> {
        reference::strings_read(&self.text, self.lengths)
    }
}

impl ListCall {
    /// The bytes of the text of n lines; of 64 where n is more.
    pub fn text_places(&self) -> usize {
        let n = self.n.min(64) as usize;
        n * (n + 2)
    }

    /// The text that the call writes into a buffer of so many places, or the number of its refusal.
    ///
    /// Asserts that the list and all guards keep their contents, and on a refusal the answer too.
    pub fn write_strings(&self, places: usize) -> Result<String, u8> {
        let mut list = self.guarded();
        let mut text = Guarded::patterned(places);
        let number = raw::write_strings(list.lent(), text.lent());
        list.assert_unchanged();
        if number != 0 {
            text.assert_unchanged("text");
            return Err(number);
        }
        Ok(String::from_utf8(text.answer("text")).expect("a text of ASCII"))
    }

    /// The answer due to the list and the buffer.
    pub fn write_due(&self, places: usize) -> Result<String, u8> {
        let number = match self.due().0 {
            2 => 2,
            _ if places != self.text_places() => 4,
            number => number,
        };
        match number {
            0 => Ok(reference::strings_text(&self.list())),
            number => Err(number),
        }
    }
}
