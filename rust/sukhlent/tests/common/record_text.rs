//! Records written as texts and read, on guarded buffers of any lengths and contents, and a plain
//! reader and writer of such texts.

use super::calls::RecordCall;
use super::guarded::Guarded;
use super::reference::record_refusal;
use sukhlent::{raw, Record};

/// The bytes of the buffer for a text.
pub const PLACES: usize = 1627;

/// The places of the buffer for a text.
#[derive(Clone, Debug)]
pub struct Places(pub usize);

impl RecordCall<Places> {
    /// The text that the call writes, or the number of its refusal.
    ///
    /// Asserts that the record and all guards keep their contents, the places past the text theirs,
    /// and on a refusal the answer too.
    pub fn write(&self) -> Result<String, u8> {
        let mut neighbours = Guarded::holding(&self.neighbours);
        let mut codes = Guarded::holding(&self.codes);
        let mut text: Guarded<u8> = Guarded::patterned(self.with.0);
        let before = text.answer("text");
        let mut length = 77;
        let number = raw::write_record(
            self.n,
            neighbours.lent(),
            codes.lent(),
            self.used,
            text.lent(),
            &mut length,
        );
        neighbours.assert_unchanged("neighbours");
        codes.assert_unchanged("codes");
        if number != 0 {
            text.assert_unchanged("text");
            assert_eq!(length, 77);
            return Err(number);
        }
        let (answer, length) = (text.answer("text"), length as usize);
        assert_eq!(answer[length..], before[length..]);
        Ok(String::from_utf8(answer[..length].to_vec()).expect("a text"))
    }

    /// The answer due to the record and the buffer.
    pub fn write_due(&self) -> Result<String, u8> {
        let record = self.record();
        let room = if self.with.0 == PLACES {
            self.n as usize
        } else {
            65
        };
        match record_refusal(self.n, &record, &[room]) {
            0 => Ok(plain_text(&record)),
            number => Err(number),
        }
    }
}

/// The text of a record.
pub fn plain_text(record: &Record) -> String {
    let line = |q: usize| {
        let used = record.used.checked_shr(q as u32).unwrap_or(0) & 1;
        format!(
            "{q} {} {:016x} {used}\n",
            record.codes[q], record.neighbours[q]
        )
    };
    let lines: String = (0..record.n()).map(line).collect();
    format!("qubit code neighbours used\n{lines}")
}

/// A text, and the lengths of the buffers that are lent for its record.
#[derive(Clone, Debug)]
pub struct ReadRecord {
    pub text: Vec<u8>,
    pub lengths: [usize; 2],
}

impl ReadRecord {
    /// The call on a text, with buffers of 64 places.
    pub fn on(text: &[u8]) -> ReadRecord {
        ReadRecord {
            text: text.to_vec(),
            lengths: [64; 2],
        }
    }

    /// The record that the call writes, or the number of its refusal.
    ///
    /// Asserts that the text and all guards keep their contents, the places from n on theirs, and on
    /// a refusal the answer too.
    pub fn read(&self) -> Result<Record, u8> {
        let mut text = Guarded::holding(&self.text);
        let mut neighbours: Guarded<u64> = Guarded::patterned(self.lengths[0]);
        let mut codes: Guarded<u8> = Guarded::patterned(self.lengths[1]);
        let (words, marks) = (neighbours.answer("neighbours"), codes.answer("codes"));
        let (mut n, mut used) = (77, 78);
        let number = raw::read_record(
            text.lent(),
            &mut n,
            neighbours.lent(),
            codes.lent(),
            &mut used,
        );
        text.assert_unchanged("text");
        if number != 0 {
            neighbours.assert_unchanged("neighbours");
            codes.assert_unchanged("codes");
            assert_eq!((n, used), (77, 78));
            return Err(number);
        }
        let n = n as usize;
        let (new_words, new_marks) = (neighbours.answer("neighbours"), codes.answer("codes"));
        assert_eq!(new_words[n..], words[n..]);
        assert_eq!(new_marks[n..], marks[n..]);
        Ok(Record {
            neighbours: new_words[..n].to_vec(),
            codes: new_marks[..n].to_vec(),
            used,
        })
    }

    /// The answer due to the text and the lengths.
    pub fn due(&self) -> Result<Record, u8> {
        let lines = plain_lines(&self.text).ok_or(1)?;
        if lines.is_empty() || lines.len() > 64 {
            return Err(2);
        }
        if self.lengths != [64; 2] {
            return Err(4);
        }
        let used = lines.iter().rev().fold(0, |word, line| word << 1 | line.2);
        let record = Record {
            neighbours: lines.iter().map(|line| line.1).collect(),
            codes: lines.iter().map(|line| line.0).collect(),
            used,
        };
        match record_refusal(lines.len() as u64, &record, &[]) {
            0 => Ok(record),
            number => Err(number),
        }
    }
}

/// The code, the word and the used digit of each line of a text that has the form.
fn plain_lines(text: &[u8]) -> Option<Vec<(u8, u64, u64)>> {
    let body = std::str::from_utf8(text).ok()?.strip_suffix('\n')?;
    let mut lines = body.split('\n');
    if lines.next() != Some("qubit code neighbours used") {
        return None;
    }
    lines
        .enumerate()
        .map(|(q, line)| {
            let fields: Vec<&str> = line.split(' ').collect();
            let [number, code, word, used] = fields[..] else {
                return None;
            };
            let digits = !code.is_empty() && code.bytes().all(|byte| byte.is_ascii_digit());
            let short = code.len() == 1 || (code.len() == 2 && !code.starts_with('0'));
            let hexadecimal = |byte: u8| byte.is_ascii_digit() || (b'a'..=b'f').contains(&byte);
            let whole = word.len() == 16 && word.bytes().all(hexadecimal);
            let fits = number == q.to_string() && digits && short && whole;
            if !fits || !["0", "1"].contains(&used) {
                return None;
            }
            let word = u64::from_str_radix(word, 16).ok()?;
            Some((code.parse().ok()?, word, used.parse().ok()?))
        })
        .collect()
}
