//! Records as texts: the print of the programs, a line for each qubit.

use crate::{raw, Record, Refusal};
use std::fmt;
use std::str::FromStr;

/// The most bytes that the text of a record has.
const PLACES: usize = 1627;

/// The text of a record, from which [`read_record`] reads the record: the names of the columns, and a
/// line for each qubit.
///
/// Refusals: 2, 4, 5, 6, 7.
///
/// ```
/// use sukhlent::{write_record, Record};
///
/// let text = "qubit code neighbours used\n0 8 0000000000000000 0\n";
/// assert_eq!(write_record(&Record::zeros(1))?, text);
/// # Ok::<(), sukhlent::Refusal>(())
/// ```
pub fn write_record(record: &Record) -> Result<String, Refusal> {
    let (mut text, mut length) = (vec![0; PLACES], 0);
    let (neighbours, codes) = (&record.neighbours, &record.codes);
    let n = record.n() as u64;
    let number = raw::write_record(n, neighbours, codes, record.used, &mut text, &mut length);
    Refusal::unless_accepted(number)?;
    text.truncate(length as usize);
    Ok(String::from_utf8(text).expect("a text of letters, digits, spaces and newlines"))
}

/// The record of a text that is byte for byte as [`write_record`] writes it.
///
/// Refusals: 1 (the text does not have this form), 2 (it has the names alone, or more than 64 qubits),
/// 5, 6 (a code from 24 to 99), 7.
///
/// ```
/// use sukhlent::{read_record, Record, Refusal};
///
/// let text = "qubit code neighbours used\n0 8 0000000000000000 0\n";
/// assert_eq!(read_record(text)?, Record::zeros(1));
/// assert_eq!(read_record(""), Err(Refusal::Form));
/// # Ok::<(), sukhlent::Refusal>(())
/// ```
pub fn read_record(text: &str) -> Result<Record, Refusal> {
    let (mut n, mut used) = (0, 0);
    let (mut neighbours, mut codes) = (vec![0; 64], vec![0; 64]);
    let (words, marks) = (&mut neighbours, &mut codes);
    let number = raw::read_record(text.as_bytes(), &mut n, words, marks, &mut used);
    Refusal::unless_accepted(number)?;
    neighbours.truncate(n as usize);
    codes.truncate(n as usize);
    Ok(Record {
        neighbours,
        codes,
        used,
    })
}

impl FromStr for Record {
    type Err = Refusal;

    /// As [`read_record`].
    fn from_str(text: &str) -> Result<Record, Refusal> {
        read_record(text)
    }
}

impl fmt::Display for Record {
    /// The text of [`write_record`], which the programs print too; of a record that is refused, the
    /// refusal.
    ///
    /// ```
    /// use sukhlent::Record;
    ///
    /// let text = "qubit code neighbours used\n0 8 0000000000000000 0\n";
    /// assert_eq!(Record::zeros(1).to_string(), text);
    /// assert_eq!(text.parse(), Ok(Record::zeros(1)));
    /// ```
    fn fmt(&self, f: &mut fmt::Formatter<'_>) -> fmt::Result {
        match write_record(self) {
            Ok(text) => f.write_str(&text),
            Err(refusal) => refusal.fmt(f),
        }
    }
}
