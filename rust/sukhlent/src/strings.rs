//! Texts of Pauli strings: a generator on each line, as `-XZ`, qubit 0 leftmost.

use crate::{raw, GeneratorList, Refusal};
use std::fmt;
use std::str::FromStr;

/// The generator list of a text: n lines, each a plus or an ASCII hyphen, n letters of I, X, Y, Z
/// and a newline.
///
/// Refusals: 1 (the text does not have this form), 2 (it is empty, or has more than 64 lines), 9, 10.
///
/// ```
/// use sukhlent::{read_strings, reduce};
///
/// let bell = read_strings("+XX\n-ZZ\n")?;
/// assert_eq!((&*bell.signs, &*bell.z, &*bell.x), (&[0, 1][..], &[0, 3][..], &[3, 0][..]));
/// assert_eq!(reduce(&bell)?.codes, [0, 10]);
/// # Ok::<(), sukhlent::Refusal>(())
/// ```
pub fn read_strings(text: &str) -> Result<GeneratorList, Refusal> {
    // With more lines than 64 no length of a buffer is looked at.
    let lines = text.bytes().filter(|&byte| byte == b'\n').take(64).count();
    let mut list = GeneratorList {
        signs: vec![0; lines],
        z: vec![0; lines],
        x: vec![0; lines],
    };
    let (signs, z, x) = (&mut list.signs, &mut list.z, &mut list.x);
    let number = raw::read_strings(text.as_bytes(), signs, z, x);
    Refusal::unless_accepted(number).map(|()| list)
}

/// The text of a generator list, from which [`read_strings`] reads the list.
///
/// Refusals: 2, 4, 5, 6, 9, 10.
///
/// ```
/// use sukhlent::{expand, write_strings, Record};
///
/// let (neighbours, codes, used) = (vec![0b10, 0b01], vec![0, 10], 0);
/// let bell = expand(&Record { neighbours, codes, used })?;
/// assert_eq!(write_strings(&bell)?, "+XX\n-ZZ\n");
/// # Ok::<(), sukhlent::Refusal>(())
/// ```
pub fn write_strings(list: &GeneratorList) -> Result<String, Refusal> {
    let n = list.n();
    // With more generators than 64 no length of a buffer is looked at.
    let places = n.min(64) * (n.min(64) + 2);
    let mut text = vec![0; places];
    let lent = (n as u64, &*list.signs, &*list.z, &*list.x);
    Refusal::unless_accepted(raw::write_strings(lent, &mut text))?;
    Ok(String::from_utf8(text).expect("a text of signs, letters and newlines"))
}

impl FromStr for GeneratorList {
    type Err = Refusal;

    /// As [`read_strings`].
    fn from_str(text: &str) -> Result<GeneratorList, Refusal> {
        read_strings(text)
    }
}

impl fmt::Display for GeneratorList {
    /// The text of [`write_strings`]; of a list that is refused, the refusal.
    ///
    /// ```
    /// use sukhlent::GeneratorList;
    ///
    /// let bell: GeneratorList = "+XX\n-ZZ\n".parse()?;
    /// assert_eq!(bell.to_string(), "+XX\n-ZZ\n");
    /// # Ok::<(), sukhlent::Refusal>(())
    /// ```
    fn fmt(&self, f: &mut fmt::Formatter<'_>) -> fmt::Result {
        match write_strings(self) {
            Ok(text) => f.write_str(&text),
            Err(refusal) => refusal.fmt(f),
        }
    }
}
