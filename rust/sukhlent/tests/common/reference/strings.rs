//! Texts of Pauli strings by the request's words: a plain reader and a plain writer.

use super::list_refusal;
use crate::common::seeded::rows;
use sukhlent::GeneratorList;

/// The lines of a text, each a sign and its letters; nothing where the text does not have its form.
fn lines(text: &[u8]) -> Option<Vec<(bool, &[u8])>> {
    let mut lines: Vec<&[u8]> = text.split(|&byte| byte == b'\n').collect();
    if lines.pop() != Some(b"") {
        return None;
    }
    let count = lines.len();
    let read = |line: &&[u8]| -> Option<(bool, usize)> {
        let (sign, letters) = line.split_first()?;
        let minus = match sign {
            b'+' => false,
            b'-' => true,
            _ => return None,
        };
        let known = letters.iter().all(|letter| b"IXYZ".contains(letter));
        (known && letters.len() == count).then_some((minus, letters.len()))
    };
    let signs: Option<Vec<(bool, usize)>> = lines.iter().map(read).collect();
    let lines = signs?.into_iter().zip(lines);
    Some(
        lines
            .map(|((minus, _), line)| (minus, &line[1..]))
            .collect(),
    )
}

/// The list of a text, in buffers of these lengths, or the number of the refusal.
pub fn strings_read(text: &[u8], lengths: [usize; 3]) -> Result<GeneratorList, u8> {
    let lines = lines(text).ok_or(1)?;
    let n = lines.len();
    if n == 0 || n > 64 {
        return Err(2);
    }
    if lengths.iter().any(|&length| length != n) {
        return Err(4);
    }
    let word = |letters: &[u8], of: &[u8]| {
        let places = letters.iter().enumerate();
        places.fold(0, |w, (q, letter)| w | u64::from(of.contains(letter)) << q)
    };
    let list = GeneratorList {
        signs: lines.iter().map(|&(minus, _)| u8::from(minus)).collect(),
        z: lines.iter().map(|(_, of)| word(of, b"YZ")).collect(),
        x: lines.iter().map(|(_, of)| word(of, b"XY")).collect(),
    };
    match list_refusal(n as u64, &list.signs, &list.z, &list.x, &[]) {
        0 => Ok(list),
        number => Err(number),
    }
}

/// The text of a list.
pub fn strings_text(list: &GeneratorList) -> String {
    let line = |row: &crate::common::Pauli| {
        let letters = row.letters.iter();
        let letters: String = letters.map(|&l| ['I', 'X', 'Z', 'Y'][l as usize]).collect();
        format!("{}{letters}\n", ["+", "-"][usize::from(row.phase / 2)])
    };
    rows(list).iter().map(line).collect()
}
