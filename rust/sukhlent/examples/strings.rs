//! Generator lists typed as Pauli strings: each text is read, its list reduced to a graph with
//! codes, and the generators of that record written. The last three texts are refused.
//! examples/c/strings.c is the same in C.

use std::fmt::{self, Write};
use sukhlent::{expand, read_record, read_strings, reduce, write_record, write_strings, Refusal};

/// The texts that are shown.
const TEXTS: [&str; 6] = [
    "+XX\n-ZZ\n",
    "-Y\n",
    "+YYX\n-ZZI\n+IZZ\n",
    "+xx\n-zz\n",
    "+XI\n+ZI\n",
    "+XX\n-XX\n",
];

fn main() -> fmt::Result {
    let mut text = String::new();
    show_all(&mut text)?;
    print!("{text}");
    Ok(())
}

/// Writes what is shown of each text.
pub fn show_all(out: &mut impl Write) -> fmt::Result {
    for text in TEXTS {
        match shown(text) {
            Ok(shown) => writeln!(out, "{text}{shown}")?,
            Err(refusal) => writeln!(out, "{text}refused {}\n", refusal.number())?,
        }
    }
    Ok(())
}

/// The reduced record of a text's list, kept as a text and read back, and the generators of that
/// record.
fn shown(text: &str) -> Result<String, Refusal> {
    let kept = write_record(&reduce(&read_strings(text)?)?)?;
    let record = read_record(&kept)?;
    Ok(kept + &write_strings(&expand(&record)?)?)
}
