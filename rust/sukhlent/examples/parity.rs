//! Parities: the four rows of the five-qubit code are measured jointly on photons in +Z, which makes
//! a code word, and each error of one letter has outcomes of its own. examples/c/parity.c is the same
//! in C.

use std::error::Error;
use std::fmt::Write;
use sukhlent::{codes, gate, Record, Refusal};

/// XZZXI, IXZZX, XIXZZ, ZXIXZ, as z words and x words: bit q belongs to qubit q.
const ROWS: [(u64, u64); 4] = [(6, 9), (12, 18), (24, 5), (17, 10)];

fn main() -> Result<(), Box<dyn Error>> {
    let mut text = String::new();
    show(&mut text)?;
    print!("{text}");
    Ok(())
}

/// Measures the four rows: their outcomes, and how many were determined.
fn measured(record: &mut Record) -> Result<(String, usize), Refusal> {
    let (mut outcomes, mut known) = (String::new(), 0);
    for (z, x) in ROWS {
        let found = record.measure_row(z, x, 0)?;
        outcomes += if found.outcome == 1 { "1" } else { "0" };
        known += usize::from(found.determined);
    }
    Ok((outcomes, known))
}

/// Writes the outcomes of a code word and of the fifteen errors.
pub fn show(out: &mut impl Write) -> Result<(), Box<dyn Error>> {
    let mut word = Record::zeros(5);
    let (outcomes, known) = measured(&mut word)?;
    writeln!(out, "a code word: {outcomes}, {known} determined")?;
    let (outcomes, known) = measured(&mut word)?;
    writeln!(out, "looked at again: {outcomes}, {known} determined")?;
    for (letter, code) in [('X', codes::X), ('Y', codes::Y), ('Z', codes::Z)] {
        for q in 0..5 {
            let mut record = word.clone();
            gate(&mut record, q, code)?;
            let (outcomes, _) = measured(&mut record)?;
            write!(
                out,
                "{letter}{q} {outcomes}{}",
                if q < 4 { ' ' } else { '\n' }
            )?;
        }
    }
    Ok(())
}
