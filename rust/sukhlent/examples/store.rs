//! Marks a point of a session and comes back to it: a Bell pair is saved, one half is measured with
//! outcome 0, then the session returns to the pair and measures with outcome 1.

use std::fmt::Write;
use sukhlent::{codes, cz, gate, measure, Pauli, Record, Refusal, Store};

/// Each vertex with its neighbour word and its code, and the used word.
fn show(text: &mut String, when: &str, record: &Record) {
    let vertices = record.neighbours.iter().zip(&record.codes);
    let vertices: String = vertices
        .map(|(word, code)| format!(" {word:x} {code},"))
        .collect();
    writeln!(text, "{when}:{vertices} used {:x}", record.used).expect("room for text");
}

/// The session, as examples/c/store.c prints it.
pub fn marked(text: &mut String) -> Result<(), Refusal> {
    let mut store = Store::new();
    let mut record = Record::zeros(2);
    gate(&mut record, 0, codes::H)?;
    gate(&mut record, 1, codes::H)?;
    cz(&mut record, 0, 1)?;
    gate(&mut record, 1, codes::H)?;
    show(text, "a Bell pair", &record);
    store.save(&record, *b"the pair")?;
    measure(&mut record, Pauli::Z, 0, 0)?;
    show(text, "Z at 0 gave 0", &record);
    record = store.return_to(*b"the pair")?;
    show(text, "the pair again", &record);
    measure(&mut record, Pauli::Z, 0, 1)?;
    show(text, "Z at 0 gave 1", &record);
    store.forget(*b"the pair")?;
    let again = store.forget(*b"the pair").expect_err("nothing is held");
    writeln!(text, "forgotten again: {}", again.number()).expect("room for text");
    Ok(())
}

fn main() -> Result<(), Refusal> {
    let mut text = String::new();
    marked(&mut text)?;
    print!("{text}");
    Ok(())
}
