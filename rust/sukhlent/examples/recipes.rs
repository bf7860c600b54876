//! The recipes of the header: the start of a session, CNOT, a random outcome, equal states.
//! examples/c/recipes.c is the same in C.

use std::error::Error;
use std::fmt::Write;
use sukhlent::{codes, cz, gate, observe, raw, Pauli, Record, Refusal};

fn main() -> Result<(), Box<dyn Error>> {
    let mut text = String::new();
    recipes(&mut text)?;
    print!("{text}");
    Ok(())
}

/// Writes what the recipes make.
pub fn recipes(out: &mut impl Write) -> Result<(), Box<dyn Error>> {
    let version = raw::version();
    let [major, minor, patch] = [version / 10_000, version / 100 % 100, version % 100];
    let same = format!("{major}.{minor}.{patch}") == env!("CARGO_PKG_VERSION");
    writeln!(
        out,
        "compiled for the version of the library: {}",
        u8::from(same)
    )?;

    let (mut ghz, mut other) = (Record::zeros(3), Record::zeros(3));
    gate(&mut ghz, 0, codes::H)?;
    cnot(&mut ghz, 0, 1)?;
    cnot(&mut ghz, 1, 2)?;
    gate(&mut other, 2, codes::H)?;
    cnot(&mut other, 2, 0)?;
    writeln!(out, "equal after CNOT 2 0: {}", u8::from(ghz == other))?;
    cnot(&mut other, 2, 1)?;
    writeln!(out, "equal after CNOT 2 1: {}", u8::from(ghz == other))?;
    let refusal = cnot(&mut ghz, 1, 1).expect_err("one qubit twice");
    writeln!(out, "CNOT 1 1: {refusal}")?;
    writeln!(out, "equal after that: {}", u8::from(ghz == other))?;

    for (qubit, coin) in [(0, 1), (1, 0)] {
        let found = observe(&mut ghz, Pauli::Z, qubit, coin)?;
        let (outcome, determined) = (found.outcome, u8::from(found.determined));
        write!(out, "Z at {qubit} with coin {coin}: ")?;
        writeln!(out, "outcome {outcome}, determined {determined}")?;
    }
    let refusal = gate(&mut ghz, 1, codes::H).expect_err("a used qubit");
    writeln!(out, "H at 1: {refusal}")?;
    Ok(())
}

/// CNOT is H, CZ, H, on a copy: a refusal leaves the record as it was.
fn cnot(record: &mut Record, control: usize, target: usize) -> Result<(), Refusal> {
    let mut trial = record.clone();
    gate(&mut trial, target, codes::H)?;
    cz(&mut trial, control, target)?;
    gate(&mut trial, target, codes::H)?;
    *record = trial;
    Ok(())
}
