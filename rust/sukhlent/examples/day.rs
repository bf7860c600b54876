//! A day in a lab: a cluster is prepared and cut to a wire, which is saved. A first try measures the
//! wrong Pauli and misses the target, so the session returns to the wire, measures the right one, and
//! ends in the target up to gates, which are done. examples/python/day.py is the same in Python.

use std::error::Error;
use std::fmt::Write;
use sukhlent::{codes, cut, gate, measure, Pauli, Record, Refusal, Store};

fn main() -> Result<(), Box<dyn Error>> {
    let mut text = String::new();
    day(&mut text)?;
    print!("{text}");
    Ok(())
}

/// Writes what the day shows.
pub fn day(out: &mut impl Write) -> Result<(), Box<dyn Error>> {
    let mut store = Store::new();
    let target = Record::graph(6, &[(3, 0), (0, 2), (2, 5)])?; // the wire 3, 0, 2, 5; 1 and 4 apart

    // Two rows of three: 0 1 2 above 3 4 5.
    let grid = [(0, 1), (1, 2), (3, 4), (4, 5), (0, 3), (1, 4), (2, 5)];
    let mut record = Record::graph(6, &grid)?;
    writeln!(out, "entanglement of the rows: {}", cut(&record, 0b111)?)?;

    measured(out, &mut record, Pauli::Z, 4, 1)?; // cuts 4 out: the wire 3, 0, 1, 2, 5 is left
    store.save(&record, *b"wire    ")?;
    measured(out, &mut record, Pauli::X, 1, 0)?;
    compared(out, &record, &target)?;

    record = store.return_to(*b"wire    ")?;
    writeln!(out, "back at the wire")?;
    measured(out, &mut record, Pauli::Y, 1, 1)?; // takes 1 out and joins 0 and 2
    let choice = compared(out, &record, &target)?;
    for (qubit, code) in choice.into_iter().enumerate() {
        if record.used >> qubit & 1 == 0 {
            gate(&mut record, qubit, code)?;
        }
    }
    write!(out, "{record}")?;
    Ok(())
}

/// Measures, and writes how it went.
fn measured(
    out: &mut impl Write,
    record: &mut Record,
    pauli: Pauli,
    qubit: usize,
    outcome: u8,
) -> Result<(), Box<dyn Error>> {
    let found = measure(record, pauli, qubit, outcome)?;
    let how = if found.determined {
        "determined"
    } else {
        "free"
    };
    writeln!(out, "{pauli:?} at {qubit}: {outcome}, {how}")?;
    Ok(())
}

/// Writes which gates lead to the target, and answers them; none where there are none.
fn compared(
    out: &mut impl Write,
    record: &Record,
    target: &Record,
) -> Result<Vec<u8>, Box<dyn Error>> {
    let choice = match record.compare(target) {
        Err(Refusal::Inequivalent) => vec![],
        answer => answer?.choice,
    };
    let names = choice.iter().map(|&code| codes::NAMES[usize::from(code)]);
    let names: Vec<&str> = names.collect();
    if names.is_empty() {
        writeln!(out, "no local gates lead to the target")?;
    } else {
        writeln!(out, "to the target by {}", names.join(" "))?;
    }
    Ok(choice)
}
