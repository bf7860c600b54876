//! The entanglement across every cut of a path of four qubits, before and after a CZ, a gate and a
//! complement; then a product of two rows that do not commute. examples/c/cut.c is the same in C.

use std::error::Error;
use std::fmt::Write;
use sukhlent::{codes, complement, cut, cz, gate, product, GeneratorList, Record};

/// The number of qubits.
const N: usize = 4;

fn main() -> Result<(), Box<dyn Error>> {
    let mut text = String::new();
    cuts(&mut text)?;
    print!("{text}");
    Ok(())
}

/// Writes the ranks, and the product.
pub fn cuts(out: &mut impl Write) -> Result<(), Box<dyn Error>> {
    // 0 - 1 - 2 - 3, no codes
    let mut path = Record {
        neighbours: vec![0b0010, 0b0101, 0b1010, 0b0100],
        codes: vec![codes::I; N],
        used: 0,
    };
    show(out, "path", &path)?;
    cz(&mut path, 0, 1)?;
    show(
        out,
        "CZ on 0 and 1: only cuts between the two change",
        &path,
    )?;
    gate(&mut path, 1, codes::H)?;
    complement(&mut path, 2)?;
    show(
        out,
        "a Hadamard at 1, then complemented at 2: no cut changes",
        &path,
    )?;

    // X on qubit 0 and then Y on qubit 0: i Z
    let rows = GeneratorList {
        signs: vec![0, 0],
        z: vec![0b00, 0b01],
        x: vec![0b01, 0b01],
    };
    let found = product(&rows, 0b11)?;
    let (phase, z, x) = (found.phase, found.z, found.x);
    writeln!(out, "XI times YI: i to the power {phase}, z {z}, x {x}")?;
    Ok(())
}

/// Writes the rank across each cut, the side of qubit 0 as its qubits.
fn show(out: &mut impl Write, title: &str, record: &Record) -> Result<(), Box<dyn Error>> {
    writeln!(out, "{title}")?;
    for side in (1..1 << N).step_by(2) {
        let marked = (0..N).filter(|q| side >> q & 1 == 1);
        let names: Vec<String> = marked.map(|q| q.to_string()).collect();
        writeln!(out, "  {{{}}} {}", names.join(", "), cut(record, side)?)?;
    }
    Ok(())
}
