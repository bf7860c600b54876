//! A list of generators as a state vector: -ZZI, IZZ and YXX, a GHZ state with a sign and a phase. The
//! list is judged, then reduced, and each of its amplitudes is read; a list that names no state is
//! told by its refusal. examples/c/vector.c is the same in C.

use std::error::Error;
use std::fmt::Write;
use sukhlent::{check, reduce, GeneratorList};

fn main() -> Result<(), Box<dyn Error>> {
    let mut text = String::new();
    vector(&mut text)?;
    print!("{text}");
    Ok(())
}

/// Writes what the checks say, and the amplitudes that are not 0.
pub fn vector(out: &mut impl Write) -> Result<(), Box<dyn Error>> {
    // Bit q for qubit q; at each qubit (z, x) is 01 for X, 10 for Z, 11 for Y.
    let list = GeneratorList {
        signs: vec![1, 0, 0],
        z: vec![0b011, 0b110, 0b001],
        x: vec![0b000, 0b000, 0b111],
    };
    let x = vec![0b000, 0b000, 0b001];
    let other = GeneratorList { x, ..list.clone() };
    let judged =
        |list| check(list).map_or_else(|refusal| refusal.to_string(), |()| "accepted".into());
    writeln!(out, "-ZZI, IZZ, YII: {}", judged(&other))?;
    writeln!(out, "-ZZI, IZZ, YXX: {}", judged(&list))?;

    let record = reduce(&list)?;
    for y in 0..8 {
        let line = record.amplitude(y)?;
        if line.p == 0.0 {
            continue;
        }
        let (first, second, third) = (y & 1, y >> 1 & 1, y >> 2);
        let (re, im, p) = (line.re, line.im, line.p);
        writeln!(
            out,
            "qubits 0, 1, 2 in {first}{second}{third}: {re}{im:+}i, probability {p}"
        )?;
    }
    Ok(())
}
