//! Are two states one up to local Cliffords? A ring of five is compared with the ring that has a
//! chord, and with the path: the records are given as they are. The gates of the answer are applied,
//! and all graphs that complementations reach from the ring are listed. examples/c/equivalent.c is the
//! same in C.

use std::error::Error;
use std::fmt::Write;
use sukhlent::{compare_records, gate, orbit, Record};

/// The number of vertices.
const N: usize = 5;

fn main() -> Result<(), Box<dyn Error>> {
    let mut text = String::new();
    compared(&mut text)?;
    print!("{text}");
    Ok(())
}

/// Writes what is found.
pub fn compared(out: &mut impl Write) -> Result<(), Box<dyn Error>> {
    let around: Vec<(usize, usize)> = (0..N).map(|q| (q, (q + 1) % N)).collect();
    let mut ring = graph(&around);
    let chord = graph(&[&around[..], &[(1, 4)]].concat());
    let path = graph(&around[..N - 1]);

    let found = compare_records(&ring, &chord)?;
    let (choice, vertices) = (&found.choice, &found.complementations);
    write!(out, "ring to ring with a chord: codes {}", listed(choice))?;
    writeln!(out, ", complemented at {}", listed(vertices))?;

    let reached = orbit(&ring.neighbours)?;
    let among = reached.graphs().any(|graph| graph == chord.neighbours);
    let (count, so) = (
        reached.numbers.len(),
        if among { "among them" } else { "not" },
    );
    writeln!(
        out,
        "graphs reached from the ring: {count}, the chord's {so}"
    )?;

    for (q, &code) in found.choice.iter().enumerate() {
        gate(&mut ring, q, code)?;
    }
    let so = if ring == chord { "yes" } else { "no" };
    writeln!(out, "the ring after these gates is the other: {so}")?;
    let refusal = compare_records(&ring, &path).expect_err("another state altogether");
    writeln!(out, "and to the path: {refusal}")?;
    Ok(())
}

/// The graph with these edges, code 0 everywhere.
fn graph(edges: &[(usize, usize)]) -> Record {
    let mut record = Record {
        neighbours: vec![0; N],
        codes: vec![0; N],
        used: 0,
    };
    for &(a, b) in edges {
        record.neighbours[a] |= 1 << b;
        record.neighbours[b] |= 1 << a;
    }
    record
}

/// Numbers with spaces between.
fn listed(numbers: &[u8]) -> String {
    let texts: Vec<String> = numbers.iter().map(u8::to_string).collect();
    texts.join(" ")
}
