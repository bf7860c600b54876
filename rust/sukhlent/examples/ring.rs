//! The stabilizers of a ring of five qubits with their signs, read row by row, and their Bell-type
//! sum: on the state each of the 32 is 1. Where each qubit had values of its own for X, Y and Z, the
//! sum would be at most 20. examples/c/ring.c is the same in C.

use std::error::Error;
use std::fmt::Write;
use sukhlent::{Record, Refusal};

/// The number of qubits.
const N: usize = 5;

/// A signed row: its words, and 1 or -1.
struct Element {
    z: u64,
    x: u64,
    sign: i8,
}

fn main() -> Result<(), Box<dyn Error>> {
    let mut text = String::new();
    show(&mut text)?;
    print!("{text}");
    Ok(())
}

/// Writes the elements of the ring's group, and the two sums.
pub fn show(out: &mut impl Write) -> Result<(), Box<dyn Error>> {
    let elements = elements(&ring())?;
    for line in elements.chunks(8) {
        let texts: Vec<String> = line.iter().map(text).collect();
        writeln!(out, "{}", texts.join(" "))?;
    }
    let sums = (0..1u64 << (3 * N)).map(|values| sum_of_values(&elements, values));
    let most = sums.max().expect("some values");
    let count = elements.len();
    writeln!(
        out,
        "on the ring the sum is {count}, with values of their own at most {most}"
    )?;
    Ok(())
}

/// The graph 0 - 1 - 2 - 3 - 4 - 0, with code 0 everywhere.
fn ring() -> Record {
    let around = |q: usize| 1 << ((q + 1) % N) | 1 << ((q + N - 1) % N);
    Record {
        neighbours: (0..N).map(around).collect(),
        codes: vec![0; N],
        used: 0,
    }
}

/// All rows that have a value: the elements of the group, with their signs.
fn elements(record: &Record) -> Result<Vec<Element>, Refusal> {
    let mut found = Vec::new();
    for (x, z) in (0..1 << N).flat_map(|x| (0..1 << N).map(move |z| (x, z))) {
        let sign = record.expectation(z, x)?;
        if sign != 0 {
            found.push(Element { z, x, sign });
        }
    }
    Ok(found)
}

/// An element as a sign and letters.
fn text(element: &Element) -> String {
    let letter = |q: usize| 2 * (element.z >> q & 1) + (element.x >> q & 1);
    let letters = (0..N).map(|q| ["I", "X", "Z", "Y"][letter(q) as usize]);
    let sign = if element.sign == 1 { "+" } else { "-" };
    sign.to_string() + &letters.collect::<String>()
}

/// The sum of the elements where every qubit has a value for each letter: N bits for X, then for Y,
/// then for Z, 1 for -1.
fn sum_of_values(elements: &[Element], values: u64) -> i32 {
    let value = |element: &Element| {
        let (z, x) = (element.z, element.x);
        let letters = (x & !z) | (x & z) << N | (z & !x) << (2 * N);
        let turned = (letters & values).count_ones() % 2 == 1;
        i32::from(if turned { -element.sign } else { element.sign })
    };
    elements.iter().map(value).sum()
}
