//! Large states that are one up to local Cliffords: a GHZ state on 21 qubits and a star, as lists;
//! then a cluster of 8 x 8 qubits and the graph that it becomes when it is complemented at three
//! vertices, as records. A part of more than 20 vertices is refused by `compare`, and compared by
//! `equivalent`. examples/c/clusters.c is the same in C.

use std::error::Error;
use std::fmt::Write;
use sukhlent::{compare, complement, equivalent, equivalent_records, expand, gate};
use sukhlent::{GeneratorList, Record};

/// The qubits of the GHZ state, and the side and the vertices of the cluster.
const GHZ: usize = 21;
const SIDE: usize = 8;
const N: usize = SIDE * SIDE;

fn main() -> Result<(), Box<dyn Error>> {
    let mut text = String::new();
    ghz_and_star(&mut text)?;
    clusters(&mut text)?;
    print!("{text}");
    Ok(())
}

/// X on all qubits and Z on each two neighbours; and X at each vertex of a star, Z at its
/// neighbours.
pub fn ghz_and_star(out: &mut impl Write) -> Result<(), Box<dyn Error>> {
    let ghz = GeneratorList {
        signs: vec![0; GHZ],
        z: (0..GHZ)
            .map(|q| if q == 0 { 0 } else { 3 << (q - 1) })
            .collect(),
        x: (0..GHZ)
            .map(|q| if q == 0 { (1 << GHZ) - 1 } else { 0 })
            .collect(),
    };
    let edges: Vec<(usize, usize)> = (1..GHZ).map(|q| (0, q)).collect();
    let star = expand(&Record::graph(GHZ, &edges)?)?;
    let refusal = compare(&ghz, &star).expect_err("a part of 21 vertices");
    writeln!(out, "GHZ to star on 21, compare: {refusal}")?;
    let found = equivalent(&ghz, &star)?;
    let codes = listed(&found.choice);
    writeln!(out, "GHZ to star on 21, equivalent: codes {codes}")?;
    Ok(())
}

/// A cluster, and its graph complemented at three vertices without the codes that would keep the
/// state.
pub fn clusters(out: &mut impl Write) -> Result<(), Box<dyn Error>> {
    let across = (0..N).filter(|q| q % SIDE + 1 < SIDE).map(|q| (q, q + 1));
    let down = (0..N - SIDE).map(|q| (q, q + SIDE));
    let edges: Vec<(usize, usize)> = across.chain(down).collect();
    let mut cluster = Record::graph(N, &edges)?;
    let mut other = cluster.clone();
    for vertex in [27, 28, 36] {
        complement(&mut other, vertex)?;
    }
    other.codes.fill(0);

    let found = equivalent_records(&cluster, &other)?;
    let vertices = listed(&found.complementations);
    writeln!(out, "8 x 8 to the other graph: complemented at {vertices}")?;
    for (q, &code) in found.choice.iter().enumerate() {
        if code != 0 {
            writeln!(out, "code {code} at {q}")?;
        }
        gate(&mut cluster, q, code)?;
    }
    let left = equivalent_records(&cluster, &other)?;
    let nothing = left.complementations.is_empty() && left.choice.iter().all(|&code| code == 0);
    let so = if nothing { "yes" } else { "no" };
    writeln!(out, "after these gates nothing is left to do: {so}")?;
    other.neighbours[0] ^= 1 << 63;
    other.neighbours[63] ^= 1;
    let refusal = equivalent_records(&cluster, &other).expect_err("another state");
    writeln!(out, "with an edge more, from corner to corner: {refusal}")?;
    Ok(())
}

/// Numbers with spaces between.
fn listed(numbers: &[u8]) -> String {
    let texts: Vec<String> = numbers.iter().map(u8::to_string).collect();
    texts.join(" ")
}
