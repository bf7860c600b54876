//! Local Cliffords and local complementations, by document 01's text.

use super::codes::image;
use super::seeded::{list, rows};
use sukhlent::{GeneratorList, Record};

/// The list with every place sent through its qubit's code.
pub fn sent(given: &GeneratorList, choice: &[u8]) -> GeneratorList {
    let mut answer = rows(given);
    for row in &mut answer {
        for (letter, &code) in row.letters.iter_mut().zip(choice) {
            let (phase, to) = image(code, *letter);
            row.phase = (row.phase + phase) % 4;
            *letter = to;
        }
    }
    list(&answer)
}

/// The graph complemented at each vertex of a list, one after another.
pub fn complemented(neighbours: &[u64], vertices: &[u8]) -> Vec<u64> {
    let mut graph = neighbours.to_vec();
    for &v in vertices {
        let around = graph[v as usize];
        for a in (0..graph.len()).filter(|a| around >> a & 1 == 1) {
            graph[a] ^= around & !(1 << a);
        }
    }
    graph
}

/// The code that acts as a and then as b.
fn first_then(a: u8, b: u8) -> u8 {
    let through = |letter| {
        let (phase, middle) = image(a, letter);
        let (more, last) = image(b, middle);
        ((phase + more) % 4, last)
    };
    (0..24)
        .find(|&c| (1..4).all(|letter| image(c, letter) == through(letter)))
        .expect("codes are closed under composition")
}

/// The record complemented at a vertex: the same group and the same used word.
pub fn complemented_record(record: &Record, v: usize) -> Record {
    let mut codes = record.codes.clone();
    codes[v] = first_then(13, codes[v]);
    for (a, code) in codes.iter_mut().enumerate() {
        if record.neighbours[v] >> a & 1 == 1 {
            *code = first_then(6, *code);
        }
    }
    Record {
        neighbours: complemented(&record.neighbours, &[v as u8]),
        codes,
        used: record.used,
    }
}

/// The graph on n vertices whose edges are the set bits of k, pairs in rising order.
pub fn numbered_graph(n: usize, k: usize) -> Vec<u64> {
    let mut neighbours = vec![0; n];
    let pairs = (0..n).flat_map(|b| (0..b).map(move |a| (a, b)));
    for (e, (a, b)) in pairs.enumerate() {
        let bit = (k >> e & 1) as u64;
        neighbours[a] |= bit << b;
        neighbours[b] |= bit << a;
    }
    neighbours
}
