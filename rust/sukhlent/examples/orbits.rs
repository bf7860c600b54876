//! The orbits of connected graphs on six vertices under local complementation, up to renumbering:
//! of each the number of its graphs, and a graph with the fewest edges as Graphviz DOT text.

use std::collections::HashSet;
use std::error::Error;
use std::fmt::{self, Write};
use sukhlent::orbit;

/// The number of vertices.
const N: usize = 6;

fn main() -> Result<(), Box<dyn Error>> {
    let mut text = String::new();
    catalogue(&mut text)?;
    print!("{text}");
    Ok(())
}

/// Writes the catalogue.
pub fn catalogue(out: &mut impl Write) -> Result<(), Box<dyn Error>> {
    let orders = orders();
    let mut seen = HashSet::new();
    let mut count = 0;
    for graph in graphs().filter(|graph| is_connected(graph)) {
        if seen.contains(&graph) {
            continue;
        }
        let members: Vec<Vec<u64>> = orbit(&graph)?.graphs().collect();
        for order in &orders {
            seen.extend(members.iter().map(|member| renumbered(member, order)));
        }
        let fewest = members.iter().min_by_key(|member| edges(member).count());
        count += 1;
        writeln!(out, "// orbit {count}: {} graphs", members.len())?;
        write_dot(out, count, fewest.expect("the graph is on its list"))?;
    }
    Ok(())
}

/// Every graph, as neighbour words.
fn graphs() -> impl Iterator<Item = Vec<u64>> {
    let pairs: Vec<(usize, usize)> = (0..N)
        .flat_map(|a| (a + 1..N).map(move |b| (a, b)))
        .collect();
    (0..1u64 << pairs.len()).map(move |set| {
        let mut neighbours = vec![0; N];
        for (k, &(a, b)) in pairs.iter().enumerate() {
            neighbours[a] |= (set >> k & 1) << b;
            neighbours[b] |= (set >> k & 1) << a;
        }
        neighbours
    })
}

/// Whether paths lead from vertex 0 to every other.
fn is_connected(neighbours: &[u64]) -> bool {
    let mut reached = 1;
    for _ in 0..N {
        let next = (0..N).filter(|q| reached >> q & 1 == 1);
        reached = next.fold(reached, |all, q| all | neighbours[q]);
    }
    reached == (1 << N) - 1
}

/// Every order of the vertices.
fn orders() -> Vec<Vec<usize>> {
    let mut orders = vec![Vec::new()];
    for _ in 0..N {
        let longer = |order: Vec<usize>| {
            let rest = (0..N).filter(|q| !order.contains(q)).collect::<Vec<_>>();
            rest.into_iter()
                .map(move |q| [order.as_slice(), &[q]].concat())
        };
        orders = orders.into_iter().flat_map(longer).collect();
    }
    orders
}

/// The graph with vertex q called order[q].
fn renumbered(neighbours: &[u64], order: &[usize]) -> Vec<u64> {
    let mut words = vec![0; N];
    for (a, b) in edges(neighbours) {
        words[order[a]] |= 1 << order[b];
        words[order[b]] |= 1 << order[a];
    }
    words
}

/// The edges of a graph.
fn edges(neighbours: &[u64]) -> impl Iterator<Item = (usize, usize)> + '_ {
    let pairs = (0..N).flat_map(|a| (a + 1..N).map(move |b| (a, b)));
    pairs.filter(|&(a, b)| neighbours[a] >> b & 1 == 1)
}

/// Writes a graph.
fn write_dot(out: &mut impl Write, number: usize, neighbours: &[u64]) -> fmt::Result {
    writeln!(out, "graph orbit_{number} {{")?;
    for (a, b) in edges(neighbours) {
        writeln!(out, "    {a} -- {b};")?;
    }
    writeln!(out, "}}")
}
