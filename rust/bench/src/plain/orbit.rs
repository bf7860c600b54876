//! The orbit of a graph: a table of the numbers found, and a stack of graphs to follow.

use super::{places, refusals};

/// The places of the list.
const ORBIT_PLACES: usize = 32_768;

/// The neighbour words of a graph on up to 6 vertices.
type Graph = [u64; 6];

/// Writes the numbers of all graphs that complementations reach from one, rising.
pub fn orbit(n: u64, neighbours: &[u64], list: &mut [u16], count: &mut u64) -> u8 {
    let number = refusal(n, neighbours, list.len());
    if number != 0 {
        return number;
    }
    let n = n as usize;
    let mut start = [0; 6];
    start[..n].copy_from_slice(neighbours);
    let mut found = vec![false; 1 << (n * (n - 1) / 2)];
    found[graph_number(n, &start)] = true;
    let mut open = vec![start];
    while let Some(graph) = open.pop() {
        for a in 0..n {
            let next = complemented(graph, a);
            let seen = &mut found[graph_number(n, &next)];
            if !*seen {
                *seen = true;
                open.push(next);
            }
        }
    }
    let numbers = found.iter().enumerate().filter(|(_, &seen)| seen);
    let mut written = 0;
    for ((number, _), place) in numbers.zip(list) {
        *place = number as u16;
        written += 1;
    }
    *count = written;
    0
}

/// The refusals of a graph on up to 6 vertices and of a list of so many places.
fn refusal(n: u64, neighbours: &[u64], places: usize) -> u8 {
    if n == 0 || n > 6 {
        return 2;
    }
    if places != ORBIT_PLACES {
        return 4;
    }
    refusals::of_record(n, neighbours, &[0; 6][..n as usize], &[])
}

/// A graph's number: the part of each word above its own place, one behind the other.
fn graph_number(n: usize, graph: &Graph) -> usize {
    let words = graph.iter().enumerate().take(n).rev();
    words.fold(0, |number, (a, word)| {
        number << (n - 1 - a) | (word >> (a + 1)) as usize
    })
}

/// The graph complemented at a vertex.
fn complemented(mut graph: Graph, a: usize) -> Graph {
    let around = graph[a];
    places(around).for_each(|b| graph[b] ^= around & !(1 << b));
    graph
}
