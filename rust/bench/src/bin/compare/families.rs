//! Families of graphs on 20 and on 64 vertices.

use bench::pairs::Graph;
use bench::seeded::Random;

/// The numbers of vertices.
pub const N: usize = 20;
pub const LARGE: usize = 64;

/// A family of graphs.
pub struct Family {
    /// What the graphs are.
    pub name: &'static str,
    /// A graph of the family.
    pub member: fn(&mut Random) -> Graph,
    /// A graph that is to be told from the member given.
    pub other: fn(&mut Random, &Graph) -> Graph,
}

/// A family whose graphs are told from others of it, and from those with some edges changed.
const fn family(name: &'static str, member: fn(&mut Random) -> Graph) -> Family {
    Family {
        name,
        member,
        other: relabelled_or_changed,
    }
}

/// The families on 20 vertices.
pub const FAMILIES: [Family; 15] = [
    family("random graphs", |random| random_graph(random, N, 2)),
    family("sparse random graphs", |random| random_graph(random, N, 8)),
    family("paths", |random| relabelled(random, &graph(N, path(0, N)))),
    family("rings", |random| relabelled(random, &ring(N))),
    family("stars", |random| relabelled(random, &star(N))),
    family("grids 4 × 5", |random| relabelled(random, &grid(4, 5))),
    family("complete bipartite 10 + 10", |random| {
        relabelled(random, &joined(N, |a, b| a < 10 && b >= 10))
    }),
    family("two Petersen graphs", |random| {
        relabelled(
            random,
            &joined(N, |a, b| a / 10 == b / 10 && petersen(a % 10, b % 10)),
        )
    }),
    family("rook's graph 4 × 4, path", |random| {
        relabelled(random, &padded(N, 16, rook))
    }),
    family("Shrikhande graph, path", |random| {
        relabelled(random, &padded(N, 16, shrikhande))
    }),
    Family {
        name: "rook's, Shrikhande",
        member: |_| padded(N, 16, rook),
        other: |_, _| padded(N, 16, shrikhande),
    },
    family("Clebsch graph, path", |random| {
        relabelled(random, &padded(N, 16, clebsch))
    }),
    family("Paley graph of 17, path", |random| {
        relabelled(random, &padded(N, 17, paley_17))
    }),
    family("triples of six points", |random| {
        relabelled(random, &joined(N, triples))
    }),
    Family {
        name: "8 Bell pairs, then 4 vertices",
        member: |_| graph(N, bell_pairs(8).chain(path(16, N))),
        other: |_, _| graph(N, bell_pairs(8).chain((17..N).map(|b| (16, b)))),
    },
];

/// The families on 64 vertices.
pub const LARGE_FAMILIES: [Family; 12] = [
    family("random graphs", |random| random_graph(random, LARGE, 2)),
    family("trees and 64 edges more", |random| {
        let mut graph = tree(random);
        for _ in 0..LARGE {
            let (a, b) = random.pair_below(LARGE);
            graph[a] |= 1 << b;
            graph[b] |= 1 << a;
        }
        graph
    }),
    family("trees", tree),
    family("rings", |random| relabelled(random, &ring(LARGE))),
    family("stars", |random| relabelled(random, &star(LARGE))),
    family("complete graphs", |_| joined(LARGE, |_, _| true)),
    family("grids 8 × 8", |random| relabelled(random, &grid(8, 8))),
    family("complete bipartite 32 + 32", |random| {
        relabelled(random, &joined(LARGE, |a, b| a < 32 && b >= 32))
    }),
    family("Paley graph of 61, path", |random| {
        relabelled(random, &chained(&padded(LARGE, 61, paley_61), &[60]))
    }),
    family("two rook's, two Shrikhande", |random| {
        relabelled(random, &joined(LARGE, four_squares))
    }),
    family("the same in a chain", |random| {
        relabelled(random, &in_a_chain(four_squares))
    }),
    Family {
        name: "four rook's in a chain, that chain",
        member: |_| in_a_chain(|a, b| a / 16 == b / 16 && rook(a % 16, b % 16)),
        other: |_, _| in_a_chain(four_squares),
    },
];

/// Two rook's graphs and two Shrikhande graphs side by side.
fn four_squares(a: usize, b: usize) -> bool {
    let edge = if a < 32 { rook } else { shrikhande };
    a / 16 == b / 16 && edge(a % 16, b % 16)
}

/// The graph with the last vertex of each sixteen joined to the next.
fn in_a_chain(edge: impl Fn(usize, usize) -> bool) -> Graph {
    chained(&joined(LARGE, edge), &[15, 31, 47])
}

/// The graph with some vertices joined to the next.
fn chained(graph: &Graph, vertices: &[usize]) -> Graph {
    let mut chained = graph.clone();
    for &a in vertices {
        chained[a] |= 2 << a;
        chained[a + 1] |= 1 << a;
    }
    chained
}

/// A tree on 64 vertices, each joined to one before it.
fn tree(random: &mut Random) -> Graph {
    let edges: Vec<_> = (1..LARGE).map(|b| (random.below(b), b)).collect();
    relabelled(random, &graph(LARGE, edges))
}

fn graph(n: usize, edges: impl IntoIterator<Item = (usize, usize)>) -> Graph {
    let mut neighbours = vec![0; n];
    for (a, b) in edges {
        neighbours[a] |= 1 << b;
        neighbours[b] |= 1 << a;
    }
    neighbours
}

/// The graph in which a and b, a below b and b below n, are joined where `edge` says so.
fn joined(n: usize, edge: impl Fn(usize, usize) -> bool) -> Graph {
    let pairs = (0..n).flat_map(|b| (0..b).map(move |a| (a, b)));
    graph(n, pairs.filter(|&(a, b)| edge(a, b)))
}

/// A graph on the first k of n vertices, and a path on the others.
fn padded(n: usize, k: usize, edge: fn(usize, usize) -> bool) -> Graph {
    let first = joined(n, |a, b| b < k && edge(a, b));
    let rest = graph(n, path(k, n));
    first.iter().zip(rest).map(|(a, b)| a | b).collect()
}

/// A graph on n vertices in which one pair in `of` is joined.
fn random_graph(random: &mut Random, n: usize, of: usize) -> Graph {
    let pairs = (0..n).flat_map(|b| (0..b).map(move |a| (a, b)));
    let edges: Vec<_> = pairs.filter(|_| random.below(of) == 0).collect();
    graph(n, edges)
}

fn path(first: usize, end: usize) -> impl Iterator<Item = (usize, usize)> {
    (first + 1..end).map(|b| (b - 1, b))
}

fn bell_pairs(number: usize) -> impl Iterator<Item = (usize, usize)> {
    (0..number).map(|k| (2 * k, 2 * k + 1))
}

fn ring(n: usize) -> Graph {
    graph(n, path(0, n).chain([(0, n - 1)]))
}

fn star(n: usize) -> Graph {
    graph(n, (1..n).map(|b| (0, b)))
}

fn grid(rows: usize, columns: usize) -> Graph {
    joined(rows * columns, |a, b| {
        b == a + columns || b == a + 1 && b % columns != 0
    })
}

/// Vertices 0 to 4 are a ring, 5 to 9 a five-pointed star, and k is joined to 5 + k.
fn petersen(a: usize, b: usize) -> bool {
    let apart = (5 + b % 5 - a % 5) % 5;
    match (a / 5, b / 5) {
        (0, 0) => apart == 1 || apart == 4,
        (1, 1) => apart == 2 || apart == 3,
        _ => apart == 0,
    }
}

/// Squares of a board in the same row or column.
fn rook(a: usize, b: usize) -> bool {
    a / 4 == b / 4 || a % 4 == b % 4
}

/// Pairs modulo 4 whose difference is ±(1, 0), ±(0, 1) or ±(1, 1).
fn shrikhande(a: usize, b: usize) -> bool {
    let difference = ((4 + b / 4 - a / 4) % 4, (4 + b % 4 - a % 4) % 4);
    [(1, 0), (3, 0), (0, 1), (0, 3), (1, 1), (3, 3)].contains(&difference)
}

/// Words of four bits that differ in one place or in all.
fn clebsch(a: usize, b: usize) -> bool {
    [1, 4].contains(&(a ^ b).count_ones())
}

/// Numbers modulo 17 whose difference is a square.
fn paley_17(a: usize, b: usize) -> bool {
    is_square(b - a, 17)
}

/// Numbers modulo 61 whose difference is a square.
fn paley_61(a: usize, b: usize) -> bool {
    is_square(b - a, 61)
}

fn is_square(number: usize, modulus: usize) -> bool {
    (1..modulus).any(|k| k * k % modulus == number)
}

/// Triples of six points, joined where they share two.
fn triples(a: usize, b: usize) -> bool {
    let triple = |k: usize| (0..64u32).filter(|set| set.count_ones() == 3).nth(k);
    let shared = triple(a).zip(triple(b)).map(|(s, t)| s & t);
    shared.is_some_and(|points| points.count_ones() == 2)
}

/// The graph with its vertices in random order.
fn relabelled(random: &mut Random, graph: &Graph) -> Graph {
    let n = graph.len();
    let mut order: Vec<usize> = (0..n).collect();
    for k in 1..n {
        order.swap(k, random.below(k + 1));
    }
    joined(n, |a, b| graph[order[a]] >> order[b] & 1 == 1)
}

/// The graph in another order, or with one to three edges changed.
fn relabelled_or_changed(random: &mut Random, graph: &Graph) -> Graph {
    let changes = random.below(4);
    if changes == 0 {
        return relabelled(random, graph);
    }
    let mut other = graph.clone();
    for _ in 0..changes {
        let (a, b) = random.pair_below(graph.len());
        other[a] ^= 1 << b;
        other[b] ^= 1 << a;
    }
    other
}
