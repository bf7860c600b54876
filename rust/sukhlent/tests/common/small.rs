//! Every record of a small size.

use sukhlent::Record;

/// The records of n vertices: every graph, codes 0 to 23 and one that is none, and every used word with one bit more
/// than there are vertices.
pub fn every_record(n: usize) -> impl Iterator<Item = Record> {
    let codes = move |m: usize| (0..n as u32).map(move |q| (m / 25usize.pow(q) % 25) as u8);
    let graphs: &[&[u64]] = match n {
        1 => &[&[0]],
        _ => &[&[0, 0], &[2, 1]],
    };
    graphs.iter().flat_map(move |neighbours| {
        (0..25usize.pow(n as u32)).flat_map(move |m| {
            (0..2 << n).map(move |used| Record {
                neighbours: neighbours.to_vec(),
                codes: codes(m).collect(),
                used,
            })
        })
    })
}
