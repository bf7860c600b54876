//! Brute force: all choices of a class per qubit, in order.

use bench::codes::images;
use bench::seeded::pauli::{X, Z};
use sukhlent::GeneratorList;

/// The letters of a row.
#[derive(Clone, Copy, Default)]
struct Letters {
    z: u64,
    x: u64,
}

/// The least classes that carry the first list onto the second, signs dropped: the images must
/// commute with all of the second list.
pub fn least_classes(first: &GeneratorList, second: &GeneratorList) -> Option<Vec<u8>> {
    let n = first.n();
    let others: Vec<Letters> = letters(second).collect();
    let given: Vec<Letters> = letters(first).collect();
    let mut classes = vec![0; n];
    let mut sent = given.clone();
    loop {
        if sent
            .iter()
            .all(|row| others.iter().all(|h| commute(row, h)))
        {
            return Some(classes);
        }
        // The next choice: the last qubit's class changes first.
        let mut q = n;
        loop {
            if q == 0 {
                return None;
            }
            q -= 1;
            classes[q] = (classes[q] + 1) % 6;
            for (row, from) in sent.iter_mut().zip(&given) {
                send(row, from, q, classes[q]);
            }
            if classes[q] != 0 {
                break;
            }
        }
    }
}

fn letters(list: &GeneratorList) -> impl Iterator<Item = Letters> + '_ {
    let both = list.z.iter().zip(&list.x);
    both.map(|(&z, &x)| Letters { z, x })
}

fn commute(a: &Letters, b: &Letters) -> bool {
    (a.z & b.x ^ a.x & b.z).count_ones() % 2 == 0
}

/// Puts the image of a row's letter at qubit q under a class in its place.
fn send(row: &mut Letters, from: &Letters, q: usize, class: u8) {
    let ((_, to_x), (_, to_z)) = images(4 * class);
    let of_x = if from.x >> q & 1 == 1 { to_x } else { 0 };
    let of_z = if from.z >> q & 1 == 1 { to_z } else { 0 };
    let letter = of_x ^ of_z;
    row.z = row.z & !(1 << q) | u64::from(letter & Z != 0) << q;
    row.x = row.x & !(1 << q) | u64::from(letter & X != 0) << q;
}
