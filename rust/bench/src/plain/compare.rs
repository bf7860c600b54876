//! The comparison in plain Rust: the refusals, two reductions, the search, and the image rule.

use super::codes::Codes;
use super::image::Rule;
use super::reduce::reduced;
use super::refusals;
use super::search::{least_choice, Group};
use super::{places, LIST_PLACES};
use sukhlent::raw::Lent;

/// A reduced record.
struct Record {
    neighbours: [u64; 64],
    numbers: [u8; 64],
    codes: Codes,
}

/// Writes the least choice that carries the first group onto the second, and the complementations
/// between the reduced graphs, or answers the number of the refusal.
pub fn compare(
    first: Lent,
    second: Lent,
    choice: &mut [u8],
    list: &mut [u8],
    count: &mut u64,
) -> u8 {
    let refusal = refusal(first, second, choice.len(), list.len());
    if refusal != 0 {
        return refusal;
    }
    let n = choice.len();
    let (Some(a), Some(b)) = (record(first), record(second)) else {
        return 10;
    };
    if [&a, &b].into_iter().any(|record| has_large_part(record, n)) {
        return 3;
    }
    let Some(least) = least_by_parts(n, &a, &b) else {
        return 13;
    };
    choice.copy_from_slice(&least[..n]);
    let chosen = a.codes.then(&Codes::new(choice));
    let induced = chosen.then(&b.codes.inverse());
    Rule::run(&a.neighbours[..n], induced).write_list(list, count);
    0
}

/// The refusals before that of dependent generators.
fn refusal(first: Lent, second: Lent, choice: usize, list: usize) -> u8 {
    let n = first.0;
    if n == 0 || n > 64 || n != second.0 {
        return 2;
    }
    if choice as u64 != n || list != LIST_PLACES {
        return 4;
    }
    let found = [first, second].map(|list| refusals::of_list(list, &[]));
    let numbers = found.into_iter().filter(|&number| number != 0);
    numbers.min().unwrap_or(0)
}

/// The reduced record of a list, unless its generators are dependent.
fn record((_, signs, z, x): Lent) -> Option<Record> {
    let n = signs.len();
    let (mut neighbours, mut numbers) = ([0; 64], [0; 64]);
    let found = reduced(signs, z, x, &mut neighbours[..n], &mut numbers[..n]);
    found.then(|| Record {
        neighbours,
        numbers,
        codes: Codes::new(&numbers[..n]),
    })
}

/// The part of a vertex.
fn part(neighbours: &[u64; 64], q: usize) -> u64 {
    let (mut part, mut fresh) = (1u64 << q, 1u64 << q);
    while fresh != 0 {
        let around = neighbours[fresh.trailing_zeros() as usize] & !part;
        part |= around;
        fresh = fresh & (fresh - 1) | around;
    }
    part
}

/// Whether a part has more than 20 vertices.
fn has_large_part(record: &Record, n: usize) -> bool {
    (0..n).any(|q| part(&record.neighbours, q).count_ones() > 20)
}

/// The least choice, part after part.
fn least_by_parts(n: usize, a: &Record, b: &Record) -> Option<[u8; 64]> {
    let mut choice = [0; 64];
    let mut rest = u64::MAX >> (64 - n);
    while rest != 0 {
        let component = part(&a.neighbours, rest.trailing_zeros() as usize);
        if places(component).any(|q| b.neighbours[q] & !component != 0) {
            return None;
        }
        let [from, to] = [a, b].map(|record| group(record, component));
        let least = least_choice(component.count_ones() as usize, &from, &to)?;
        for (q, code) in places(component).zip(least) {
            choice[q] = code;
        }
        rest &= !component;
    }
    Some(choice)
}

/// The group of a part, its vertices in rising order.
fn group(record: &Record, component: u64) -> Group {
    let (mut neighbours, mut numbers) = ([0; 20], [0; 20]);
    for (i, q) in places(component).enumerate() {
        let bits = places(component).enumerate();
        let bit = |(j, p): (usize, usize)| (record.neighbours[q] >> p & 1) << j;
        neighbours[i] = bits.map(bit).sum();
        numbers[i] = record.numbers[q];
    }
    let k = component.count_ones() as usize;
    Group::new(&neighbours[..k], &Codes::new(&numbers[..k]))
}
