//! `reduce` on generator lists.

use super::Line;
use crate::plain;
use crate::seeded::{list, mixed, stabilizers, Circuit, Random};
use crate::timing::Ready;
use sukhlent::{raw, GeneratorList};

/// The signature that both reductions have.
pub type Reduce = fn(u64, &[u8], &[u64], &[u64], &mut [u64], &mut [u8], &mut u64) -> u8;

/// The number of lists.
const LISTS: usize = 512;
/// The number of lists in a timed sample.
const AT_ONCE: usize = 8;

/// The line of n qubits.
pub fn line(n: usize) -> Line {
    let lists = lists(n);
    lists.iter().for_each(assert_same_answers);
    let names = ("reduce", n, "lists of random states");
    Line::measured(names, &lists, AT_ONCE, [engine, in_plain_rust])
}

/// Seeded lists of generic states on n qubits.
fn lists(n: usize) -> Vec<GeneratorList> {
    let mut random = Random::new(n as u64);
    let one = |_| {
        let circuit = Circuit::random(&mut random, n, 10 * n);
        list(&mixed(&mut random, &stabilizers(&circuit)))
    };
    (0..LISTS).map(one).collect()
}

fn engine(lists: &[GeneratorList]) -> Ready<'_> {
    Box::new(|| run(raw::reduce, lists))
}

fn in_plain_rust(lists: &[GeneratorList]) -> Ready<'_> {
    Box::new(|| run(plain::reduce, lists))
}

/// Reduces every list. The answer buffers are used again and again, and not cleared between.
fn run(reduce: Reduce, lists: &[GeneratorList]) -> u64 {
    let (mut neighbours, mut codes, mut used) = ([0; 64], [0; 64], 0);
    lists.iter().fold(0, |sum, list| {
        let n = list.n();
        let refusal = reduce(
            n as u64,
            &list.signs,
            &list.z,
            &list.x,
            &mut neighbours[..n],
            &mut codes[..n],
            &mut used,
        );
        sum ^ neighbours[n - 1] ^ used ^ u64::from(codes[0]) ^ u64::from(refusal)
    })
}

/// Panics unless both reductions accept a list and write the same record.
fn assert_same_answers(list: &GeneratorList) {
    let n = list.n();
    let [engine, plain] = [raw::reduce as Reduce, plain::reduce].map(|reduce| {
        let (mut neighbours, mut codes, mut used) = (vec![0; n], vec![0; n], 77);
        let (signs, z, x) = (&list.signs, &list.z, &list.x);
        let (words, bytes) = (&mut neighbours, &mut codes);
        let refusal = reduce(n as u64, signs, z, x, words, bytes, &mut used);
        (refusal, neighbours, codes, used)
    });
    assert_eq!(engine.0, 0);
    assert_eq!(engine, plain);
}
