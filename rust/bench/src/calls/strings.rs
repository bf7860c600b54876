//! `read_strings` and `write_strings` on lists of random states, and on texts that are refused as
//! soon as they are read.

use super::Line;
use crate::plain;
use crate::seeded::{list, mixed, stabilizers, Circuit, Random};
use crate::timing::Ready;
use sukhlent::{raw, write_strings, GeneratorList};

/// The signature that both readers have.
pub type Read = fn(&[u8], &mut [u8], &mut [u64], &mut [u64]) -> u8;

/// The signature that both writers have.
pub type Write = for<'a> fn(raw::Lent<'a>, &mut [u8]) -> u8;

/// The number of lists.
const LISTS: usize = 512;
/// The number of lists in a timed sample.
const AT_ONCE: usize = 8;

/// A list and its text.
struct Case {
    list: GeneratorList,
    text: Vec<u8>,
}

/// Seeded lists of generic states on n qubits, with their texts.
fn cases(n: usize) -> Vec<Case> {
    let mut random = Random::new(n as u64);
    let one = |_| {
        let circuit = Circuit::random(&mut random, n, 10 * n);
        let list = list(&mixed(&mut random, &stabilizers(&circuit)));
        let text = write_strings(&list)
            .expect("a list of a state")
            .into_bytes();
        Case { list, text }
    };
    (0..LISTS).map(one).collect()
}

/// The line of reading texts of n lines.
pub fn reading(n: usize) -> Line {
    let cases = cases(n);
    cases.iter().for_each(|case| assert_same(case, 0));
    let names = ("read_strings", n, "texts of random states");
    Line::measured(names, &cases, AT_ONCE, [read_by_engine, read_plainly])
}

/// The line of reading texts of n lines whose first two generators do not commute: the whole text
/// is judged and read, and its list refused at once.
pub fn reading_alone(n: usize) -> Line {
    let mut cases = cases(n);
    for case in &mut cases {
        let (first, rest) = case.text.split_at_mut(n + 2);
        first[1..=n].fill(b'X');
        rest[1..=n].fill(b'I');
        rest[1] = b'Z';
    }
    cases.iter().for_each(|case| assert_same(case, 9));
    let names = ("read_strings", n, "texts refused by 9 at once");
    Line::measured(names, &cases, AT_ONCE, [read_by_engine, read_plainly])
}

/// The line of writing lists of n generators.
pub fn writing(n: usize) -> Line {
    let cases = cases(n);
    for case in &cases {
        let mut text = vec![0; n * (n + 2)];
        assert_eq!(plain::write_strings(lent(&case.list), &mut text), 0);
        assert_eq!(text, case.text);
    }
    let names = ("write_strings", n, "lists of random states");
    Line::measured(names, &cases, AT_ONCE, [write_by_engine, write_plainly])
}

/// The line of checking the same lists, which reading and writing do too.
pub fn checking(n: usize) -> Line {
    let cases = cases(n);
    let names = ("check", n, "lists of random states");
    Line::measured(names, &cases, AT_ONCE, [check_by_engine, check_plainly])
}

fn lent(list: &GeneratorList) -> raw::Lent<'_> {
    (list.n() as u64, &list.signs, &list.z, &list.x)
}

fn read_by_engine(cases: &[Case]) -> Ready<'_> {
    Box::new(|| read_all(raw::read_strings, cases))
}

fn read_plainly(cases: &[Case]) -> Ready<'_> {
    Box::new(|| read_all(plain::read_strings, cases))
}

fn write_by_engine(cases: &[Case]) -> Ready<'_> {
    Box::new(|| write_all(raw::write_strings, cases))
}

fn write_plainly(cases: &[Case]) -> Ready<'_> {
    Box::new(|| write_all(plain::write_strings, cases))
}

fn check_by_engine(cases: &[Case]) -> Ready<'_> {
    Box::new(|| check_all(|(n, signs, z, x)| raw::check(n, signs, z, x), cases))
}

fn check_plainly(cases: &[Case]) -> Ready<'_> {
    Box::new(|| check_all(plain::check, cases))
}

/// Reads every text. The answer buffers are used again and again, and not cleared between.
fn read_all(read: Read, cases: &[Case]) -> u64 {
    let (mut signs, mut z, mut x) = ([0; 64], [0; 64], [0; 64]);
    cases.iter().fold(0, |sum, Case { list, text }| {
        let n = list.n();
        let refusal = read(text, &mut signs[..n], &mut z[..n], &mut x[..n]);
        sum ^ z[n - 1] ^ x[0] ^ u64::from(signs[0]) ^ u64::from(refusal)
    })
}

/// Writes every text, into one buffer.
fn write_all(write: Write, cases: &[Case]) -> u64 {
    let mut text = [0; 64 * 66];
    cases.iter().fold(0, |sum, Case { list, text: own }| {
        let refusal = write(lent(list), &mut text[..own.len()]);
        sum ^ u64::from(text[own.len() / 2]) ^ u64::from(refusal)
    })
}

/// Checks every list.
fn check_all(check: impl Fn(raw::Lent) -> u8, cases: &[Case]) -> u64 {
    let number = |case: &Case| u64::from(check(lent(&case.list)));
    cases.iter().map(number).sum()
}

/// Panics unless both readers answer this number to a text, and leave the same.
fn assert_same(case: &Case, number: u8) {
    let n = case.list.n();
    let [engine, plain] = [raw::read_strings as Read, plain::read_strings].map(|read| {
        let (mut signs, mut z, mut x) = (vec![7; n], vec![7; n], vec![7; n]);
        let number = read(&case.text, &mut signs, &mut z, &mut x);
        (number, signs, z, x)
    });
    assert_eq!(engine.0, number);
    assert_eq!(engine, plain);
}
