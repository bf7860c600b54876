//! `compare_records` on pairs of reduced records, beside expanding both and comparing the lists: in
//! plain Rust, and by the engine's own calls.

use super::compare::{Answer, Compare};
use super::values::Expand;
use super::Line;
use crate::pairs::equivalent;
use crate::plain;
use crate::seeded::{random_components, Random};
use crate::timing::{Ready, Work};
use sukhlent::{raw, reduce, Record};

/// The number of pairs.
const PAIRS: usize = 256;

/// Two records.
type Pair = (Record, Record);

fn lent(record: &Record) -> raw::LentGraph<'_> {
    (record.n() as u64, &record.neighbours, &record.codes)
}

/// The line of equivalent pairs with components of these sizes, beside plain Rust.
pub fn line(sizes: &[usize], name: &'static str) -> Line {
    measured(sizes, name, in_plain_rust)
}

/// The same beside the calls `expand`, `expand` and `compare`.
pub fn beside_lists(sizes: &[usize], name: &'static str) -> Line {
    measured(sizes, name, by_lists)
}

fn measured(sizes: &[usize], name: &'static str, other: Work<Pair>) -> Line {
    let pairs = pairs(sizes);
    pairs.iter().for_each(assert_same_answers);
    let names = ("compare_records", sizes.iter().sum(), name);
    Line::measured(names, &pairs, 1, [engine, other])
}

fn pairs(sizes: &[usize]) -> Vec<Pair> {
    let mut random = Random::new(sizes.len() as u64);
    let one = |_| {
        let graph = random_components(&mut random, sizes).neighbours;
        let (first, second) = equivalent(&mut random, &graph);
        let reduced = |list| reduce(list).expect("a state's generators");
        (reduced(&first), reduced(&second))
    };
    (0..PAIRS).map(one).collect()
}

fn engine(pairs: &[Pair]) -> Ready<'_> {
    Box::new(|| run(by_call, pairs))
}

fn in_plain_rust(pairs: &[Pair]) -> Ready<'_> {
    Box::new(|| run(in_plain, pairs))
}

fn by_lists(pairs: &[Pair]) -> Ready<'_> {
    Box::new(|| run(of_lists, pairs))
}

/// Compares every pair.
fn run(way: fn(&Pair, &mut Answer) -> u8, pairs: &[Pair]) -> u64 {
    let mut answer = Answer::empty();
    pairs.iter().fold(0, |sum, pair| {
        let number = way(pair, &mut answer);
        sum ^ answer.count ^ u64::from(answer.choice[pair.0.n() - 1] ^ number)
    })
}

fn by_call((first, second): &Pair, answer: &mut Answer) -> u8 {
    let Answer {
        choice,
        list,
        count,
    } = answer;
    raw::compare_records(
        lent(first),
        lent(second),
        &mut choice[..first.n()],
        list,
        count,
    )
}

fn in_plain(pair: &Pair, answer: &mut Answer) -> u8 {
    expanded_and_compared(plain::expand, plain::compare, pair, answer)
}

fn of_lists(pair: &Pair, answer: &mut Answer) -> u8 {
    expanded_and_compared(raw::expand, raw::compare, pair, answer)
}

fn expanded_and_compared(
    expand: Expand,
    compare: Compare,
    (first, second): &Pair,
    answer: &mut Answer,
) -> u8 {
    let mut lists = [([0; 64], [0; 64], [0; 64]); 2];
    for ((signs, z, x), record) in lists.iter_mut().zip([first, second]) {
        let n = record.n();
        let (words, codes) = (&record.neighbours, &record.codes);
        let (signs, z, x) = (&mut signs[..n], &mut z[..n], &mut x[..n]);
        let number = expand(n as u64, words, codes, 0, signs, z, x);
        if number != 0 {
            return number;
        }
    }
    let n = first.n();
    let [one, two] = [&lists[0], &lists[1]].map(|(s, z, x)| (n as u64, &s[..n], &z[..n], &x[..n]));
    let choice = &mut answer.choice[..n];
    compare(one, two, choice, &mut answer.list, &mut answer.count)
}

/// Panics unless all three ways accept a pair and write the same.
fn assert_same_answers(pair: &Pair) {
    let [engine, plain, lists] =
        [by_call as fn(&Pair, &mut Answer) -> u8, in_plain, of_lists].map(|way| {
            let mut answer = Answer::empty();
            (way(pair, &mut answer), answer)
        });
    assert_eq!(engine.0, 0);
    assert_eq!(engine, plain);
    assert_eq!(engine, lists);
}
