//! Calls on one record in place.

use crate::arguments::{in_place_call, size};
use crate::common::{Operation, Random};
use sukhlent::{expand, reduce, Record, Refusal};

pub fn gate(random: &mut Random) -> u8 {
    leaves_reduced(random, 0)
}

pub fn cz(random: &mut Random) -> u8 {
    leaves_reduced(random, 1)
}

pub fn measure(random: &mut Random) -> u8 {
    leaves_reduced(random, 2)
}

pub fn complement(random: &mut Random) -> u8 {
    keeps_group(random, 3)
}

/// The record left is the reduced one of its group, apart from the used word.
fn leaves_reduced(random: &mut Random, kind: usize) -> u8 {
    once(random, kind, |_, after| {
        let used = after.used;
        let reduced = reduced(after).map(|record| Record { used, ..record });
        assert_eq!(reduced.as_ref(), Ok(after));
    })
}

/// The record left has the group of the one lent.
fn keeps_group(random: &mut Random, kind: usize) -> u8 {
    once(random, kind, |before, after| {
        assert_eq!(reduced(after), reduced(before));
    })
}

/// A call of one kind: its number is the one due, and an accepted one's records are as `assert` has
/// them.
fn once(random: &mut Random, kind: usize, assert: impl Fn(&Record, &Record)) -> u8 {
    let n = size(random);
    let call = in_place_call(random, kind, n);
    let answer = call.apply();
    let number = answer.as_ref().err().copied().unwrap_or(0);
    assert_eq!(number, call.due(), "{call:?}");
    if let Ok((after, _)) = answer {
        let before = call.record();
        assert(&before, &after);
        assert_used(&before, call.with, &after);
    }
    number
}

/// Only a measurement adds to the used word, and the used vertices before are as they were.
fn assert_used(before: &Record, operation: Operation, after: &Record) {
    let measured = match operation {
        Operation::Measure(_, q, _) => 1 << q,
        _ => 0,
    };
    assert_eq!(after.used, before.used | measured, "{operation:?}");
    for q in (0..before.n()).filter(|q| before.used >> q & 1 == 1) {
        let vertex = |record: &Record| (record.neighbours[q], record.codes[q]);
        assert_eq!(vertex(after), vertex(before), "{operation:?}, vertex {q}");
    }
}

/// The reduced record of a record's group.
fn reduced(record: &Record) -> Result<Record, Refusal> {
    reduce(&expand(record)?)
}
