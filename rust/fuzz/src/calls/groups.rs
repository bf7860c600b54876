//! Calls of two groups on one record, valid and spoilt.

use crate::common::reference::{group_after, group_refusal};
use crate::common::shared::{damage, own, random_word, GroupCall, Lent};
use crate::common::Random;

/// A call of one kind, with at most two faults: its number, what it leaves, and that the vertices and
/// the states of the other group stay.
fn once(random: &mut Random, kind: usize) -> u8 {
    let word = random_word(random);
    let mut lent = Lent::random(random, word);
    (0..random.below(3)).for_each(|_| damage(random, &mut lent));
    let group = match random.below(30) {
        0 => random.word() as u8,
        other => (other % 2) as u8,
    };
    let call = GroupCall::random(random, kind, own(word, group));
    let due = group_refusal(&lent, group, call);
    match lent.call(group, call) {
        Err(number) => assert_eq!(number, due, "{call:?} of {group} on {lent:?}"),
        Ok(left) => {
            assert_eq!(due, 0, "{call:?} of {group} on {lent:?}");
            let due = group_after(&lent, group, call);
            assert_eq!(left, due, "{call:?} of {group} on {lent:?}");
        }
    }
    due
}

pub fn gate(random: &mut Random) -> u8 {
    once(random, 0)
}

pub fn cz(random: &mut Random) -> u8 {
    once(random, 1)
}

pub fn measure(random: &mut Random) -> u8 {
    once(random, 2)
}

pub fn complement(random: &mut Random) -> u8 {
    once(random, 3)
}

pub fn save(random: &mut Random) -> u8 {
    once(random, 4)
}

pub fn return_to(random: &mut Random) -> u8 {
    once(random, 5)
}

pub fn forget(random: &mut Random) -> u8 {
    once(random, 6)
}

pub fn observe(random: &mut Random) -> u8 {
    once(random, 7)
}

pub fn renew(random: &mut Random) -> u8 {
    once(random, 8)
}
