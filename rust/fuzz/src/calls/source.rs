//! The calls of a source that goes on.

use crate::arguments::{size, source_call};
use crate::common::source::Source;
use crate::common::Random;

pub fn observe(random: &mut Random) -> u8 {
    once(random, 0)
}

pub fn renew(random: &mut Random) -> u8 {
    once(random, 1)
}

/// A call of one kind: its number is the one due, and an accepted one leaves what is due.
fn once(random: &mut Random, kind: usize) -> u8 {
    let n = size(random);
    let call = source_call(random, kind, n);
    let answer = call.apply_source();
    let number = answer.as_ref().err().copied().unwrap_or(0);
    assert_eq!(number, call.due_number(), "{call:?}");
    if let Ok((after, measured)) = answer {
        let (due, due_measured) = call.due_after();
        assert_eq!((&after, measured), (&due, due_measured), "{call:?}");
        let used = match call.with {
            Source::Observe(_, q, _) => call.used | 1 << q,
            Source::Renew(q, _) => call.used & !(1 << q),
        };
        assert_eq!(after.used, used, "{call:?}");
    }
    number
}
