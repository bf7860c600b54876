//! Calls on a store of named states, valid and spoilt.

use crate::common::store::{damage_store, StoreCall};
use crate::common::Random;

/// A store and a record beside it, with at most two faults.
fn call(random: &mut Random) -> StoreCall {
    let n = 1 + random.below(8);
    let mut call = StoreCall::random(random, n);
    (0..random.below(3)).for_each(|_| damage_store(random, &mut call));
    call
}

/// What was saved comes back.
pub fn save(random: &mut Random) -> u8 {
    let call = call(random);
    let answer = call.save();
    let number = answer.as_ref().err().copied().unwrap_or(0);
    assert_eq!(number, call.save_due(), "{call:?}");
    if let Ok(after) = answer {
        let after = StoreCall {
            places: (64, 64),
            ..after
        };
        assert_eq!(after.return_to(), Ok(call.record.clone()), "{call:?}");
    }
    number
}

/// The record of the name's place.
pub fn return_to(random: &mut Random) -> u8 {
    let call = call(random);
    let answer = call.return_to();
    let number = answer.as_ref().err().copied().unwrap_or(0);
    assert_eq!(number, call.return_due(), "{call:?}");
    if let (Ok(record), Some(i)) = (answer, call.place()) {
        assert_eq!(record.codes, call.codes[64 * i..64 * i + record.n()]);
        assert_eq!(record.used, call.heads[3 * i + 2]);
    }
    number
}

/// The name's place is free afterwards, and no other head changes.
pub fn forget(random: &mut Random) -> u8 {
    let call = call(random);
    let answer = call.forget();
    let number = answer.as_ref().err().copied().unwrap_or(0);
    assert_eq!(number, call.forget_due(), "{call:?}");
    if let (Ok(heads), Some(i)) = (answer, call.place()) {
        let mut due = call.heads.clone();
        due[3 * i] = 0;
        assert_eq!(heads, due, "{call:?}");
    }
    number
}
