//! Many steps in one call.

use crate::arguments::{run_call, size};
use crate::common::Random;

/// What the calls leave and answer, step by step.
pub fn run(random: &mut Random) -> u8 {
    let n = size(random);
    let call = run_call(random, n);
    let answer = call.run();
    let number = answer.as_ref().err().copied().unwrap_or(0);
    assert_eq!(number, call.due(), "{call:?}");
    if let Ok(answer) = answer {
        assert_eq!(answer, call.one_by_one(), "{call:?}");
    }
    number
}
