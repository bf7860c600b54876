//! The generator of jobs.

use crate::arguments::generate_call;
use crate::common::Random;

/// A text is that of the steps drawn.
pub fn generate(random: &mut Random) -> u8 {
    let call = generate_call(random);
    let answer = call.generate();
    assert_eq!(answer, call.due(), "{call:?}");
    answer.err().unwrap_or(0)
}
