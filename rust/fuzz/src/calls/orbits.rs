//! Orbits of graphs.

use crate::arguments::orbit_call;
use crate::common::Random;

/// A list is that of a plain search.
pub fn orbit(random: &mut Random) -> u8 {
    let call = orbit_call(random);
    let answer = call.orbit();
    assert_eq!(answer, call.due(), "{call:?}");
    answer.err().unwrap_or(0)
}
