//! A load that anyone can repeat.

use crate::{raw, Refusal};

/// The text of a job of `count` steps on n qubits, at most 4,096, drawn one after the other from a
/// seed that is not 0. The same arguments give the same text everywhere.
///
/// Refusals: 15 (more than 4,096 steps), 2, 6 (the seed is 0).
///
/// ```
/// use sukhlent::generate;
///
/// let text = generate(64, 2, 1)?;
/// assert_eq!(text, "qubits\n64\nop a b value\ngate 8 0 4\nmeasure 8 0 5\n");
/// # Ok::<(), sukhlent::Refusal>(())
/// ```
pub fn generate(n: usize, count: usize, seed: u64) -> Result<String, Refusal> {
    let mut text = vec![0; raw::JOB_PLACES];
    let mut length = 0;
    let number = raw::generate(n as u64, count as u64, seed, &mut text, &mut length);
    Refusal::unless_accepted(number)?;
    text.truncate(length as usize);
    Ok(String::from_utf8(text).expect("a job text is of letters, digits, spaces and newlines"))
}
