//! What the C header publishes.

use std::sync::OnceLock;

const HEADER: &str = include_str!("../../../include/sukhlent.h");

/// The names of the calls, without their prefix, each with the refusals that it can answer.
pub fn published() -> &'static [(&'static str, Vec<u8>)] {
    static CALLS: OnceLock<Vec<(&str, Vec<u8>)>> = OnceLock::new();
    CALLS.get_or_init(|| {
        let declarations: Vec<&str> = HEADER.split("uint8_t sukhlent_").collect();
        let pairs = declarations.windows(2);
        pairs
            .map(|pair| (name(pair[1]), refusals(pair[0])))
            .collect()
    })
}

/// The refusals that a call can answer; none where the header does not declare it.
pub fn refusals_of(call: &str) -> &'static [u8] {
    let found = published().iter().find(|(name, _)| *name == call);
    found.map_or(&[], |(_, refusals)| refusals)
}

/// The name at the start of a text.
fn name(text: &'static str) -> &'static str {
    text.split('(').next().expect("a declaration has a bracket")
}

/// The numbers of the last sentence of refusals in a text. What stands in brackets is passed over.
fn refusals(text: &str) -> Vec<u8> {
    let (_, sentence) = text.rsplit_once("Refusals: ").expect("a call's refusals");
    let (sentence, _) = sentence.split_once("*/").expect("the end of a comment");
    let outside = sentence.split(['(', ')']).step_by(2).collect::<String>();
    let (numbers, _) = outside.split_once('.').expect("a sentence");
    let number = |word: &str| word.trim().parse().expect("a number");
    numbers.split(',').map(number).collect()
}

#[cfg(test)]
mod tests {
    use super::*;

    #[test]
    fn the_refusals_of_a_call() {
        assert_eq!(refusals_of("expand"), [2, 4, 5, 6, 7]);
        assert_eq!(refusals_of("measure"), [2, 4, 5, 6, 7, 8, 16, 14]);
        assert_eq!(refusals_of("complement"), [2, 4, 5, 6, 7, 8, 16]);
        assert_eq!(refusals_of("pivot"), []);
        assert_eq!(refusals_of("expansion"), []);
    }
}
