//! The calls in plain Rust, written from document 01's text on whole words.

mod amplitude;
mod codes;
mod compare;
mod equations;
mod graphs;
mod image;
mod orbit;
mod parity;
mod product;
mod reduce;
mod refusals;
mod row;
mod search;
mod strings;
mod values;

pub use amplitude::{amplitude, supported_word};
pub use compare::compare;
pub use graphs::{complement, cut};
pub use image::image;
pub use orbit::orbit;
pub use parity::measure_row;
pub use product::product;
pub use reduce::reduce;
pub use row::Row;
pub use strings::{check, read_strings, write_strings};
pub use values::{expand, expectation};

/// The places of a buffer for a list of complementations.
const LIST_PLACES: usize = 96;

/// The places of the set bits of a word, rising.
fn places(mut word: u64) -> impl Iterator<Item = usize> {
    std::iter::from_fn(move || {
        let place = (word != 0).then(|| word.trailing_zeros() as usize)?;
        word &= word - 1;
        Some(place)
    })
}

/// Whether the ones of a word are odd in number.
fn odd(word: u64) -> bool {
    word.count_ones() % 2 == 1
}
