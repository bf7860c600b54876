//! Seeded lists, reference answers by document 01's text, and guarded calls.
#![allow(dead_code, unused_imports)]

pub mod amplitude;
pub mod calls;
pub mod codes;
pub mod complementations;
pub mod cut;
pub mod damage;
pub mod expectation;
pub mod generate;
pub mod guarded;
pub mod image;
pub mod in_place;
pub mod local;
pub mod operation;
pub mod orbit;
pub mod pairs;
pub mod parity;
pub mod process;
pub mod product;
pub mod reading;
pub mod record_pairs;
pub mod record_text;
pub mod reference;
pub mod runs;
pub mod seeded;
pub mod shared;
pub mod small;
pub mod source;
pub mod store;
pub mod strings;
pub mod vectors;

pub use amplitude::At;
pub use calls::{Lengths, ListCall, RecordCall};
pub use codes::images;
pub use cut::Side;
pub use expectation::Letters;
pub use generate::GenerateCall;
pub use image::ImageLengths;
pub use operation::Operation;
pub use orbit::OrbitCall;
pub use pairs::PairCall;
pub use record_pairs::RecordPairCall;
pub use seeded::{
    isolate, list, mixed, parsed, pauli, random_components, random_record, random_rows,
    random_sizes, random_used_record, rows, stabilizers, use_up, Circuit, Pauli, Random,
};
pub use strings::ReadCall;
