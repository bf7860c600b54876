//! Safe functions over the graph-state engine: stabilizer states on 1 to 64 qubits, held as
//! generator lists or as records of a graph with one local Clifford per vertex.
//!
//! A package depends on it by its path, `sukhlent = { path = "CLONE/rust/sukhlent" }`. It links the
//! static library of the clone, which `tools/build sukhlent` writes, or the one in the folder that
//! the variable SUKHLENT_LIB names.
//!
//! ```
//! use sukhlent::{expand, reduce, GeneratorList};
//!
//! // XX, ZZ: the Bell state is one edge with a Hadamard at qubit 1.
//! let bell = GeneratorList {
//!     signs: vec![0, 0],
//!     z: vec![0b00, 0b11],
//!     x: vec![0b11, 0b00],
//! };
//! let record = reduce(&bell)?;
//! assert_eq!(record.neighbours, [0b10, 0b01]);
//! assert_eq!(record.codes, [0, 8]);
//! assert_eq!(record.used, 0);
//! assert_eq!(expand(&record)?, bell);
//! # Ok::<(), sukhlent::Refusal>(())
//! ```
//!
//! A session starts with [`Record::zeros`] or [`Record::graph`] and goes on by [`gate`], [`cz`] and
//! [`measure`], or [`observe`] with a random bit; [`Record::measure_row`] measures a Pauli row of any
//! weight, and [`Record::renew`] puts a new photon at a measured qubit. CNOT is a Hadamard at the
//! target, CZ, and a Hadamard at the target:
//!
//! ```
//! use sukhlent::{codes, cz, gate, Record};
//!
//! let mut record = Record::zeros(2);
//! gate(&mut record, 0, codes::H)?;
//! gate(&mut record, 1, codes::H)?;
//! cz(&mut record, 0, 1)?;
//! gate(&mut record, 1, codes::H)?;
//! assert_eq!(record.to_string(), "\
//! qubit code neighbours used
//! 0 0 0000000000000002 0
//! 1 8 0000000000000001 0
//! ");
//! # Ok::<(), sukhlent::Refusal>(())
//! ```

#![warn(missing_docs)]

mod amplitude;
pub mod codes;
mod comparison;
mod cut;
mod expectation;
mod generator;
mod image;
mod in_place;
mod list;
mod orbit;
mod parity;
mod product;
pub mod raw;
mod record;
mod record_text;
mod refusal;
mod run;
mod shared;
mod source;
mod store;
mod strings;

pub use amplitude::PlotLine;
pub use comparison::{compare, compare_records, equivalent, equivalent_records, Comparison};
pub use cut::cut;
pub use generator::generate;
pub use image::{image, Image};
pub use in_place::{complement, cz, gate, measure, Measured, Pauli};
pub use list::{check, reduce, GeneratorList};
pub use orbit::{orbit, Orbit};
pub use product::{product, Product};
pub use record::{expand, Record};
pub use record_text::{read_record, write_record};
pub use refusal::Refusal;
pub use run::{run, Step};
pub use shared::{Group, Shared};
pub use source::{observe, Photon};
pub use store::Store;
pub use strings::{read_strings, write_strings};
