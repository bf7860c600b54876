//! Sessions of seeded calls on one record, compared call by call with a plain tableau.
//!
//! After each call the record is compared with the reduced record of the tableau's group, by an
//! elimination in plain Rust; outcomes, and bits that the state forbids, with the tableau's;
//! complements with document 01's text; refusals with its list; the used word with the qubits that
//! were measured; and the values of some rows with the tableau's. Every few calls the state is
//! compared with an earlier one under local Cliffords. A session goes on with the qubits that are
//! left, and where all are used it starts anew.
//!
//! `pairs` makes pairs of runs of two groups on one record: what one group sees does not depend on
//! the other's calls. `source` makes sessions that go on: a used place gets a new photon; `source_runs`
//! makes their calls as the steps of runs. `rows` measures Pauli rows of any weight between gates and CZ.

mod choice;
mod counts;
mod marks;
mod pairs;
mod rows;
mod session;
mod source;
mod values;

#[path = "../../sukhlent/tests/common/mod.rs"]
mod common;

#[allow(dead_code, unused_imports)]
#[path = "../../bench/src/plain/mod.rs"]
mod plain;

pub use counts::Counts;
pub use pairs::{pairs, PairCounts};
pub use rows::{rows, RowCounts};
pub use session::Session;
pub use source::{source, source_runs, SourceCounts};

/// Makes so many calls on n qubits. The error names the call and what is different.
pub fn run(
    n: usize,
    seed: u64,
    calls: u64,
    mut progress: impl FnMut(u64, &Counts),
) -> Result<Counts, String> {
    let mut session = Session::new(n, seed);
    for number in 1..=calls {
        session.step().map_err(|difference| {
            format!("{n} qubits, seed {seed}, call {number}: {difference}")
        })?;
        progress(number, &session.counts);
    }
    Ok(session.counts)
}
