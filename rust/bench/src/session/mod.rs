//! A job of steps in five ways: by the calls, by expanding, changing the list and reducing, on a plain
//! tableau by rows and on one by columns, and on a graph that is not reduced. All qubits start in +Z.
//! No qubit is used up: the calls are given the used word 0.

mod calls;
mod columns;
mod graph;
mod lists;
mod plain;

pub use calls::Calls;
pub use columns::Columns;
pub use graph::Graph;
pub use lists::Lists;
pub use plain::Plain;

use crate::operation::Operation;
use sukhlent::{reduce, GeneratorList, Record};
use tableau::Measured;

/// What a step answers.
#[derive(Clone, Copy, Debug, PartialEq, Eq)]
pub enum Answer {
    /// A gate or a CZ.
    Done,
    /// A measurement.
    Measured(Measured),
    /// A measurement whose outcome the state forbids: nothing changes.
    Refused,
}

/// One way.
pub trait Session {
    /// All qubits in +Z.
    fn start(n: usize) -> Self;

    /// A gate, a CZ or a measurement with good arguments.
    fn step(&mut self, operation: Operation) -> Answer;

    /// The reduced record of the state.
    fn record(&self) -> Record;
}

/// A job from its start; the sum depends on every answer.
pub fn run<S: Session>(n: usize, job: &[Operation]) -> (S, u64) {
    let mut session = S::start(n);
    let sum = job.iter().fold(0, |sum: u64, &operation| {
        let digit = match session.step(operation) {
            Answer::Done => 0,
            Answer::Measured(measured) => 1 + u64::from(measured.outcome),
            Answer::Refused => 3,
        };
        sum.wrapping_mul(5).wrapping_add(digit)
    });
    (session, sum)
}

/// The starting record: code 8 and no edge.
fn start_record(n: usize) -> Record {
    Record {
        neighbours: vec![0; n],
        codes: vec![8; n],
        used: 0,
    }
}

/// The record of a list of generators.
fn record_of(signs: Vec<u8>, z: Vec<u64>, x: Vec<u64>) -> Record {
    reduce(&GeneratorList { signs, z, x }).expect("a list of proper generators")
}
