//! The calls on a lent record. Each is given the used word 0: measured qubits go on taking part.

use super::{start_record, Answer, Session};
use crate::operation::Operation;
use sukhlent::Record;
use tableau::Measured;

pub struct Calls(Record);

impl Calls {
    /// A session that starts with a record, reduced or not.
    pub fn on(record: Record) -> Calls {
        Calls(record)
    }
}

impl Session for Calls {
    fn start(n: usize) -> Calls {
        Calls::on(start_record(n))
    }

    fn step(&mut self, operation: Operation) -> Answer {
        let n = self.0.codes.len() as u64;
        let (mut outcome, mut determined) = (0, 0);
        let number = operation.call(
            n,
            &mut self.0.neighbours,
            &mut self.0.codes,
            &mut 0,
            &mut outcome,
            &mut determined,
        );
        match (number, operation) {
            (0, Operation::Measure(..)) => Answer::Measured(Measured {
                outcome,
                determined: determined == 1,
            }),
            (0, _) => Answer::Done,
            (14, _) => Answer::Refused,
            _ => panic!("{operation:?} is refused by {number}"),
        }
    }

    fn record(&self) -> Record {
        self.0.clone()
    }
}
