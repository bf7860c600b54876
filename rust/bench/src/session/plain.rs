//! The plain tableau.

use super::{record_of, Answer, Session};
use crate::operation::Operation;
use sukhlent::Record;
use tableau::Tableau;

pub struct Plain(Tableau);

impl Session for Plain {
    fn start(n: usize) -> Plain {
        Plain(Tableau::zero(n))
    }

    fn step(&mut self, operation: Operation) -> Answer {
        match operation {
            Operation::Gate(q, code) => self.0.gate(q as usize, code),
            Operation::Cz(a, b) => self.0.cz(a as usize, b as usize),
            Operation::Measure(pauli, q, bit) => {
                let measured = self.0.measure(pauli, q as usize, bit);
                return measured.map_or(Answer::Refused, Answer::Measured);
            }
            _ => panic!("a tableau has no graph: {operation:?}"),
        }
        Answer::Done
    }

    fn record(&self) -> Record {
        let rows = self.0.generators();
        record_of(
            rows.iter().map(|row| row.sign()).collect(),
            rows.iter().map(|row| row.z).collect(),
            rows.iter().map(|row| row.x).collect(),
        )
    }
}
