//! The record expanded, the list changed and reduced.

use super::{start_record, Answer, Session};
use crate::codes::image;
use crate::operation::Operation;
use crate::plain::Row;
use crate::seeded::pauli::{I, X, Y, Z};
use sukhlent::{raw, Record};
use tableau::Measured;

pub struct Lists {
    record: Record,
    signs: Vec<u8>,
    z: Vec<u64>,
    x: Vec<u64>,
}

impl Session for Lists {
    fn start(n: usize) -> Lists {
        Lists::on(start_record(n))
    }

    fn step(&mut self, operation: Operation) -> Answer {
        self.expand();
        let answer = match operation {
            Operation::Gate(q, code) => self.gate(q, code),
            Operation::Cz(a, b) => self.cz(a, b),
            Operation::Measure(pauli, q, bit) => self.measure(pauli, q, bit),
            _ => panic!("no step on a list: {operation:?}"),
        };
        if answer != Answer::Refused {
            self.reduce();
        }
        answer
    }

    fn record(&self) -> Record {
        self.record.clone()
    }
}

impl Lists {
    /// A session that starts with a record, reduced or not.
    pub fn on(record: Record) -> Lists {
        let n = record.codes.len();
        Lists {
            record,
            signs: vec![0; n],
            z: vec![0; n],
            x: vec![0; n],
        }
    }

    fn expand(&mut self) {
        let n = self.signs.len() as u64;
        let (signs, z, x) = (&mut self.signs, &mut self.z, &mut self.x);
        let (neighbours, codes) = (&self.record.neighbours, &self.record.codes);
        let number = raw::expand(n, neighbours, codes, 0, signs, z, x);
        assert_eq!(number, 0, "the record is accepted");
    }

    fn reduce(&mut self) {
        let n = self.signs.len() as u64;
        let Record {
            neighbours,
            codes,
            used,
        } = &mut self.record;
        let number = raw::reduce(n, &self.signs, &self.z, &self.x, neighbours, codes, used);
        assert_eq!(number, 0, "the list is accepted");
    }

    /// Each row's letter at the qubit goes to its image.
    fn gate(&mut self, q: u64, code: u8) -> Answer {
        // By the bits x and z: the sign of the image, and its bits.
        let images = [I, X, Z, Y].map(|letter| image(code, letter));
        let images = images.map(|(phase, to)| {
            let (to_x, to_z) = (to == X || to == Y, to == Z || to == Y);
            (phase / 2, u64::from(to_x), u64::from(to_z))
        });
        for ((sign, z), x) in self.signs.iter_mut().zip(&mut self.z).zip(&mut self.x) {
            let (minus, to_x, to_z) = images[((*x >> q & 1) | (*z >> q & 1) << 1) as usize];
            *sign ^= minus;
            *z = *z & !(1 << q) | to_z << q;
            *x = *x & !(1 << q) | to_x << q;
        }
        Answer::Done
    }

    /// X at one qubit brings Z at the other; the sign turns where exactly one of two letters with X is
    /// Y.
    fn cz(&mut self, a: u64, b: u64) -> Answer {
        for ((sign, z), x) in self.signs.iter_mut().zip(&mut self.z).zip(&self.x) {
            let (at_a, at_b) = (*x >> a & 1, *x >> b & 1);
            *sign ^= (at_a & at_b & ((*z >> a ^ *z >> b) & 1)) as u8;
            *z ^= at_b << a | at_a << b;
        }
        Answer::Done
    }

    /// The first row that does not commute goes into the others that do not, and the Pauli takes its
    /// place. Where all commute, the row of the qubit is the Pauli with the sign.
    fn measure(&mut self, pauli: u8, q: u64, bit: u8) -> Answer {
        let (at_z, at_x) = (u64::from(pauli >= 2) << q, u64::from(pauli <= 2) << q);
        let clashes = |z: u64, x: u64| ((z & at_x).count_ones() ^ (x & at_z).count_ones()) & 1 == 1;
        let rows = 0..self.signs.len();
        let Some(first) = rows.clone().find(|&j| clashes(self.z[j], self.x[j])) else {
            if self.signs[q as usize] != bit {
                return Answer::Refused;
            }
            return Answer::Measured(Measured {
                outcome: bit,
                determined: true,
            });
        };
        let by = Row::new(self.signs[first] == 1, self.z[first], self.x[first]);
        for j in rows.skip(first + 1) {
            if clashes(self.z[j], self.x[j]) {
                let mut row = Row::new(self.signs[j] == 1, self.z[j], self.x[j]);
                row.multiply(by);
                self.signs[j] = u8::from(row.is_minus());
                (self.z[j], self.x[j]) = (row.z, row.x);
            }
        }
        self.signs[first] = bit;
        (self.z[first], self.x[first]) = (at_z, at_x);
        Answer::Measured(Measured {
            outcome: bit,
            determined: false,
        })
    }
}
