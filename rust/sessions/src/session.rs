//! One session.

use crate::choice::next;
use crate::common::local::complemented_record;
use crate::common::reference::{argument_refusal, expanded};
use crate::common::{Operation, Random};
use crate::counts::Counts;
use crate::marks::{Mark, APART};
use crate::plain;
use crate::values::{answered, words, ROWS};
use sukhlent::{GeneratorList, Record};
use tableau::{Row, Tableau};

/// What stands in the places of an outcome before a call.
const UNTOUCHED: (u8, u8) = (0xa5, 0x5a);

/// A record, the tableau of the same state, the qubits measured, and what has happened to them.
pub struct Session {
    random: Random,
    /// Where the rows come from, apart, so that they leave the calls of a seed as they are.
    rows: Random,
    record: Record,
    tableau: Tableau,
    /// For each qubit, whether a measurement of it was accepted.
    measured: Vec<bool>,
    /// The calls since the start.
    number: usize,
    /// The record some calls ago.
    mark: Mark,
    pub counts: Counts,
}

impl Session {
    /// A session that starts with +Z at each of n qubits.
    pub fn new(n: usize, seed: u64) -> Session {
        Session {
            random: Random::new(seed),
            rows: Random::new(!seed),
            record: start(n),
            tableau: Tableau::zero(n),
            measured: vec![false; n],
            number: 0,
            mark: Mark::at(&start(n)),
            counts: Counts::default(),
        }
    }

    /// Starts anew where every qubit has been measured.
    fn go_on(&mut self) {
        if !self.measured.contains(&false) {
            let n = self.measured.len();
            self.record = start(n);
            self.tableau = Tableau::zero(n);
            self.measured = vec![false; n];
            self.number = 0;
            self.mark = Mark::at(&self.record);
            self.counts.starts += 1;
        }
    }

    /// Makes one call and compares all that it left. The error says what is different.
    pub fn step(&mut self) -> Result<(), String> {
        self.go_on();
        let operation = next(&mut self.random, &self.record, self.number);
        self.number += 1;
        let before = self.record.clone();
        let due = self.due(operation);
        let mut measured = UNTOUCHED;
        let number = operation.call(
            before.n() as u64,
            &mut self.record.neighbours,
            &mut self.record.codes,
            &mut self.record.used,
            &mut measured.0,
            &mut measured.1,
        );
        same("the number", number, due.err().unwrap_or(0))
            .and_then(|()| same("the outcome", measured, due.unwrap_or(UNTOUCHED)))
            .and_then(|()| match due {
                Ok(_) => self.compare(operation, &before),
                Err(_) => same("the refused record", &self.record, &before),
            })
            .map_err(|e| format!("{operation:?} on {before:?}: {e}"))?;
        self.count(operation, due);
        self.look_back(operation, due)?;
        (0..ROWS).try_for_each(|kind| self.ask(kind))
    }

    /// Compares the state with that of the last mark, every few calls. A gate, a complement and a
    /// determined outcome keep it up to local Cliffords.
    fn look_back(&mut self, operation: Operation, due: Result<(u8, u8), u8>) -> Result<(), String> {
        self.mark.local &= match (due, operation) {
            (Ok(_), Operation::Cz(..)) => false,
            (Ok((_, determined)), Operation::Measure(..)) => determined == 1,
            _ => true,
        };
        if self.number.is_multiple_of(APART) {
            let same = self.mark.compared(&self.record)?;
            self.counts.compared[usize::from(same)] += 1;
            self.mark = Mark::at(&self.record);
        }
        Ok(())
    }

    /// Asks for the value of a row, and compares with the tableau's.
    fn ask(&mut self, kind: usize) -> Result<(), String> {
        let (z, x) = words(&mut self.rows, &self.tableau, kind);
        let due = self.tableau.value(&Row::letters(z, x)).unwrap_or(2);
        answered(&self.record, z, x)
            .and_then(|value| same("the value", value, due))
            .map_err(|e| format!("z {z:x}, x {x:x} on {:?}: {e}", self.record))?;
        self.counts.values[usize::from(due)] += 1;
        Ok(())
    }

    /// Does to the tableau what is to be done to the record. What the call is to leave in the
    /// places of an outcome, or the number of its refusal: 16 where it names a measured qubit, 14
    /// where the tableau refuses the bit.
    fn due(&mut self, operation: Operation) -> Result<(u8, u8), u8> {
        let unused = Record {
            used: 0,
            ..self.record.clone()
        };
        match argument_refusal(unused.n() as u64, &unused, operation) {
            0 => (),
            number => return Err(number),
        }
        if (0..unused.n()).any(|q| self.measured[q] && operation.names(q)) {
            return Err(16);
        }
        match operation {
            Operation::Gate(q, code) => self.tableau.gate(q as usize, code),
            Operation::Cz(a, b) => self.tableau.cz(a as usize, b as usize),
            Operation::Measure(pauli, q, bit) => {
                let answer = self.tableau.measure(pauli, q as usize, bit).ok_or(14)?;
                self.measured[q as usize] = true;
                return Ok((answer.outcome, u8::from(answer.determined)));
            }
            Operation::Complement(_) => (),
        }
        Ok(UNTOUCHED)
    }

    fn count(&mut self, operation: Operation, due: Result<(u8, u8), u8>) {
        let counts = &mut self.counts;
        *match (due, operation) {
            (Err(14), _) => &mut counts.contradicted,
            (Err(16), _) => &mut counts.used,
            (Err(_), _) => &mut counts.refused,
            (_, Operation::Gate(..)) => &mut counts.gates,
            (_, Operation::Cz(..)) => &mut counts.czs,
            (Ok((_, 0)), Operation::Measure(..)) => &mut counts.chosen,
            (_, Operation::Measure(..)) => &mut counts.determined,
            (_, Operation::Complement(_)) => &mut counts.complements,
        } += 1;
    }

    /// Compares the record that an accepted call left with the tableau, which has been changed
    /// alike, and its used word with the qubits measured.
    fn compare(&self, operation: Operation, before: &Record) -> Result<(), String> {
        let bits = self.measured.iter().enumerate();
        let used = bits.fold(0, |word, (q, &measured)| word | u64::from(measured) << q);
        let of_tableau = Record {
            used,
            ..reduced(&of_tableau(&self.tableau))
        };
        match operation {
            Operation::Complement(a) => {
                let due = complemented_record(before, a as usize);
                same("the rewritten record", &self.record, &due)?;
            }
            _ => return same("the record", &self.record, &of_tableau),
        }
        let of_record = Record {
            used: self.record.used,
            ..reduced(&expanded(&self.record))
        };
        same("the group and the used word", of_record, of_tableau)
    }
}

/// +Z at each of n qubits, none of them used.
pub(crate) fn start(n: usize) -> Record {
    Record {
        neighbours: vec![0; n],
        codes: vec![8; n],
        used: 0,
    }
}

/// The generators of a tableau.
pub(crate) fn of_tableau(tableau: &Tableau) -> GeneratorList {
    let rows = tableau.generators();
    GeneratorList {
        signs: rows.iter().map(|row| row.sign()).collect(),
        z: rows.iter().map(|row| row.z).collect(),
        x: rows.iter().map(|row| row.x).collect(),
    }
}

/// The reduced record of a list, by plain Rust.
pub(crate) fn reduced(list: &GeneratorList) -> Record {
    let mut record = start(list.n());
    let number = plain::reduce(
        list.n() as u64,
        &list.signs,
        &list.z,
        &list.x,
        &mut record.neighbours,
        &mut record.codes,
        &mut record.used,
    );
    assert_eq!(number, 0, "{list:?}");
    record
}

/// Whether two answers are equal; the error shows both.
pub(crate) fn same<T: PartialEq + std::fmt::Debug>(
    what: &str,
    given: T,
    due: T,
) -> Result<(), String> {
    if given == due {
        Ok(())
    } else {
        Err(format!("{what} is {given:?}, not {due:?}"))
    }
}

#[cfg(test)]
mod tests {
    use super::*;

    /// The number of the first call of a session that shows a difference.
    fn first_difference(mut session: Session) -> Option<u64> {
        (0..100).find(|_| session.step().is_err())
    }

    #[test]
    fn another_state_in_the_tableau_is_a_difference() {
        for code in 0..24 {
            let mut session = Session::new(5, 7);
            session.tableau.gate(3, code);
            // Codes of the classes 0 and 1 send Z to Z or -Z.
            let keeps = code < 8 && code % 2 == 0;
            assert_eq!(first_difference(session).is_none(), keeps, "code {code}");
        }
    }

    #[test]
    fn another_used_word_is_a_difference() {
        for q in 0..5 {
            let mut session = Session::new(5, 7);
            session.record.used = 1 << q;
            assert!(first_difference(session).is_some(), "qubit {q}");
            let mut session = Session::new(5, 7);
            session.measured[q] = true;
            assert!(first_difference(session).is_some(), "qubit {q}");
        }
    }

    #[test]
    fn another_value_is_a_difference() {
        for (code, differs) in [(0, false), (1, true), (8, true)] {
            let mut session = Session::new(5, 7);
            session.tableau.gate(3, code);
            let found = (0..100).any(|kind| session.ask(kind).is_err());
            assert_eq!(found, differs, "code {code}");
        }
    }

    #[test]
    fn another_record_is_a_difference() {
        let mut session = Session::new(5, 7);
        session.record.codes[2] = 10;
        assert!(first_difference(session).is_some());
    }
}
