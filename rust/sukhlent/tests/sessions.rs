//! Sessions of calls on one record against state vectors, on up to 8 qubits. Measured qubits are used, and a session
//! goes on with the others.

use crate::common::damage::damage_record;
use crate::common::reference::{expanded, reduced};
use crate::common::vectors::{assert_stabilized, matrix, state_of};
use crate::common::{random_record, Operation, Random, RecordCall};
use simulator::{Matrix2, Row, State};
use std::collections::HashMap;
use sukhlent::{expand, reduce, Measured, Record};

/// A record and its state vector, and how often something has happened to them.
struct Session {
    record: Record,
    state: State,
    matrices: Vec<Matrix2>,
    counts: HashMap<String, usize>,
}

impl Session {
    fn new(matrices: &[Matrix2], record: Record) -> Session {
        Session {
            state: state_of(&record),
            record,
            matrices: matrices.to_vec(),
            counts: HashMap::new(),
        }
    }

    /// Starts anew with another record.
    fn start(&mut self, record: Record) {
        self.state = state_of(&record);
        self.record = record;
        self.count("started anew");
    }

    /// Whether every qubit is used.
    fn is_over(&self) -> bool {
        self.record.used.count_ones() as usize == self.record.n()
    }

    fn count(&mut self, what: &str) {
        *self.counts.entry(what.to_string()).or_default() += 1;
    }

    /// Applies one call; where it is due to be refused, asserts just that.
    fn step(&mut self, operation: Operation) {
        let call = RecordCall::with(&self.record, operation);
        let due = call.due();
        let answer = call.apply();
        if due != 0 {
            assert_eq!(answer, Err(due), "{call:?}");
            self.refused(operation, due);
            return;
        }
        let (record, measured) = answer.unwrap_or_else(|number| panic!("{number}: {call:?}"));
        assert_eq!(record.used, used_after(&self.record, operation), "{call:?}");
        self.record = record;
        self.follow(operation, measured);
        let list = expand(&self.record).unwrap();
        assert_eq!(list, expanded(&self.record));
        assert_stabilized(&self.state, &list);
        if !matches!(operation, Operation::Complement(_)) {
            let graph_and_codes = Record {
                used: 0,
                ..self.record.clone()
            };
            assert_eq!(reduce(&list).as_ref(), Ok(&graph_and_codes), "{call:?}");
            assert_eq!(reduced(&list), graph_and_codes, "{call:?}");
        }
    }

    /// Counts a refusal. Where it is 14, the state forbids the bit.
    fn refused(&mut self, operation: Operation, due: u8) {
        self.count(&format!("refused {due}"));
        if due == 16 {
            self.count(match operation {
                Operation::Gate(..) => "gate on a used qubit",
                Operation::Cz(..) => "cz on a used qubit",
                Operation::Measure(..) => "measurement of a used qubit",
                _ => "complement at a used qubit",
            });
        }
        if due != 14 {
            return;
        }
        let Operation::Measure(pauli, q, bit) = operation else {
            panic!("{operation:?} is no measurement");
        };
        let probability = self.state.probability(&row(pauli, q), bit);
        assert!(near(probability, 0.0), "{operation:?}: {probability}");
        self.count(&format!("bit {bit} forbidden"));
    }

    /// Does to the state vector what was done to the record. A complement does nothing.
    fn follow(&mut self, operation: Operation, measured: Option<Measured>) {
        match operation {
            Operation::Gate(q, code) => {
                let matrix = self.matrices[usize::from(code)];
                self.state.apply(q as usize, &matrix);
                self.count(&format!("code {code}"));
            }
            Operation::Cz(a, b) => {
                self.state.cz(a as usize, b as usize);
                self.count("cz");
            }
            Operation::Measure(pauli, q, bit) => {
                let measured = measured.expect("a measurement answers");
                self.measure(pauli, q, bit, measured);
            }
            Operation::Complement(_) => self.count("complement"),
        }
    }

    /// Compares an outcome with its probability, and projects the state.
    fn measure(&mut self, pauli: u8, q: u64, bit: u8, measured: Measured) {
        let row = row(pauli, q);
        let probability = self.state.probability(&row, bit);
        let determined = !near(probability, 0.5);
        assert!(!determined || near(probability, 1.0), "{probability}");
        let due = Measured {
            outcome: bit,
            determined,
        };
        assert_eq!(measured, due, "{row:?}");
        self.state = self.state.project(&row, bit).unwrap();
        self.count(&format!("outcome {bit}, determined: {determined}"));
    }

    /// A call on a damaged record is refused; the record of the session stays as it is.
    fn refuse(&self, random: &mut Random, operation: Operation) {
        let mut call = RecordCall::with(&self.record, operation);
        damage_record(random, &mut call);
        if call.due() != 0 {
            assert_eq!(call.apply(), Err(call.due()), "{call:?}");
        }
    }
}

/// The used word after an accepted call.
fn used_after(record: &Record, operation: Operation) -> u64 {
    match operation {
        Operation::Measure(_, q, _) => record.used | 1 << q,
        _ => record.used,
    }
}

/// A Pauli at a qubit.
fn row(pauli: u8, q: u64) -> Row {
    match pauli {
        1 => Row::new(0, 0, 1 << q),
        2 => Row::new(0, 1 << q, 1 << q),
        _ => Row::new(0, 1 << q, 0),
    }
}

fn near(a: f64, b: f64) -> bool {
    (a - b).abs() < 1e-9
}

#[test]
fn seeded_sessions_against_state_vectors() {
    let matrices: Vec<Matrix2> = (0..24).map(matrix).collect();
    let mut counts = HashMap::<String, usize>::new();
    for seed in 0..400 {
        let mut random = Random::new(40_000 + seed);
        let n = 1 + seed as usize % 8;
        let mut session = Session::new(&matrices, random_record(&mut random, n));
        for _ in 0..200 {
            if session.is_over() {
                session.start(random_record(&mut random, n));
            }
            let kind = random.below(4);
            let operation = Operation::loose(&mut random, kind, n);
            if random.below(8) == 0 {
                session.refuse(&mut random, operation);
            }
            session.step(operation);
        }
        for (what, times) in session.counts {
            *counts.entry(what).or_default() += times;
        }
    }
    assert_all_happened(&counts);
}

/// Every code, every kind of call, outcome and refusal occurred often.
fn assert_all_happened(counts: &HashMap<String, usize>) {
    let codes = (0..24).map(|code| format!("code {code}"));
    let rest = [
        "cz",
        "complement",
        "refused 6",
        "refused 8",
        "gate on a used qubit",
        "cz on a used qubit",
        "measurement of a used qubit",
        "complement at a used qubit",
        "started anew",
        "outcome 0, determined: false",
        "outcome 1, determined: false",
        "outcome 0, determined: true",
        "outcome 1, determined: true",
        "bit 0 forbidden",
        "bit 1 forbidden",
    ];
    for what in codes.chain(rest.map(str::to_string)) {
        let times = counts.get(&what).copied().unwrap_or(0);
        assert!(times > 100, "{what}: {times} times of {counts:?}");
    }
}
