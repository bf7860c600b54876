//! Gate, CZ and measurement on a record of 64 qubits, against a plain tableau.

use super::Line;
use crate::operation::Operation;
use crate::seeded::{Circuit, Gate, Random};
use crate::timing::{medians, Ready};
use sukhlent::{reduce, GeneratorList, Record};
use tableau::{Measured, Tableau};

/// The number of qubits.
const N: usize = 64;
/// The number of states.
const STATES: usize = 512;
/// The number of states in a timed sample, with one call on each.
const AT_ONCE: usize = 8;

/// A state in both forms, and the call on it.
pub struct Case {
    record: Record,
    tableau: Tableau,
    operation: Operation,
}

/// How a state is drawn.
type Draw<'a> = &'a dyn Fn(&mut Random) -> Tableau;

/// A call, what it is made on, and how a case is made of the states drawn.
pub type Kind = (
    &'static str,
    &'static str,
    fn(&mut Random, Draw<'_>) -> Case,
);

/// The timed calls.
pub const KINDS: [Kind; 4] = [
    ("gate", "random states", gate),
    ("CZ", "random states", cz),
    ("measure", "random states, outcome chosen", chosen),
    ("measure", "random states, determined", determined),
];

/// The line of a kind of calls on random states.
pub fn line((call, name, case): Kind) -> Line {
    let cases = cases(case, &generic);
    Line::measured((call, N, name), &cases, AT_ONCE, [engine, in_plain_rust])
}

/// The median times of a kind of calls on graphs of a mean degree, by the engine and by the tableau.
pub fn at_degree((_, _, case): Kind, degree: f64) -> [f64; 2] {
    let cases = cases(case, &|random| graph_state(random, degree));
    medians(&cases, AT_ONCE, [engine, in_plain_rust])
}

/// The median time of a gate that is refused by 8, and so of the check alone, on graphs of a mean degree.
pub fn check_at_degree(degree: f64) -> f64 {
    let cases = cases(gate, &|random| graph_state(random, degree));
    let [time] = medians(&cases, AT_ONCE, [refused]);
    time
}

/// Seeded cases, on which both answer the same.
fn cases(case: fn(&mut Random, Draw<'_>) -> Case, draw: Draw<'_>) -> Vec<Case> {
    let mut random = Random::new(N as u64);
    let cases: Vec<Case> = (0..STATES).map(|_| case(&mut random, draw)).collect();
    cases.iter().for_each(assert_same_answers);
    cases
}

/// The calls of a sample on copies of the records.
fn engine(cases: &[Case]) -> Ready<'_> {
    let copies = cases
        .iter()
        .map(|case| (case.record.clone(), case.operation));
    let mut copies: Vec<_> = copies.collect();
    Box::new(move || {
        copies.iter_mut().fold(0, |sum, (record, operation)| {
            sum ^ digest(on_record(record, *operation)) ^ record.neighbours[N - 1]
        })
    })
}

/// A gate on a qubit that is not there, for each record of a sample.
fn refused(cases: &[Case]) -> Ready<'_> {
    let mut copies: Vec<_> = cases.iter().map(|case| case.record.clone()).collect();
    Box::new(move || {
        let gate = Operation::Gate(N as u64, 0);
        copies.iter_mut().fold(0, |sum, record| {
            let (neighbours, codes) = (&mut record.neighbours, &mut record.codes);
            let number = gate.call(N as u64, neighbours, codes, &mut 0, &mut 0, &mut 0);
            assert_eq!(number, 8);
            sum ^ u64::from(number)
        })
    })
}

/// The calls of a sample on copies of the tableaux.
fn in_plain_rust(cases: &[Case]) -> Ready<'_> {
    let copies = cases
        .iter()
        .map(|case| (case.tableau.clone(), case.operation));
    let mut copies: Vec<_> = copies.collect();
    Box::new(move || {
        copies.iter_mut().fold(0, |sum, (tableau, operation)| {
            sum ^ digest(on_tableau(tableau, *operation)) ^ tableau.generators()[N - 1].z
        })
    })
}

/// A number that depends on an answer, so that no call is left out.
fn digest(measured: Option<Measured>) -> u64 {
    measured.map_or(0, |m| u64::from(m.outcome))
}

/// Calls the engine; the record has no used qubit.
fn on_record(record: &mut Record, operation: Operation) -> Option<Measured> {
    let (mut outcome, mut determined) = (0, 0);
    let number = operation.call(
        N as u64,
        &mut record.neighbours,
        &mut record.codes,
        &mut 0,
        &mut outcome,
        &mut determined,
    );
    assert_eq!(number, 0, "{operation:?} is accepted");
    matches!(operation, Operation::Measure(..)).then_some(Measured {
        outcome,
        determined: determined == 1,
    })
}

/// Does the same to a tableau.
fn on_tableau(tableau: &mut Tableau, operation: Operation) -> Option<Measured> {
    match operation {
        Operation::Gate(q, code) => tableau.gate(q as usize, code),
        Operation::Cz(a, b) => tableau.cz(a as usize, b as usize),
        Operation::Measure(pauli, q, bit) => {
            let measured = tableau.measure(pauli, q as usize, bit);
            return Some(measured.expect("a possible outcome"));
        }
        _ => panic!("a tableau has no graph: {operation:?}"),
    }
    None
}

/// Panics unless both answer the same and leave the same state.
fn assert_same_answers(case: &Case) {
    let (mut record, mut tableau) = (case.record.clone(), case.tableau.clone());
    let operation = case.operation;
    let answers = (
        on_record(&mut record, operation),
        on_tableau(&mut tableau, operation),
    );
    assert_eq!(answers.0, answers.1, "{operation:?}");
    assert_eq!(record, reduced(&tableau), "{operation:?}");
}

/// The case of a state and a call.
fn case(tableau: Tableau, operation: Operation) -> Case {
    Case {
        record: reduced(&tableau),
        tableau,
        operation,
    }
}

fn gate(random: &mut Random, draw: Draw<'_>) -> Case {
    let operation = Operation::Gate(random.below(N) as u64, random.below(24) as u8);
    case(draw(random), operation)
}

fn cz(random: &mut Random, draw: Draw<'_>) -> Case {
    let (a, b) = random.pair_below(N);
    case(draw(random), Operation::Cz(a as u64, b as u64))
}

/// A measurement whose outcome is not determined.
fn chosen(random: &mut Random, draw: Draw<'_>) -> Case {
    let tableau = draw(random);
    loop {
        let (pauli, q, bit) = (1 + random.below(3), random.below(N), random.below(2));
        let measured = tableau.clone().measure(pauli as u8, q, bit as u8);
        if measured.is_some_and(|measured| !measured.determined) {
            let operation = Operation::Measure(pauli as u8, q as u64, bit as u8);
            return case(tableau, operation);
        }
    }
}

/// The same measurement once more.
fn determined(random: &mut Random, draw: Draw<'_>) -> Case {
    let Case {
        mut tableau,
        operation,
        ..
    } = chosen(random, draw);
    on_tableau(&mut tableau, operation);
    case(tableau, operation)
}

/// The state that a random circuit makes.
fn generic(random: &mut Random) -> Tableau {
    let circuit = Circuit::random(random, N, 10 * N);
    let mut tableau = Tableau::zero(N);
    for q in (0..N).filter(|q| circuit.start >> q & 1 == 1) {
        tableau.gate(q, 1);
    }
    for gate in circuit.gates {
        match gate {
            Gate::H(q) => tableau.gate(q, 8),
            Gate::S(q) => tableau.gate(q, 4),
            Gate::Cz(a, b) => tableau.cz(a, b),
        }
    }
    tableau
}

/// The state of a random graph with this mean degree and codes that keep it reduced: even, and below 8 where there is
/// a larger neighbour, else below 12.
fn graph_state(random: &mut Random, degree: f64) -> Tableau {
    let mut tableau = Tableau::zero(N);
    (0..N).for_each(|q| tableau.gate(q, 8));
    let mut larger = [false; N];
    for a in 0..N {
        for b in a + 1..N {
            if (random.below(1 << 20) as f64) < degree / (N - 1) as f64 * f64::from(1 << 20) {
                tableau.cz(a, b);
                larger[a] = true;
            }
        }
    }
    for (q, larger) in larger.into_iter().enumerate() {
        tableau.gate(q, 2 * random.below(if larger { 4 } else { 6 }) as u8);
    }
    tableau
}

/// The reduced record of a tableau's group.
fn reduced(tableau: &Tableau) -> Record {
    let rows = tableau.generators();
    let list = GeneratorList {
        signs: rows.iter().map(|row| row.sign()).collect(),
        z: rows.iter().map(|row| row.z).collect(),
        x: rows.iter().map(|row| row.x).collect(),
    };
    reduce(&list).expect("a tableau has proper generators")
}
