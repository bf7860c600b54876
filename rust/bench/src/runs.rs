//! Many steps in one call, and the same steps on a tableau.
//!
//! A run keeps the used word from step to step. So that both ways do the same, a tableau passes over the steps that name
//! a used qubit, or the run is cut behind each measurement and goes on with no used qubit.

use crate::operation::Operation;
use crate::session::{Answer, Session};
use sukhlent::raw;

/// Steps in parallel slices, as they are lent.
#[derive(Default)]
pub struct Steps {
    ops: Vec<u8>,
    a: Vec<u16>,
    b: Vec<u16>,
    value: Vec<u16>,
}

impl Steps {
    pub fn of(job: &[Operation]) -> Steps {
        let mut all = Steps::default();
        for &operation in job {
            let (op, a, b, value) = match operation {
                Operation::Gate(q, code) => (0, q, 0, u16::from(code)),
                Operation::Cz(a, b) => (1, a, b, 0),
                Operation::Measure(pauli, q, bit) => {
                    (2, q, 0, 2 * (u16::from(pauli) - 1) + u16::from(bit))
                }
                _ => panic!("a tableau has no graph: {operation:?}"),
            };
            all.ops.push(op);
            all.a.push(a as u16);
            all.b.push(b as u16);
            all.value.push(value);
        }
        all
    }
}

/// A record that is lent to runs, and what the steps answered.
pub struct Ran {
    pub neighbours: Vec<u64>,
    pub codes: Vec<u8>,
    used: u64,
    refusals: Vec<u8>,
    outcomes: Vec<u8>,
    determined: Vec<u8>,
}

impl Ran {
    /// All qubits in +Z.
    fn start(n: usize, count: usize) -> Ran {
        Ran {
            neighbours: vec![0; n],
            codes: vec![8; n],
            used: 0,
            refusals: vec![0; count],
            outcomes: vec![0; count],
            determined: vec![0; count],
        }
    }

    /// The steps from a place to another.
    fn run(&mut self, steps: &Steps, from: usize, to: usize) {
        let number = raw::run(
            self.codes.len() as u64,
            &mut self.neighbours,
            &mut self.codes,
            &mut self.used,
            &steps.ops[from..to],
            &steps.a[from..to],
            &steps.b[from..to],
            &steps.value[from..to],
            &mut self.refusals[from..to],
            &mut self.outcomes[from..to],
            &mut self.determined[from..to],
        );
        assert_eq!(number, 0, "steps {from} to {to}");
    }

    /// What each step answered: refusal, outcome, determined.
    pub fn answers(&self) -> Vec<[u8; 3]> {
        let outcomes = self.outcomes.iter().zip(&self.determined);
        let all = self.refusals.iter().zip(outcomes);
        all.map(|(&r, (&o, &d))| [r, o, d]).collect()
    }
}

/// All steps in one call.
pub fn whole(n: usize, steps: &Steps) -> Ran {
    let mut ran = Ran::start(n, steps.ops.len());
    ran.run(steps, 0, steps.ops.len());
    ran
}

/// A call for the steps to each measurement, which goes on with no used qubit.
pub fn cut(n: usize, steps: &Steps) -> Ran {
    let count = steps.ops.len();
    let mut ran = Ran::start(n, count);
    let mut from = 0;
    for to in 1..=count {
        if steps.ops[to - 1] == 2 || to == count {
            ran.run(steps, from, to);
            ran.used = 0;
            from = to;
        }
    }
    ran
}

/// A tableau after the steps, and what each answered; `kept`: a step that names a used qubit is passed over, as 16.
pub fn tableau<S: Session>(n: usize, job: &[Operation], kept: bool) -> (S, Vec<[u8; 3]>) {
    let mut session = S::start(n);
    let mut used = 0;
    let mut step = |operation| {
        let named = named(operation);
        if kept && named & used != 0 {
            return [16, 0, 0];
        }
        match session.step(operation) {
            Answer::Done => [0, 0, 0],
            Answer::Refused => [14, 0, 0],
            Answer::Measured(measured) => {
                used |= named;
                [0, measured.outcome, u8::from(measured.determined)]
            }
        }
    };
    let answers = job.iter().map(|&operation| step(operation)).collect();
    (session, answers)
}

/// The qubits that an operation names.
fn named(operation: Operation) -> u64 {
    match operation {
        Operation::Gate(q, _) | Operation::Measure(_, q, _) => 1 << q,
        Operation::Cz(a, b) => 1 << a | 1 << b,
        _ => 0,
    }
}
