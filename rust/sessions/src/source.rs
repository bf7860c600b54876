//! A source that goes on: gates, CZ, observations and renewals on one record, compared call by call
//! with a plain tableau, or as the steps of runs. No session starts anew: a used place gets a new photon.

use crate::common::source::Source;
use crate::common::{Operation, Random};
use crate::session::{of_tableau, reduced, same, start};
use std::fmt;
use sukhlent::{raw, Record};
use tableau::Tableau;

/// The numbers of calls of each kind.
#[derive(Clone, Debug, Default, PartialEq, Eq)]
pub struct SourceCounts {
    pub gates: u64,
    pub czs: u64,
    /// Observations whose outcome was the bit.
    pub chosen: u64,
    /// Observations whose outcome was determined, and those of them whose bit was another.
    pub determined: u64,
    pub other_bits: u64,
    pub renewed: u64,
    /// Observations of used qubits, and renewals of qubits that are not.
    pub used: u64,
    pub not_used: u64,
    /// The most used qubits at one time.
    pub most_used: u32,
}

impl fmt::Display for SourceCounts {
    fn fmt(&self, f: &mut fmt::Formatter<'_>) -> fmt::Result {
        write!(
            f,
            "{} gates, {} CZ, {} outcomes chosen, {} determined and {} of them against the bit, {} photons \
             renewed, {} on used qubits, {} renewals of others refused, at most {} used at a time",
            self.gates,
            self.czs,
            self.chosen,
            self.determined,
            self.other_bits,
            self.renewed,
            self.used,
            self.not_used,
            self.most_used
        )
    }
}

/// One call.
#[derive(Clone, Copy, Debug)]
enum Call {
    On(Operation),
    Of(Source),
}

/// A record and the tableau of the same state.
struct Run {
    random: Random,
    record: Record,
    tableau: Tableau,
    used: u64,
    counts: SourceCounts,
}

/// Makes so many calls on n qubits. The error names the call and what is different.
pub fn source(n: usize, seed: u64, calls: u64) -> Result<SourceCounts, String> {
    let mut run = Run {
        random: Random::new(seed),
        record: start(n),
        tableau: Tableau::zero(n),
        used: 0,
        counts: SourceCounts::default(),
    };
    for number in 1..=calls {
        run.step().map_err(|difference| {
            format!("{n} qubits, seed {seed}, call {number}: {difference}")
        })?;
    }
    run.renew_all()?;
    Ok(run.counts)
}

/// The same calls as the steps of runs, of up to `longest` each: every answer, and the record that each run leaves.
pub fn source_runs(n: usize, seed: u64, runs: u64, longest: usize) -> Result<SourceCounts, String> {
    let mut run = Run {
        random: Random::new(seed),
        record: start(n),
        tableau: Tableau::zero(n),
        used: 0,
        counts: SourceCounts::default(),
    };
    for number in 1..=runs {
        let count = run.random.below(longest + 1);
        run.steps(count)
            .map_err(|difference| format!("{n} qubits, seed {seed}, run {number}: {difference}"))?;
    }
    run.renew_all()?;
    Ok(run.counts)
}

/// A call as the step of a run: operation, qubits and value.
fn numbers(call: Call) -> (u8, u16, u16, u16) {
    match call {
        Call::On(Operation::Gate(q, code)) => (0, q as u16, 0, code.into()),
        Call::On(Operation::Cz(a, b)) => (1, a as u16, b as u16, 0),
        Call::On(_) => unreachable!("gates and CZ alone"),
        Call::Of(Source::Observe(pauli, q, bit)) => {
            (5, q as u16, 0, u16::from(2 * (pauli - 1) + bit))
        }
        Call::Of(Source::Renew(q, code)) => (6, q as u16, 0, code.into()),
    }
}

impl Run {
    /// So many random calls as the steps of one run. The error says what is different.
    fn steps(&mut self, count: usize) -> Result<(), String> {
        let before = self.record.clone();
        let mut calls = Vec::new();
        let mut due = Vec::new();
        for _ in 0..count {
            let call = self.next();
            let answer = self.due(call);
            self.count(call, answer);
            calls.push(numbers(call));
            due.push(answer);
        }
        same("the answers", self.run(&calls), Ok(due))
            .and_then(|()| self.compare())
            .map_err(|e| format!("{calls:?} on {before:?}: {e}"))
    }

    /// The engine's answers to steps, or the refusal of the whole.
    #[allow(clippy::type_complexity)]
    fn run(&mut self, steps: &[(u8, u16, u16, u16)]) -> Result<Vec<Result<(u8, u8), u8>>, u8> {
        let ops: Vec<u8> = steps.iter().map(|step| step.0).collect();
        let a: Vec<u16> = steps.iter().map(|step| step.1).collect();
        let b: Vec<u16> = steps.iter().map(|step| step.2).collect();
        let value: Vec<u16> = steps.iter().map(|step| step.3).collect();
        let [mut refusals, mut outcomes, mut determined] =
            [0; 3].map(|byte| vec![byte; steps.len()]);
        let number = raw::run(
            self.record.n() as u64,
            &mut self.record.neighbours,
            &mut self.record.codes,
            &mut self.record.used,
            &ops,
            &a,
            &b,
            &value,
            &mut refusals,
            &mut outcomes,
            &mut determined,
        );
        let told = (0..steps.len()).map(|k| match refusals[k] {
            0 => Ok((outcomes[k], determined[k])),
            refusal => Err(refusal),
        });
        match number {
            0 => Ok(told.collect()),
            _ => Err(number),
        }
    }

    /// A random call. Observations and renewals keep each other's pace; few name a qubit that is or
    /// is not used against the rule.
    fn next(&mut self) -> Call {
        let n = self.record.n();
        let random = &mut self.random;
        let (a, b) = (random.below(n), random.below(n));
        let is_used = self.used >> a & 1 == 1;
        let bit = random.below(2) as u8;
        let pauli = 1 + random.below(3) as u8;
        let photon = 2 * random.below(6) as u8;
        let wrong = random.below(20) == 0;
        match random.below(5) {
            _ if is_used != wrong => Call::Of(Source::Renew(a as u64, photon)),
            0 | 1 if a != b => Call::On(Operation::Cz(a as u64, b as u64)),
            2 | 3 => Call::Of(Source::Observe(pauli, a as u64, bit)),
            _ => Call::On(Operation::Gate(a as u64, random.below(24) as u8)),
        }
    }

    /// Makes one call and compares all that it left. The error says what is different.
    fn step(&mut self) -> Result<(), String> {
        let call = self.next();
        let before = self.record.clone();
        let due = self.due(call);
        let given = self.call(call);
        same("the answer", given, due)
            .and_then(|()| match due {
                Ok(_) => self.compare(),
                Err(_) => same("the refused record", &self.record, &before),
            })
            .map_err(|e| format!("{call:?} on {before:?}: {e}"))?;
        self.count(call, due);
        Ok(())
    }

    /// The engine's answer: an outcome and whether it was determined, or the refusal.
    fn call(&mut self, call: Call) -> Result<(u8, u8), u8> {
        let n = self.record.n() as u64;
        let Record {
            neighbours,
            codes,
            used,
        } = &mut self.record;
        let mut answer = (0, 0);
        let number = match call {
            Call::On(operation) => {
                operation.call(n, neighbours, codes, used, &mut answer.0, &mut answer.1)
            }
            Call::Of(Source::Observe(pauli, q, bit)) => raw::observe(
                n,
                neighbours,
                codes,
                used,
                pauli,
                q,
                bit,
                &mut answer.0,
                &mut answer.1,
            ),
            Call::Of(Source::Renew(q, code)) => raw::renew(n, neighbours, codes, used, q, code),
        };
        match number {
            0 => Ok(answer),
            _ => Err(number),
        }
    }

    /// Does to the tableau what is to be done to the record. What the call is to answer.
    fn due(&mut self, call: Call) -> Result<(u8, u8), u8> {
        let is_used = |q: u64| self.used >> q & 1 == 1;
        match call {
            Call::On(operation)
                if (0..self.record.n()).any(|q| is_used(q as u64) && operation.names(q)) =>
            {
                Err(16)
            }
            Call::On(Operation::Gate(q, code)) => {
                self.tableau.gate(q as usize, code);
                Ok((0, 0))
            }
            Call::On(Operation::Cz(a, b)) => {
                self.tableau.cz(a as usize, b as usize);
                Ok((0, 0))
            }
            Call::On(_) => unreachable!("gates and CZ alone"),
            Call::Of(Source::Observe(_, q, _)) if is_used(q) => Err(16),
            Call::Of(Source::Observe(pauli, q, bit)) => {
                let tableau = &mut self.tableau;
                let first = tableau.measure(pauli, q as usize, bit);
                let found = first.or_else(|| tableau.measure(pauli, q as usize, 1 - bit));
                let found = found.expect("one of two outcomes");
                self.used |= 1 << q;
                Ok((found.outcome, u8::from(found.determined)))
            }
            Call::Of(Source::Renew(q, _)) if !is_used(q) => Err(20),
            Call::Of(Source::Renew(q, code)) => {
                self.put(q as usize, code);
                self.used &= !(1 << q);
                Ok((0, 0))
            }
        }
    }

    /// Puts a photon at a qubit that is alone: Z is measured there, X applied where the outcome is
    /// minus, then a Hadamard, and then the code.
    fn put(&mut self, q: usize, code: u8) {
        if self.tableau.measure(3, q, 0).is_none() {
            self.tableau.gate(q, 1);
        }
        self.tableau.gate(q, 8);
        self.tableau.gate(q, code);
    }

    /// Compares the record with the tableau, which has been changed alike.
    fn compare(&self) -> Result<(), String> {
        let due = Record {
            used: self.used,
            ..reduced(&of_tableau(&self.tableau))
        };
        same("the record", &self.record, &due)
    }

    fn count(&mut self, call: Call, due: Result<(u8, u8), u8>) {
        let counts = &mut self.counts;
        counts.most_used = counts.most_used.max(self.used.count_ones());
        if let (Call::Of(Source::Observe(_, _, bit)), Ok((outcome, 1))) = (call, due) {
            counts.other_bits += u64::from(outcome != bit);
        }
        *match (due, call) {
            (Err(20), _) => &mut counts.not_used,
            (Err(_), _) => &mut counts.used,
            (_, Call::On(Operation::Gate(..))) => &mut counts.gates,
            (_, Call::On(_)) => &mut counts.czs,
            (Ok((_, 0)), Call::Of(Source::Observe(..))) => &mut counts.chosen,
            (_, Call::Of(Source::Observe(..))) => &mut counts.determined,
            (_, Call::Of(Source::Renew(..))) => &mut counts.renewed,
        } += 1;
    }

    /// No place is dead: each used one gets a photon.
    fn renew_all(&mut self) -> Result<(), String> {
        for q in 0..self.record.n() {
            if self.used >> q & 1 == 1 {
                let call = Call::Of(Source::Renew(q as u64, 8));
                let due = self.due(call);
                same("the answer", self.call(call), due)?;
                self.compare()?;
            }
        }
        same("the used word", self.record.used, 0)
    }
}
