//! A wire of five photons, made as a linear cluster and measured from one end, in one call: the steps
//! are a log of the experiment, and each has an answer of its own. X at 4 is the sum of the outcomes
//! at 0 and 2, so that the log's first entry for it cannot be: it is refused and changes nothing, and
//! the steps behind it run. examples/c/run.c is the same in C.

use std::error::Error;
use std::fmt::{self, Write};
use sukhlent::{codes, run, Measured, Pauli, Record, Refusal, Step};

/// The number of photons.
const N: usize = 5;

fn main() -> Result<(), Box<dyn Error>> {
    let mut text = String::new();
    replay(&mut text)?;
    print!("{text}");
    Ok(())
}

/// Writes each step of the log, and what it answered.
pub fn replay(out: &mut impl Write) -> Result<(), Box<dyn Error>> {
    let steps = log();
    let mut record = Record::zeros(N);
    let answers = run(&mut record, &steps)?;
    for (k, (step, answer)) in steps.iter().zip(answers).enumerate() {
        write!(out, "{k:2} ")?;
        write_step(out, *step)?;
        write_answer(out, answer)?;
    }
    writeln!(out, "used {:x}", record.used)?;
    Ok(())
}

/// H at each, CZ along the wire, X at 0 to 3; then X at 4 as the log has it and as it must be, and a
/// gate too late.
fn log() -> Vec<Step> {
    let mut steps: Vec<Step> = (0..N).map(|q| Step::Gate(q, codes::H)).collect();
    steps.extend((0..N - 1).map(|q| Step::Cz(q, q + 1)));
    let clicks = [(0, 1), (1, 0), (2, 0), (3, 1), (4, 0), (4, 1)];
    steps.extend(clicks.map(|(q, bit)| Step::Measure(Pauli::X, q, bit)));
    steps.push(Step::Gate(2, codes::H));
    steps
}

/// Writes a step, its gates being H and its measurements those of X.
fn write_step(out: &mut impl Write, step: Step) -> fmt::Result {
    match step {
        Step::Gate(q, _) => write!(out, "H at {q}"),
        Step::Cz(a, b) => write!(out, "CZ at {a} and {b}"),
        Step::Measure(_, q, _) => write!(out, "X at {q}"),
        Step::Observe(pauli, q, _) => write!(out, "{pauli:?} by lot at {q}"),
        Step::Renew(q, photon) => write!(out, "{photon:?} at {q}"),
        Step::Complement(q) | Step::Pivot(q, _) => write!(out, "the graph rewritten at {q}"),
    }
}

/// Writes an answer, and ends the line.
fn write_answer(out: &mut impl Write, answer: Result<Option<Measured>, Refusal>) -> fmt::Result {
    match answer {
        Ok(None) => writeln!(out),
        Ok(Some(found)) => {
            let how = if found.determined {
                "determined"
            } else {
                "free"
            };
            writeln!(out, ": outcome {}, {how}", found.outcome)
        }
        Err(refusal) => writeln!(out, ": {refusal}"),
    }
}
