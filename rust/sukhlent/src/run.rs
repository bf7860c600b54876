//! Many steps in one call.

use crate::{raw, Measured, Pauli, Photon, Record, Refusal};

/// A step of a run.
///
/// ```
/// use sukhlent::{codes, run, Record, Step};
///
/// let mut record = Record::zeros(1);
/// assert_eq!(run(&mut record, &[Step::Gate(0, codes::X)])?, [Ok(None)]);
/// # Ok::<(), sukhlent::Refusal>(())
/// ```
#[derive(Clone, Copy, Debug, PartialEq, Eq, Hash)]
pub enum Step {
    /// A qubit, and the code applied there.
    Gate(usize, u8),
    /// The two qubits of a CZ.
    Cz(usize, usize),
    /// A Pauli, the qubit at which it is measured, and the bit.
    Measure(Pauli, usize, u8),
    /// The vertex of a complementation.
    Complement(usize),
    /// The ends of an edge: complementations at the first, the second and the first.
    Pivot(usize, usize),
    /// A Pauli, the qubit at which it is measured, and a bit by lot, which is the outcome where the
    /// state does not determine it.
    Observe(Pauli, usize, u8),
    /// A used qubit, and the photon that takes its place.
    Renew(usize, Photon),
}

impl Step {
    /// As it is lent: the number of the operation, two qubits and a value. What no slice holds becomes
    /// a number that refuses the step likewise.
    fn numbers(self) -> (u8, u16, u16, u16) {
        let place = |q: usize| u16::try_from(q).unwrap_or(u16::MAX);
        match self {
            Step::Gate(q, code) => (0, place(q), 0, code.into()),
            Step::Cz(a, b) => (1, place(a), place(b), 0),
            Step::Measure(pauli, q, bit) => (2, place(q), 0, measured(pauli, bit)),
            Step::Complement(a) => (3, place(a), 0, 0),
            Step::Pivot(a, b) => (4, place(a), place(b), 0),
            Step::Observe(pauli, q, bit) => (5, place(q), 0, measured(pauli, bit)),
            Step::Renew(q, photon) => (6, place(q), 0, photon as u16),
        }
    }
}

/// The value of a measurement; of a bit above 1 one that is refused likewise.
fn measured(pauli: Pauli, bit: u8) -> u16 {
    match bit {
        0 | 1 => 2 * (pauli as u16 - 1) + u16::from(bit),
        _ => u16::MAX,
    }
}

/// Runs at most 4,096 steps on a record, one after the other, and answers of each what a measurement
/// found, nothing, or its refusal. A refused step changes nothing. The record is checked once.
///
/// Refusals of the whole: 15, 2, 4, 5, 6, 7; of a step: 6, 8, 16, 20, 14.
///
/// ```
/// use sukhlent::{codes, run, Measured, Pauli, Record, Refusal, Step};
///
/// let mut record = Record::zeros(2);
/// let answers = run(&mut record, &[
///     Step::Gate(0, codes::H),
///     Step::Measure(Pauli::X, 0, 1),
///     Step::Measure(Pauli::X, 0, 0),
///     Step::Cz(0, 0),
/// ])?;
/// assert_eq!(answers, [
///     Ok(None),
///     Err(Refusal::Contradicted),
///     Ok(Some(Measured { outcome: 0, determined: true })),
///     Err(Refusal::Qubit),
/// ]);
/// # Ok::<(), Refusal>(())
/// ```
///
/// A source that goes on: a photon is measured with a bit by lot, and another takes its place.
///
/// ```
/// use sukhlent::{run, Measured, Pauli, Photon, Record, Step};
///
/// let mut record = Record::zeros(1);
/// let answers = run(&mut record, &[
///     Step::Observe(Pauli::X, 0, 1),
///     Step::Renew(0, Photon::MinusY),
///     Step::Observe(Pauli::Y, 0, 0),
/// ])?;
/// assert_eq!(answers, [
///     Ok(Some(Measured { outcome: 1, determined: false })),
///     Ok(None),
///     Ok(Some(Measured { outcome: 1, determined: true })),
/// ]);
/// # Ok::<(), sukhlent::Refusal>(())
/// ```
pub fn run(
    record: &mut Record,
    steps: &[Step],
) -> Result<Vec<Result<Option<Measured>, Refusal>>, Refusal> {
    let numbers: Vec<_> = steps.iter().map(|step| step.numbers()).collect();
    let ops: Vec<u8> = numbers.iter().map(|n| n.0).collect();
    let a: Vec<u16> = numbers.iter().map(|n| n.1).collect();
    let b: Vec<u16> = numbers.iter().map(|n| n.2).collect();
    let value: Vec<u16> = numbers.iter().map(|n| n.3).collect();
    let [mut refusals, mut outcomes, mut determined] = [0; 3].map(|byte| vec![byte; steps.len()]);
    let number = raw::run(
        record.n() as u64,
        &mut record.neighbours,
        &mut record.codes,
        &mut record.used,
        &ops,
        &a,
        &b,
        &value,
        &mut refusals,
        &mut outcomes,
        &mut determined,
    );
    Refusal::unless_accepted(number)?;
    let told = steps.iter().enumerate().map(|(k, step)| {
        Refusal::unless_accepted(refusals[k])?;
        Ok(
            matches!(step, Step::Measure(..) | Step::Observe(..)).then_some(Measured {
                outcome: outcomes[k],
                determined: determined[k] == 1,
            }),
        )
    });
    Ok(told.collect())
}
