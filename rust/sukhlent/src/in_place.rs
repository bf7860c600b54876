//! Calls that rewrite a record in place. A refused call leaves the record as it was. A measurement
//! marks its qubit as used; the other calls leave the used word as it is.

use crate::{raw, Record, Refusal};

/// A Pauli that can be measured, by its number.
///
/// ```
/// use sukhlent::{measure, Pauli, Record};
///
/// assert_eq!(Pauli::Y as u8, 2);
/// assert!(measure(&mut Record::zeros(1), Pauli::Z, 0, 0)?.determined);
/// # Ok::<(), sukhlent::Refusal>(())
/// ```
#[derive(Clone, Copy, Debug, PartialEq, Eq, Hash, PartialOrd, Ord)]
#[repr(u8)]
pub enum Pauli {
    /// The Pauli X.
    X = 1,
    /// The Pauli Y.
    Y = 2,
    /// The Pauli Z.
    Z = 3,
}

/// The answer of a measurement.
///
/// ```
/// use sukhlent::{measure, Measured, Pauli, Record};
///
/// let answer = measure(&mut Record::zeros(1), Pauli::X, 0, 1)?;
/// assert_eq!(answer, Measured { outcome: 1, determined: false });
/// # Ok::<(), sukhlent::Refusal>(())
/// ```
#[derive(Clone, Copy, Debug, PartialEq, Eq, Hash)]
pub struct Measured {
    /// 0 for plus, 1 for minus.
    pub outcome: u8,
    /// Whether the Pauli or its negative was in the group already.
    pub determined: bool,
}

impl Measured {
    /// What a call told that writes an outcome and whether it was determined.
    pub(crate) fn told(call: impl FnOnce(&mut u8, &mut u8) -> u8) -> Result<Measured, Refusal> {
        let (mut outcome, mut determined) = (0, 0);
        let number = call(&mut outcome, &mut determined);
        Measured::unless_refused(number, outcome, determined)
    }

    /// What a measurement told, where its number is 0.
    pub(crate) fn unless_refused(
        number: u8,
        outcome: u8,
        determined: u8,
    ) -> Result<Measured, Refusal> {
        Refusal::unless_accepted(number).map(|()| Measured {
            outcome,
            determined: determined == 1,
        })
    }
}

/// Applies a code after the code held at a qubit; the record becomes the reduced one.
///
/// Refusals: 2, 4, 5, 6 (also for the given code), 7, 8 for a qubit out of range, 16 for a used one.
///
/// ```
/// use sukhlent::{codes, expand, gate, Record};
///
/// let mut record = Record::zeros(2);
/// gate(&mut record, 1, codes::X)?;
/// assert_eq!(expand(&record)?.to_string(), "+ZI\n-IZ\n");
/// # Ok::<(), sukhlent::Refusal>(())
/// ```
pub fn gate(record: &mut Record, qubit: usize, code: u8) -> Result<(), Refusal> {
    let (n, words, codes, used) = record.lent_mut();
    Refusal::unless_accepted(raw::gate(n, words, codes, *used, qubit as u64, code))
}

/// Applies CZ to two qubits; the record becomes the reduced one.
///
/// Refusals: 2, 4, 5, 6, 7, 8 for a qubit out of range or one qubit twice, 16 for a used one.
///
/// ```
/// use sukhlent::{cz, Record, Refusal};
///
/// // Two qubits in +X get an edge.
/// let mut record = Record { neighbours: vec![0, 0], codes: vec![0, 0], used: 0 };
/// cz(&mut record, 0, 1)?;
/// assert_eq!(record.neighbours, [0b10, 0b01]);
/// assert_eq!(cz(&mut record, 1, 1), Err(Refusal::Qubit));
/// # Ok::<(), Refusal>(())
/// ```
pub fn cz(record: &mut Record, a: usize, b: usize) -> Result<(), Refusal> {
    let (n, words, codes, used) = record.lent_mut();
    Refusal::unless_accepted(raw::cz(n, words, codes, *used, a as u64, b as u64))
}

/// Measures a Pauli at a qubit; the record becomes the reduced one, and the qubit is used.
///
/// The outcome is the bit (1 for minus). Where the Pauli is determined the group stays, and a bit
/// that the state forbids is refused.
///
/// Refusals: 2, 4, 5, 6 (also for a bit above 1), 7, 8 for a qubit out of range, 16 for a used one,
/// 14 for a bit that is not the determined outcome.
///
/// ```
/// use sukhlent::{gate, measure, Measured, Pauli, Record, Refusal};
///
/// // The Bell state XX, ZZ: one edge with a Hadamard at qubit 1.
/// let mut record = Record {
///     neighbours: vec![0b10, 0b01],
///     codes: vec![0, 8],
///     used: 0,
/// };
/// let first = measure(&mut record, Pauli::Z, 0, 1)?;
/// assert_eq!(first, Measured { outcome: 1, determined: false });
/// assert_eq!(record.codes, [10, 10]);
/// // Qubit 0 is gone.
/// assert_eq!(record.used, 0b01);
/// assert_eq!(gate(&mut record, 0, 8), Err(Refusal::Used));
/// assert_eq!(measure(&mut record, Pauli::Z, 0, 1), Err(Refusal::Used));
/// // Qubit 1 is in the same state now: outcome 0 is contradicted.
/// let contradicted = measure(&mut record, Pauli::Z, 1, 0);
/// assert_eq!(contradicted, Err(Refusal::Contradicted));
/// let second = measure(&mut record, Pauli::Z, 1, 1)?;
/// assert_eq!(second, Measured { outcome: 1, determined: true });
/// assert_eq!(record.used, 0b11);
/// # Ok::<(), sukhlent::Refusal>(())
/// ```
pub fn measure(
    record: &mut Record,
    pauli: Pauli,
    qubit: usize,
    bit: u8,
) -> Result<Measured, Refusal> {
    let (n, words, codes, used) = record.lent_mut();
    let (pauli, at) = (pauli as u8, qubit as u64);
    Measured::told(|outcome, known| {
        raw::measure(n, words, codes, used, pauli, at, bit, outcome, known)
    })
}

/// Complements the graph at a vertex and rewrites the codes so that the group stays. The record is
/// not reduced.
///
/// Refusals: 2, 4, 5, 6, 7, 8 for a vertex out of range, 16 for a used one.
///
/// ```
/// use sukhlent::{codes, complement, reduce, expand, Record};
///
/// // The path 0 - 1 - 2 becomes the triangle, and the state stays.
/// let path = Record { neighbours: vec![0b010, 0b101, 0b010], codes: vec![0; 3], used: 0 };
/// let mut record = path.clone();
/// complement(&mut record, 1)?;
/// assert_eq!(record.neighbours, [0b110, 0b101, 0b011]);
/// assert_eq!(record.codes, [codes::S_DAG, codes::SQRT_X, codes::S_DAG]);
/// assert_eq!(reduce(&expand(&record)?)?, path);
/// # Ok::<(), sukhlent::Refusal>(())
/// ```
pub fn complement(record: &mut Record, a: usize) -> Result<(), Refusal> {
    let (n, words, codes, used) = record.lent_mut();
    Refusal::unless_accepted(raw::complement(n, words, codes, *used, a as u64))
}
