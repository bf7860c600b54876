//! A source that goes on: measurements with a bit by lot, and new photons at used places.

use crate::{raw, Measured, Pauli, Record, Refusal};

/// The state of a new photon, by its code.
///
/// ```
/// use sukhlent::Photon;
///
/// assert_eq!(Photon::MinusZ as u8, 10);
/// assert_eq!(Photon::ALL.map(|photon| photon as u8), [0, 2, 4, 6, 8, 10]);
/// ```
#[derive(Clone, Copy, Debug, PartialEq, Eq, Hash, PartialOrd, Ord)]
#[repr(u8)]
pub enum Photon {
    /// The state +X.
    #[doc(alias = "SUKHLENT_PHOTON_PLUS_X")]
    PlusX = 0,
    /// The state -X.
    #[doc(alias = "SUKHLENT_PHOTON_MINUS_X")]
    MinusX = 2,
    /// The state +Y.
    #[doc(alias = "SUKHLENT_PHOTON_PLUS_Y")]
    PlusY = 4,
    /// The state -Y.
    #[doc(alias = "SUKHLENT_PHOTON_MINUS_Y")]
    MinusY = 6,
    /// The state +Z.
    #[doc(alias = "SUKHLENT_PHOTON_PLUS_Z")]
    PlusZ = 8,
    /// The state -Z.
    #[doc(alias = "SUKHLENT_PHOTON_MINUS_Z")]
    MinusZ = 10,
}

impl Photon {
    /// The six states, by rising codes.
    ///
    /// ```
    /// assert_eq!(sukhlent::Photon::ALL.len(), 6);
    /// ```
    pub const ALL: [Photon; 6] = [
        Photon::PlusX,
        Photon::MinusX,
        Photon::PlusY,
        Photon::MinusY,
        Photon::PlusZ,
        Photon::MinusZ,
    ];
}

/// Measures a Pauli at a qubit with a bit by lot; the record becomes the reduced one, and the qubit
/// is used.
///
/// The outcome is the bit (1 for minus) where the state does not determine it, and otherwise the
/// state's sign, whatever the bit.
///
/// Refusals: 2, 4, 5, 6 (also for a bit above 1), 7, 8 for a qubit out of range, 16 for a used one.
///
/// ```
/// use sukhlent::{measure, observe, Measured, Pauli, Record, Refusal};
///
/// // The Bell state XX, ZZ: the first outcome is by lot, and the second is the same.
/// let mut record = Record {
///     neighbours: vec![0b10, 0b01],
///     codes: vec![0, 8],
///     used: 0,
/// };
/// let first = observe(&mut record, Pauli::Z, 0, 1)?;
/// assert_eq!(first, Measured { outcome: 1, determined: false });
/// let refused = measure(&mut record.clone(), Pauli::Z, 1, 0);
/// assert_eq!(refused, Err(Refusal::Contradicted));
/// let second = observe(&mut record, Pauli::Z, 1, 0)?;
/// assert_eq!(second, Measured { outcome: 1, determined: true });
/// # Ok::<(), sukhlent::Refusal>(())
/// ```
pub fn observe(
    record: &mut Record,
    pauli: Pauli,
    qubit: usize,
    bit: u8,
) -> Result<Measured, Refusal> {
    let (n, words, codes, used) = record.lent_mut();
    let (pauli, at) = (pauli as u8, qubit as u64);
    Measured::told(|outcome, known| {
        raw::observe(n, words, codes, used, pauli, at, bit, outcome, known)
    })
}

impl Record {
    /// Puts a new photon at a used qubit: its code is the photon's, it is no longer used, and all
    /// else stays. A reduced record stays reduced.
    ///
    /// Refusals: 2, 4, 5, 6, 7, 8 for a qubit out of range, 20 for one that is not used.
    ///
    /// ```
    /// use sukhlent::{cz, observe, Pauli, Photon, Record, Refusal};
    ///
    /// let mut record = Record::zeros(2);
    /// assert_eq!(record.renew(0, Photon::PlusX), Err(Refusal::NotUsed));
    /// observe(&mut record, Pauli::X, 0, 1)?;
    /// assert_eq!((record.codes[0], record.used), (2, 0b01));
    /// record.renew(0, Photon::PlusX)?;
    /// assert_eq!((record.codes[0], record.used), (0, 0));
    /// cz(&mut record, 0, 1)?;
    /// # Ok::<(), Refusal>(())
    /// ```
    pub fn renew(&mut self, qubit: usize, photon: Photon) -> Result<(), Refusal> {
        let (n, words, codes, used) = self.lent_mut();
        let number = raw::renew(n, words, codes, used, qubit as u64, photon as u8);
        Refusal::unless_accepted(number)
    }
}
