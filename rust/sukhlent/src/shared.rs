//! Two groups that share one record.

use crate::{raw, Measured, Pauli, Photon, Record, Refusal, Store};
use std::sync::{Mutex, MutexGuard, PoisonError};

/// A record of 64 qubits that two groups share, each with four named states of its own.
///
/// Bit q of a word that is fixed at the start is the group of qubit q. Each group works through its
/// own handle, which names no qubit and finds no state of the other; what it sees there does not
/// depend on what the other does. Handles may be used from two threads.
///
/// ```
/// use sukhlent::{codes, Pauli, Refusal, Shared};
///
/// let shared = Shared::new(!0 << 32);
/// let [lower, upper] = shared.groups();
/// lower.gate(0, codes::H)?;
/// lower.save(*b"plus    ")?;
/// // The upper group has a state of its own under the same name, and no say in qubit 0.
/// upper.gate(40, codes::X)?;
/// upper.save(*b"plus    ")?;
/// assert_eq!(upper.gate(0, codes::X), Err(Refusal::OtherGroup));
/// assert_eq!(lower.measure(Pauli::X, 0, 0)?.determined, true);
/// lower.return_to(*b"plus    ")?;
/// assert_eq!((shared.record().codes[0], shared.record().codes[40]), (0, 10));
/// # Ok::<(), Refusal>(())
/// ```
#[derive(Debug)]
pub struct Shared {
    word: u64,
    held: Mutex<Held>,
}

/// What both groups share.
#[derive(Debug)]
struct Held {
    record: Record,
    store: Store,
}

impl Shared {
    /// Every qubit in +Z and no state held; bit q of the word is the group of qubit q.
    ///
    /// ```
    /// use sukhlent::{Record, Shared};
    ///
    /// assert_eq!(Shared::new(0b1010).record(), Record::zeros(64));
    /// ```
    pub fn new(word: u64) -> Shared {
        let (record, store) = (Record::zeros(64), Store::new());
        let held = Mutex::new(Held { record, store });
        Shared { word, held }
    }

    /// The handles of groups 0 and 1.
    ///
    /// ```
    /// let shared = sukhlent::Shared::new(0b1010);
    /// let [zero, one] = shared.groups();
    /// assert_eq!(zero.qubits().take(3).collect::<Vec<_>>(), [0, 2, 4]);
    /// assert!(one.qubits().eq([1, 3]));
    /// ```
    pub fn groups(&self) -> [Group<'_>; 2] {
        [0, 1].map(|group| Group {
            shared: self,
            group,
        })
    }

    /// The handle of one group.
    ///
    /// Refusal: 6 for a group above 1.
    ///
    /// ```
    /// use sukhlent::{Refusal, Shared};
    ///
    /// let shared = Shared::new(!0 << 32);
    /// assert_eq!(shared.group(1)?.qubits().next(), Some(32));
    /// assert_eq!(shared.group(2).unwrap_err(), Refusal::Value);
    /// # Ok::<(), Refusal>(())
    /// ```
    pub fn group(&self, group: u8) -> Result<Group<'_>, Refusal> {
        let found = self.groups().into_iter().find(|own| own.group == group);
        found.ok_or(Refusal::Value)
    }

    /// The word: bit q is the group of qubit q.
    ///
    /// ```
    /// assert_eq!(sukhlent::Shared::new(0b1010).word(), 0b1010);
    /// ```
    pub fn word(&self) -> u64 {
        self.word
    }

    /// The whole record as it is now.
    ///
    /// ```
    /// let shared = sukhlent::Shared::new(!0 << 32);
    /// shared.groups()[1].complement(40)?;
    /// assert_eq!(shared.record().codes[40], 20);
    /// # Ok::<(), sukhlent::Refusal>(())
    /// ```
    pub fn record(&self) -> Record {
        self.lock().record.clone()
    }

    /// Works on the whole record, as its operator. Where this leaves an edge between the two groups,
    /// every call of either group is refused, by 19 if by no number before it, until no edge joins
    /// them; where it leaves no record of 64 qubits, by 2, 4, 5, 6 or 7.
    ///
    /// ```
    /// use sukhlent::{codes, cz, gate, Refusal, Shared};
    ///
    /// let shared = Shared::new(!0 << 32);
    /// shared.operate(|record| gate(record, 0, codes::H))?;
    /// shared.operate(|record| gate(record, 40, codes::H))?;
    /// shared.operate(|record| cz(record, 0, 40))?;
    /// let [lower, _] = shared.groups();
    /// assert_eq!(lower.gate(1, codes::H), Err(Refusal::OtherGroup));
    /// shared.operate(|record| cz(record, 0, 40))?;
    /// assert_eq!(lower.gate(1, codes::H), Ok(()));
    /// # Ok::<(), Refusal>(())
    /// ```
    pub fn operate<T>(&self, call: impl FnOnce(&mut Record) -> T) -> T {
        call(&mut self.lock().record)
    }

    /// What both share; no call leaves it half done.
    fn lock(&self) -> MutexGuard<'_, Held> {
        self.held.lock().unwrap_or_else(PoisonError::into_inner)
    }
}

/// The handle of one group: its calls work on its own qubits and on its own named states.
///
/// A call that names a qubit of the other group is refused by 19 ([`Refusal::OtherGroup`]), and so is
/// every call while the record has an edge between the groups. A refused call changes nothing.
///
/// ```
/// use sukhlent::{codes, Refusal, Shared};
///
/// let shared = Shared::new(!0 << 32);
/// let [lower, upper] = shared.groups();
/// lower.gate(0, codes::H)?;
/// lower.gate(1, codes::H)?;
/// lower.cz(0, 1)?;
/// assert_eq!(lower.record().neighbours[..2], [0b10, 0b01]);
/// assert_eq!(lower.cz(1, 40), Err(Refusal::OtherGroup));
/// assert_eq!(upper.record().neighbours, [0; 64]);
/// # Ok::<(), Refusal>(())
/// ```
#[derive(Debug)]
pub struct Group<'a> {
    shared: &'a Shared,
    group: u8,
}

impl Group<'_> {
    /// The word and the group, as the raw calls take them.
    fn whose(&self) -> raw::Whose {
        (self.shared.word, self.group)
    }

    /// The group's qubits, as a word.
    fn own(&self) -> u64 {
        match self.group {
            1 => self.shared.word,
            _ => !self.shared.word,
        }
    }

    /// The group's qubits, rising.
    ///
    /// ```
    /// let shared = sukhlent::Shared::new(0);
    /// assert_eq!(shared.groups().map(|group| group.qubits().count()), [64, 0]);
    /// ```
    pub fn qubits(&self) -> impl Iterator<Item = usize> {
        let own = self.own();
        (0..64).filter(move |q| own >> q & 1 == 1)
    }

    /// The record of the group's vertices, the other's in +Z: what a save holds. While there is an
    /// edge between the groups, by which a save is refused, its words have that edge at one end.
    ///
    /// ```
    /// use sukhlent::{codes, Shared};
    ///
    /// let shared = Shared::new(!0 << 32);
    /// shared.groups()[1].gate(40, codes::X)?;
    /// assert_eq!(shared.groups().map(|group| group.record().codes[40]), [8, 10]);
    /// # Ok::<(), sukhlent::Refusal>(())
    /// ```
    pub fn record(&self) -> Record {
        let (mut seen, own) = (self.shared.record(), self.own());
        let vertices = seen.neighbours.iter_mut().zip(&mut seen.codes);
        for (_, (word, code)) in (0..64).zip(vertices).filter(|(q, _)| own >> q & 1 == 0) {
            (*word, *code) = (0, crate::codes::H);
        }
        seen.used &= own;
        seen
    }

    /// Applies a code at a qubit of the group, and reduces the group's vertices.
    ///
    /// Refusals: 6 for a code above 23, 19, 8 for a qubit out of range, 16 for a used one.
    ///
    /// ```
    /// use sukhlent::{codes, Refusal, Shared};
    ///
    /// let shared = Shared::new(!0 << 32);
    /// let [lower, _] = shared.groups();
    /// lower.gate(31, codes::H)?;
    /// assert_eq!(lower.gate(32, codes::H), Err(Refusal::OtherGroup));
    /// assert_eq!(lower.gate(64, codes::H), Err(Refusal::Qubit));
    /// # Ok::<(), Refusal>(())
    /// ```
    pub fn gate(&self, qubit: usize, code: u8) -> Result<(), Refusal> {
        let record = &mut self.shared.lock().record;
        let (n, words, codes, used) = record.lent_mut();
        let number = raw::group_gate(n, self.whose(), words, codes, *used, qubit as u64, code);
        Refusal::unless_accepted(number)
    }

    /// Applies CZ to two qubits of the group, and reduces the group's vertices.
    ///
    /// Refusals: 19, 8 for a qubit out of range or one qubit twice, 16 for a used one.
    ///
    /// ```
    /// use sukhlent::{Refusal, Shared};
    ///
    /// let shared = Shared::new(!0 << 32);
    /// let [_, upper] = shared.groups();
    /// upper.cz(40, 41)?;
    /// assert_eq!(upper.cz(40, 40), Err(Refusal::Qubit));
    /// assert_eq!(upper.cz(0, 0), Err(Refusal::OtherGroup));
    /// # Ok::<(), Refusal>(())
    /// ```
    pub fn cz(&self, a: usize, b: usize) -> Result<(), Refusal> {
        let record = &mut self.shared.lock().record;
        let (n, words, codes, used) = record.lent_mut();
        let number = raw::group_cz(n, self.whose(), words, codes, *used, a as u64, b as u64);
        Refusal::unless_accepted(number)
    }

    /// Measures a Pauli at a qubit of the group, which is used from then on, and reduces the group's
    /// vertices.
    ///
    /// Refusals: 6 for a bit above 1, 19, 8 for a qubit out of range, 16 for a used one, 14 for a bit
    /// that is not the determined outcome.
    ///
    /// ```
    /// use sukhlent::{Measured, Pauli, Refusal, Shared};
    ///
    /// let shared = Shared::new(!0 << 32);
    /// let [lower, upper] = shared.groups();
    /// let answer = lower.measure(Pauli::X, 0, 1)?;
    /// assert_eq!(answer, Measured { outcome: 1, determined: false });
    /// assert_eq!(lower.measure(Pauli::X, 0, 1), Err(Refusal::Used));
    /// assert_eq!(upper.measure(Pauli::Z, 40, 1), Err(Refusal::Contradicted));
    /// # Ok::<(), Refusal>(())
    /// ```
    pub fn measure(&self, pauli: Pauli, qubit: usize, bit: u8) -> Result<Measured, Refusal> {
        let record = &mut self.shared.lock().record;
        let (n, words, codes, used) = record.lent_mut();
        let (whose, pauli, at) = (self.whose(), pauli as u8, qubit as u64);
        Measured::told(|outcome, known| {
            raw::group_measure(n, whose, words, codes, used, pauli, at, bit, outcome, known)
        })
    }

    /// Measures a Pauli at a qubit of the group with a bit by lot, as [`observe`](crate::observe).
    ///
    /// Refusals: 6 for a bit above 1, 19, 8 for a qubit out of range, 16 for a used one.
    ///
    /// ```
    /// use sukhlent::{Measured, Pauli, Refusal, Shared};
    ///
    /// let shared = Shared::new(!0 << 32);
    /// let [lower, upper] = shared.groups();
    /// let answer = upper.observe(Pauli::Z, 40, 1)?;
    /// assert_eq!(answer, Measured { outcome: 0, determined: true });
    /// assert_eq!(lower.observe(Pauli::Z, 40, 1), Err(Refusal::OtherGroup));
    /// # Ok::<(), Refusal>(())
    /// ```
    pub fn observe(&self, pauli: Pauli, qubit: usize, bit: u8) -> Result<Measured, Refusal> {
        let record = &mut self.shared.lock().record;
        let (n, words, codes, used) = record.lent_mut();
        let (whose, pauli, at) = (self.whose(), pauli as u8, qubit as u64);
        Measured::told(|outcome, known| {
            raw::group_observe(n, whose, words, codes, used, pauli, at, bit, outcome, known)
        })
    }

    /// Puts a new photon at a used qubit of the group, as [`Record::renew`](crate::Record::renew).
    ///
    /// Refusals: 19, 8 for a qubit out of range, 20 for one that is not used.
    ///
    /// ```
    /// use sukhlent::{Pauli, Photon, Refusal, Shared};
    ///
    /// let shared = Shared::new(!0 << 32);
    /// let [lower, upper] = shared.groups();
    /// upper.observe(Pauli::X, 40, 1)?;
    /// assert_eq!(lower.renew(40, Photon::PlusZ), Err(Refusal::OtherGroup));
    /// upper.renew(40, Photon::PlusZ)?;
    /// assert_eq!(upper.renew(40, Photon::PlusZ), Err(Refusal::NotUsed));
    /// # Ok::<(), Refusal>(())
    /// ```
    pub fn renew(&self, qubit: usize, photon: Photon) -> Result<(), Refusal> {
        let record = &mut self.shared.lock().record;
        let (n, words, codes, used) = record.lent_mut();
        let (at, code) = (qubit as u64, photon as u8);
        let number = raw::group_renew(n, self.whose(), words, codes, used, at, code);
        Refusal::unless_accepted(number)
    }

    /// Complements at a vertex of the group, so that its state stays; nothing is reduced.
    ///
    /// Refusals: 19, 8 for a vertex out of range, 16 for a used one.
    ///
    /// ```
    /// use sukhlent::{Refusal, Shared};
    ///
    /// let shared = Shared::new(!0 << 32);
    /// let [lower, upper] = shared.groups();
    /// lower.complement(0)?;
    /// // A gate of the other group reduces nothing here.
    /// upper.gate(40, 0)?;
    /// assert_eq!(shared.record().codes[0], 20);
    /// # Ok::<(), Refusal>(())
    /// ```
    pub fn complement(&self, a: usize) -> Result<(), Refusal> {
        let record = &mut self.shared.lock().record;
        let (n, words, codes, used) = record.lent_mut();
        let number = raw::group_complement(n, self.whose(), words, codes, *used, a as u64);
        Refusal::unless_accepted(number)
    }

    /// Saves the group's vertices under a name, which the other group neither sees nor meets.
    ///
    /// Refusals: 19, 18 where the group holds four other names.
    ///
    /// ```
    /// use sukhlent::{Refusal, Shared};
    ///
    /// let shared = Shared::new(!0 << 32);
    /// let [lower, upper] = shared.groups();
    /// for name in 0..4 {
    ///     lower.save([name; 8])?;
    /// }
    /// assert_eq!(lower.save([4; 8]), Err(Refusal::Full));
    /// assert_eq!(upper.save([4; 8]), Ok(()));
    /// # Ok::<(), Refusal>(())
    /// ```
    pub fn save(&self, name: [u8; 8]) -> Result<(), Refusal> {
        let Held { record, store } = &mut *self.shared.lock();
        let (heads, words, codes) = (&mut store.heads, &mut *store.neighbours, &mut *store.codes);
        let (lent, name) = (record.lent(), u64::from_ne_bytes(name));
        let number = raw::group_save(lent, self.whose(), name, heads, words, codes);
        Refusal::unless_accepted(number)
    }

    /// Brings the group's vertices back to what it holds under a name, and leaves all others.
    ///
    /// Refusals: 19, 17 where the group holds nothing under the name.
    ///
    /// ```
    /// use sukhlent::{codes, Pauli, Refusal, Shared};
    ///
    /// let shared = Shared::new(!0 << 32);
    /// let [lower, upper] = shared.groups();
    /// lower.save(*b"start   ")?;
    /// lower.measure(Pauli::X, 0, 0)?;
    /// upper.measure(Pauli::X, 40, 0)?;
    /// lower.return_to(*b"start   ")?;
    /// assert_eq!(shared.record().used, 1 << 40);
    /// assert_eq!(upper.return_to(*b"start   "), Err(Refusal::NotHeld));
    /// # Ok::<(), Refusal>(())
    /// ```
    pub fn return_to(&self, name: [u8; 8]) -> Result<(), Refusal> {
        let Held { record, store } = &mut *self.shared.lock();
        let (n, words, codes, used) = record.lent_mut();
        let (name, whose) = (u64::from_ne_bytes(name), self.whose());
        let number = raw::group_return(n, whose, words, codes, used, name, store.lent());
        Refusal::unless_accepted(number)
    }

    /// Makes the place of a name free for the group's next save.
    ///
    /// Refusals: 19, 17 where the group holds nothing under the name.
    ///
    /// ```
    /// use sukhlent::{Refusal, Shared};
    ///
    /// let shared = Shared::new(!0 << 32);
    /// let [lower, upper] = shared.groups();
    /// lower.save(*b"start   ")?;
    /// assert_eq!(upper.forget(*b"start   "), Err(Refusal::NotHeld));
    /// assert_eq!(lower.forget(*b"start   "), Ok(()));
    /// # Ok::<(), Refusal>(())
    /// ```
    pub fn forget(&self, name: [u8; 8]) -> Result<(), Refusal> {
        let Held { record, store } = &mut *self.shared.lock();
        let (heads, words, codes) = (&mut store.heads, &*store.neighbours, &*store.codes);
        let (lent, name) = (record.lent(), u64::from_ne_bytes(name));
        let number = raw::group_forget(lent, self.whose(), name, heads, words, codes);
        Refusal::unless_accepted(number)
    }

    /// The names that the group holds, in the order of their places.
    ///
    /// ```
    /// let shared = sukhlent::Shared::new(!0 << 32);
    /// let [lower, upper] = shared.groups();
    /// lower.save(*b"start   ")?;
    /// assert_eq!(lower.names(), [*b"start   "]);
    /// assert!(upper.names().is_empty());
    /// # Ok::<(), sukhlent::Refusal>(())
    /// ```
    pub fn names(&self) -> Vec<[u8; 8]> {
        let heads = self.shared.lock().store.heads;
        let own = &heads[12 * usize::from(self.group)..][..12];
        let held = own.chunks(3).filter(|place| place[0] != 0);
        held.map(|place| place[1].to_ne_bytes()).collect()
    }
}
