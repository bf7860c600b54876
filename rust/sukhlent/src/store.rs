//! Named states.

use crate::{raw, Record, Refusal};

/// Up to eight records, each held under a name of eight bytes. A store starts empty. Two stores are
/// equal if their buffers are, what free places hold included: one that forgot is not a new one.
///
/// ```
/// use sukhlent::{cz, gate, codes, Record, Refusal, Store};
///
/// let mut store = Store::new();
/// let mut record = Record::zeros(2);
/// gate(&mut record, 0, codes::H)?;
/// store.save(&record, *b"plus    ")?;
/// gate(&mut record, 1, codes::H)?;
/// cz(&mut record, 0, 1)?;
/// record = store.return_to(*b"plus    ")?;
/// assert_eq!(record.codes, [0, 8]);
/// store.forget(*b"plus    ")?;
/// assert_eq!(store.return_to(*b"plus    "), Err(Refusal::NotHeld));
/// # Ok::<(), sukhlent::Refusal>(())
/// ```
#[derive(Clone, Debug, PartialEq, Eq, Hash)]
pub struct Store {
    pub(crate) heads: [u64; 24],
    pub(crate) neighbours: Box<[u64; 512]>,
    pub(crate) codes: Box<[u8; 512]>,
}

impl Default for Store {
    fn default() -> Store {
        Store::new()
    }
}

impl Store {
    /// A store that holds nothing.
    ///
    /// ```
    /// assert_eq!(sukhlent::Store::new().names().count(), 0);
    /// ```
    pub fn new() -> Store {
        Store {
            heads: [0; 24],
            neighbours: Box::new([0; 512]),
            codes: Box::new([0; 512]),
        }
    }

    /// The store as the raw calls read it.
    pub(crate) fn lent(&self) -> raw::LentStore<'_> {
        (&self.heads, &*self.neighbours, &*self.codes)
    }

    /// Saves a record under a name: replaces what is held under it, else takes a free place. Other
    /// names keep their records.
    ///
    /// Refusals: 2, 4, 5, 6, 7, 18 (eight other names are held).
    ///
    /// ```
    /// use sukhlent::{Record, Refusal, Store};
    ///
    /// let mut store = Store::new();
    /// for name in 0..8 {
    ///     store.save(&Record::zeros(1), [name; 8])?;
    /// }
    /// assert_eq!(store.save(&Record::zeros(1), [8; 8]), Err(Refusal::Full));
    /// store.save(&Record::zeros(2), [0; 8])?;
    /// assert_eq!(store.return_to([0; 8])?.n(), 2);
    /// # Ok::<(), sukhlent::Refusal>(())
    /// ```
    pub fn save(&mut self, record: &Record, name: [u8; 8]) -> Result<(), Refusal> {
        let (lent, name) = (record.lent(), u64::from_ne_bytes(name));
        let (heads, words) = (&mut self.heads, &mut *self.neighbours);
        Refusal::unless_accepted(raw::save(lent, name, heads, words, &mut *self.codes))
    }

    /// The record held under a name, which stays held.
    ///
    /// Refusal: 17 (nothing is held under the name).
    ///
    /// ```
    /// use sukhlent::{Refusal, Store};
    ///
    /// assert_eq!(Store::new().return_to([0; 8]), Err(Refusal::NotHeld));
    /// ```
    pub fn return_to(&self, name: [u8; 8]) -> Result<Record, Refusal> {
        let (mut n, mut words, mut codes, mut used) = (0, [0; 64], [0; 64], 0);
        let (name, held) = (u64::from_ne_bytes(name), self.lent());
        let number = raw::return_to(name, held, &mut n, &mut words, &mut codes, &mut used);
        Refusal::unless_accepted(number).map(|()| Record {
            neighbours: words[..n as usize].to_vec(),
            codes: codes[..n as usize].to_vec(),
            used,
        })
    }

    /// Makes the place of a name free for the next save.
    ///
    /// Refusal: 17 (nothing is held under the name).
    ///
    /// ```
    /// use sukhlent::{Record, Store};
    ///
    /// let mut store = Store::new();
    /// store.save(&Record::zeros(3), *b"start   ")?;
    /// store.forget(*b"start   ")?;
    /// assert_eq!(store.names().count(), 0);
    /// # Ok::<(), sukhlent::Refusal>(())
    /// ```
    pub fn forget(&mut self, name: [u8; 8]) -> Result<(), Refusal> {
        let (words, codes) = (&*self.neighbours, &*self.codes);
        let number = raw::forget(u64::from_ne_bytes(name), &mut self.heads, words, codes);
        Refusal::unless_accepted(number)
    }

    /// The names that are held, in the order of their places.
    ///
    /// ```
    /// use sukhlent::{Record, Store};
    ///
    /// let mut store = Store::new();
    /// store.save(&Record::zeros(1), *b"one     ")?;
    /// assert!(store.names().eq([*b"one     "]));
    /// # Ok::<(), sukhlent::Refusal>(())
    /// ```
    pub fn names(&self) -> impl Iterator<Item = [u8; 8]> + '_ {
        let held = self.heads.chunks(3).filter(|place| place[0] != 0);
        held.map(|place| place[1].to_ne_bytes())
    }
}
