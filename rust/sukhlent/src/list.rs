//! Generator lists.

use crate::{raw, Record, Refusal};

/// The generators of a stabilizer group, one place per generator in each field.
///
/// At qubit `q` the bits `q` of `z` and `x` are 00 for I, 01 for X, 10 for Z and 11 for Y.
///
/// ```
/// use sukhlent::GeneratorList;
///
/// let list: GeneratorList = "+XZ\n-YY\n".parse()?;
/// assert_eq!((&*list.signs, &*list.z, &*list.x), (&[0, 1][..], &[2, 3][..], &[1, 3][..]));
/// # Ok::<(), sukhlent::Refusal>(())
/// ```
#[derive(Clone, Debug, Default, PartialEq, Eq, Hash)]
pub struct GeneratorList {
    /// 0 for plus, 1 for minus.
    pub signs: Vec<u8>,
    /// The qubits with letter Z or Y.
    pub z: Vec<u64>,
    /// The qubits with letter X or Y.
    pub x: Vec<u64>,
}

impl GeneratorList {
    /// The number of generators, which is the number of qubits.
    ///
    /// ```
    /// let list: sukhlent::GeneratorList = "-Y\n".parse()?;
    /// assert_eq!(list.n(), 1);
    /// # Ok::<(), sukhlent::Refusal>(())
    /// ```
    pub fn n(&self) -> usize {
        self.signs.len()
    }
}

/// Whether the list generates a stabilizer state: n commuting, independent generators.
///
/// Refusals: 2, 4, 5, 6, 9, 10.
///
/// ```
/// use sukhlent::{check, GeneratorList, Refusal};
///
/// let mut list: GeneratorList = "+XX\n+ZZ\n".parse()?;
/// assert_eq!(check(&list), Ok(()));
/// list.z = vec![0b00, 0b01];
/// assert_eq!(check(&list), Err(Refusal::Anticommute));
/// # Ok::<(), Refusal>(())
/// ```
pub fn check(list: &GeneratorList) -> Result<(), Refusal> {
    let number = raw::check(list.n() as u64, &list.signs, &list.z, &list.x);
    Refusal::unless_accepted(number)
}

/// The reduced record of the list's group, with no used qubit. Equal groups give equal records.
///
/// Refusals: 2, 4, 5, 6, 9, 10.
///
/// ```
/// use sukhlent::{reduce, GeneratorList};
///
/// // XX, ZZ and XX, -YY generate one group.
/// let first: GeneratorList = "+XX\n+ZZ\n".parse()?;
/// let second: GeneratorList = "+XX\n-YY\n".parse()?;
/// assert_eq!(reduce(&first)?, reduce(&second)?);
/// # Ok::<(), sukhlent::Refusal>(())
/// ```
pub fn reduce(list: &GeneratorList) -> Result<Record, Refusal> {
    let n = list.n();
    let mut record = Record {
        neighbours: vec![0; n],
        codes: vec![0; n],
        used: 0,
    };
    let number = raw::reduce(
        n as u64,
        &list.signs,
        &list.z,
        &list.x,
        &mut record.neighbours,
        &mut record.codes,
        &mut record.used,
    );
    Refusal::unless_accepted(number).map(|()| record)
}
