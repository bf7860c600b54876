//! Comparison under local Cliffords.

use crate::image::LIST_PLACES;
use crate::raw::{self, Lent};
use crate::{GeneratorList, Record, Refusal};

/// How one state becomes another: what [`compare`] and [`equivalent`] answer.
///
/// ```
/// use sukhlent::{codes, compare};
///
/// // A Bell state becomes another one by Z at one of its qubits: the least choice has it at qubit 1.
/// let answer = compare(&"+XX\n+ZZ\n".parse()?, &"-XX\n+ZZ\n".parse()?)?;
/// assert_eq!(answer.choice, [codes::I, codes::Z]);
/// assert_eq!(answer.complementations, []);
/// # Ok::<(), sukhlent::Refusal>(())
/// ```
#[derive(Clone, Debug, Default, PartialEq, Eq, Hash)]
pub struct Comparison {
    /// The least choice of one code per qubit that carries the first group onto the second: least by
    /// the classes of qubits 0, 1 and so on, then by 2 sx + sz in the same order. Qubits keep their
    /// numbers: none is exchanged with another.
    pub choice: Vec<u8>,
    /// The vertices whose local complementations, in order, turn the reduced graph of the first
    /// list into that of the second.
    pub complementations: Vec<u8>,
}

fn lent(list: &GeneratorList) -> Lent<'_> {
    (list.n() as u64, &list.signs, &list.z, &list.x)
}

/// A comparison of two states that are lent as C takes them.
type Call<T> = fn(T, T, &mut [u8], &mut [u8], &mut u64) -> u8;

/// What a call answers on two states, the first on n qubits.
fn answered<T>(call: Call<T>, n: usize, first: T, second: T) -> Result<Comparison, Refusal> {
    let mut answer = Comparison {
        choice: vec![0; n],
        complementations: vec![0; LIST_PLACES],
    };
    let mut count = 0;
    let (choice, list) = (&mut answer.choice, &mut answer.complementations);
    let number = call(first, second, choice, list, &mut count);
    answer.complementations.truncate(count as usize);
    Refusal::unless_accepted(number).map(|()| answer)
}

/// Compares two states: `Refusal::Large` where a connected part of either reduced graph has
/// more than 20 vertices ([`equivalent`] has no such limit), `Refusal::Inequivalent` where no choice
/// carries the first group onto the second.
///
/// Refusals: 2, 4, 5, 6, 9, 10, 3, 13.
///
/// ```
/// use sukhlent::{compare, Refusal};
///
/// // The paths 0 - 1 - 2 and 1 - 0 - 2: Hadamards at 0 and at 1, a pivot on their edge.
/// let path = "+XZI\n+ZXZ\n+IZX\n".parse()?;
/// let answer = compare(&path, &"+XZZ\n+ZXI\n+ZIX\n".parse()?)?;
/// assert_eq!(answer.choice, [8, 8, 0]);
/// assert_eq!(answer.complementations, [0, 1, 0]);
/// // Three qubits apart are another state altogether.
/// let apart = "+ZII\n+IZI\n+IIZ\n".parse()?;
/// assert_eq!(compare(&path, &apart), Err(Refusal::Inequivalent));
/// # Ok::<(), Refusal>(())
/// ```
pub fn compare(first: &GeneratorList, second: &GeneratorList) -> Result<Comparison, Refusal> {
    answered(raw::compare, first.n(), lent(first), lent(second))
}

/// Compares the states of two records, with the answer that [`compare`] gives on their expansions.
///
/// Refusals: 2, 4, 5, 6, 7, 3, 13.
///
/// ```
/// use sukhlent::{compare, compare_records, expand, reduce, Refusal};
///
/// let path = reduce(&"+XZI\n+ZXZ\n+IZX\n".parse()?)?;
/// let other = reduce(&"+XZZ\n+ZXI\n+ZIX\n".parse()?)?;
/// let answer = compare_records(&path, &other)?;
/// assert_eq!(answer.complementations, [0, 1, 0]);
/// assert_eq!(Ok(answer), compare(&expand(&path)?, &expand(&other)?));
/// # Ok::<(), Refusal>(())
/// ```
pub fn compare_records(first: &Record, second: &Record) -> Result<Comparison, Refusal> {
    answered(raw::compare_records, first.n(), graph(first), graph(second))
}

/// Compares two states as [`compare`] does, with connected parts of any size.
///
/// Refusals: 2, 4, 5, 6, 9, 10, 13.
///
/// ```
/// use sukhlent::{compare, equivalent, expand, Record, Refusal};
///
/// // Paths on 21 vertices, the second with vertices 0 and 1 exchanged.
/// let mut edges: Vec<(usize, usize)> = (0..20).map(|q| (q, q + 1)).collect();
/// let path = expand(&Record::graph(21, &edges)?)?;
/// edges[1] = (0, 2);
/// let other = expand(&Record::graph(21, &edges)?)?;
/// assert_eq!(compare(&path, &other), Err(Refusal::Large));
/// let answer = equivalent(&path, &other)?;
/// assert_eq!(answer.choice[..3], [8, 8, 0]);
/// assert_eq!(answer.complementations, [0, 1, 0]);
/// # Ok::<(), Refusal>(())
/// ```
pub fn equivalent(first: &GeneratorList, second: &GeneratorList) -> Result<Comparison, Refusal> {
    answered(raw::equivalent, first.n(), lent(first), lent(second))
}

/// Compares the states of two records as [`compare_records`] does, with connected parts of any size.
///
/// Refusals: 2, 4, 5, 6, 7, 13.
///
/// ```
/// use sukhlent::{equivalent_records, Record, Refusal};
///
/// // A star on 64 vertices and the complete graph: complemented at the star's centre.
/// let star: Vec<(usize, usize)> = (1..64).map(|q| (0, q)).collect();
/// let all: Vec<(usize, usize)> = (0..64).flat_map(|a| (a + 1..64).map(move |b| (a, b))).collect();
/// let (star, complete) = (Record::graph(64, &star)?, Record::graph(64, &all)?);
/// assert_eq!(equivalent_records(&star, &complete)?.complementations, [0]);
/// let ring: Vec<(usize, usize)> = (0..64).map(|q| (q, (q + 1) % 64)).collect();
/// let ring = Record::graph(64, &ring)?;
/// assert_eq!(equivalent_records(&star, &ring), Err(Refusal::Inequivalent));
/// # Ok::<(), Refusal>(())
/// ```
pub fn equivalent_records(first: &Record, second: &Record) -> Result<Comparison, Refusal> {
    answered(
        raw::equivalent_records,
        first.n(),
        graph(first),
        graph(second),
    )
}

fn graph(record: &Record) -> raw::LentGraph<'_> {
    (record.n() as u64, &record.neighbours, &record.codes)
}
