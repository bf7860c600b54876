//! Records.

use crate::{codes, compare_records, equivalent_records, raw, Comparison, GeneratorList, Refusal};

/// A graph with one local Clifford per vertex, one place per vertex in the first two fields, and a
/// word of used qubits.
///
/// Generator `j` is X at `j` and Z at the neighbours of `j`, each place sent through its code. The
/// used word plays no part in it.
///
/// `==` compares the three fields. Two states are equal exactly where their reduced records have
/// equal neighbours and codes.
///
/// ```
/// use sukhlent::{codes, expand, Record};
///
/// // The path 0 - 1 - 2 with a Hadamard in the middle.
/// let record = Record {
///     neighbours: vec![0b010, 0b101, 0b010],
///     codes: vec![codes::I, codes::H, codes::S_DAG],
///     used: 0,
/// };
/// assert_eq!(expand(&record)?.to_string(), "+XXI\n+ZZZ\n-IXY\n");
/// # Ok::<(), sukhlent::Refusal>(())
/// ```
#[derive(Clone, Debug, Default, PartialEq, Eq, Hash)]
pub struct Record {
    /// The neighbours of each vertex; the graph is simple.
    pub neighbours: Vec<u64>,
    /// The code of each vertex: 4 times the class, plus 2 sx, plus sz.
    pub codes: Vec<u8>,
    /// The used qubits, bit q for qubit q: an accepted measurement sets it, and until
    /// `renew` no gate, cz, complement or measurement may name the qubit. A used vertex has no neighbour and one of the codes 0, 2, 4, 6, 8, 10.
    pub used: u64,
}

impl Record {
    /// Every qubit in +Z, with which a session starts: no edge, the code of the Hadamard
    /// everywhere, no qubit used.
    ///
    /// ```
    /// use sukhlent::{expand, Record};
    ///
    /// assert_eq!(expand(&Record::zeros(2))?.to_string(), "+ZI\n+IZ\n");
    /// # Ok::<(), sukhlent::Refusal>(())
    /// ```
    pub fn zeros(n: usize) -> Record {
        Record {
            neighbours: vec![0; n],
            codes: vec![codes::H; n],
            used: 0,
        }
    }

    /// The graph state of these edges on n vertices: code 0 everywhere, no qubit used. An edge that
    /// is named twice, in either order, is one edge.
    ///
    /// Refusals, as Python's `State.graph` has them: 2 where n is not 1 to 64, 5 where an edge leaves
    /// the n vertices, 7 where one joins a vertex to itself.
    ///
    /// ```
    /// use sukhlent::{expand, Record, Refusal};
    ///
    /// let path = Record::graph(3, &[(0, 1), (2, 1), (1, 2)])?;
    /// assert_eq!(expand(&path)?.to_string(), "+XZI\n+ZXZ\n+IZX\n");
    /// assert_eq!(Record::graph(3, &[(0, 3)]), Err(Refusal::Stray));
    /// assert_eq!(Record::graph(3, &[(1, 1)]), Err(Refusal::Graph));
    /// # Ok::<(), Refusal>(())
    /// ```
    pub fn graph(n: usize, edges: &[(usize, usize)]) -> Result<Record, Refusal> {
        if !(1..=64).contains(&n) {
            return Err(Refusal::Count);
        }
        if edges.iter().any(|&(a, b)| a.max(b) >= n) {
            return Err(Refusal::Stray);
        }
        if edges.iter().any(|&(a, b)| a == b) {
            return Err(Refusal::Graph);
        }
        let mut neighbours = vec![0; n];
        for &(a, b) in edges {
            neighbours[a] |= 1 << b;
            neighbours[b] |= 1 << a;
        }
        Ok(Record {
            neighbours,
            codes: vec![codes::I; n],
            used: 0,
        })
    }

    /// The number of vertices.
    ///
    /// ```
    /// assert_eq!(sukhlent::Record::zeros(5).n(), 5);
    /// ```
    pub fn n(&self) -> usize {
        self.codes.len()
    }

    /// The record as the raw calls read it.
    pub(crate) fn lent(&self) -> raw::LentRecord<'_> {
        (self.n() as u64, &self.neighbours, &self.codes, self.used)
    }

    /// The record as the raw calls rewrite it.
    pub(crate) fn lent_mut(&mut self) -> (u64, &mut [u64], &mut [u8], &mut u64) {
        let n = self.n() as u64;
        (n, &mut self.neighbours, &mut self.codes, &mut self.used)
    }

    /// Compares two states, as [`compare`](crate::compare) does with their generators.
    ///
    /// Refusals: those of [`compare_records`].
    ///
    /// ```
    /// use sukhlent::{Record, Refusal};
    ///
    /// let path = Record::graph(3, &[(0, 1), (1, 2)])?;
    /// let triangle = Record::graph(3, &[(0, 1), (1, 2), (0, 2)])?;
    /// assert_eq!(path.compare(&triangle)?.complementations, [1]);
    /// let apart = Record::graph(3, &[])?;
    /// assert_eq!(path.compare(&apart), Err(Refusal::Inequivalent));
    /// # Ok::<(), Refusal>(())
    /// ```
    pub fn compare(&self, other: &Record) -> Result<Comparison, Refusal> {
        compare_records(self, other)
    }

    /// Compares two states with connected parts of any size, as [`equivalent`](crate::equivalent)
    /// does with their generators.
    ///
    /// Refusals: those of [`equivalent_records`].
    ///
    /// ```
    /// use sukhlent::{Record, Refusal};
    ///
    /// // A ring on 64 vertices, and the ring with the neighbours of 0 joined.
    /// let mut edges: Vec<(usize, usize)> = (0..64).map(|q| (q, (q + 1) % 64)).collect();
    /// let ring = Record::graph(64, &edges)?;
    /// edges.push((1, 63));
    /// let chord = Record::graph(64, &edges)?;
    /// assert_eq!(ring.equivalent(&chord)?.complementations, [0]);
    /// assert_eq!(ring.compare(&chord), Err(Refusal::Large));
    /// # Ok::<(), Refusal>(())
    /// ```
    pub fn equivalent(&self, other: &Record) -> Result<Comparison, Refusal> {
        equivalent_records(self, other)
    }
}

/// The generators of the record, in order of the vertices.
///
/// Refusals: 2, 4, 5, 6, 7, of 5 and 7 those of the used word too.
///
/// ```
/// use sukhlent::{expand, Record, Refusal};
///
/// // +X and -Z, of which the second qubit has been measured.
/// let record = Record { neighbours: vec![0, 0], codes: vec![0, 10], used: 0b10 };
/// assert_eq!(expand(&record)?.signs, [0, 1]);
/// // A used vertex with a neighbour.
/// let edge = Record { neighbours: vec![0b10, 0b01], codes: vec![0, 0], used: 0b10 };
/// assert_eq!(expand(&edge), Err(Refusal::Graph));
/// # Ok::<(), sukhlent::Refusal>(())
/// ```
pub fn expand(record: &Record) -> Result<GeneratorList, Refusal> {
    let n = record.n();
    let mut list = GeneratorList {
        signs: vec![0; n],
        z: vec![0; n],
        x: vec![0; n],
    };
    let number = raw::expand(
        n as u64,
        &record.neighbours,
        &record.codes,
        record.used,
        &mut list.signs,
        &mut list.z,
        &mut list.x,
    );
    Refusal::unless_accepted(number).map(|()| list)
}
